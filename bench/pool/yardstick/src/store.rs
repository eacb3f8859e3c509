//! What threads share: points, the calls to them, and the requests for schedules.
use crate::profile::Profile;
use crate::{Point, Row};
use std::collections::{HashMap, VecDeque};
use std::sync::Arc;

const MOST_REQUESTS: usize = 64;
const MOST_PROFILES: usize = 200;
const MOST_CALLS: usize = 256;
const LONGEST_ASK: i64 = 2_678_400;

pub type Refusal = &'static str;
pub type Answer = Result<Vec<(i64, u64)>, Refusal>;

#[derive(Clone, Copy)]
pub struct Ask {
    pub connector: i32,
    pub start: i64,
    pub duration: i64,
}

/// What a worker is given.
pub struct Job {
    pub number: u64,
    pub book: Arc<Point>,
    pub ask: Ask,
}

/// The call that tells a point of an install.
#[derive(Clone)]
pub struct Call {
    pub number: u64,
    pub connector: i32,
    pub profile: Arc<Profile>,
}

#[derive(Default)]
struct Outbox {
    calls: VecDeque<Call>,
    next: u64,
    is_in_flight: bool,
}

struct Kept {
    number: u64,
    book: Arc<Point>,
    ask: Ask,
    answer: Option<Answer>,
}

/// An answer that is handed out, with what it answers.
pub struct Collected {
    pub book: Arc<Point>,
    pub ask: Ask,
    pub answer: Answer,
}

#[derive(Default)]
pub struct Store {
    points: HashMap<String, (Arc<Point>, Outbox)>,
    requests: Vec<Kept>,
    drawn: u64,
    version: u64,
}

impl Store {
    pub fn add_point(&mut self, id: &str, point: Point) {
        self.points.insert(id.to_string(), (Arc::new(point), Outbox::default()));
    }

    /// Keeps a request, of a session that has seen this version.
    pub fn take(&mut self, point: &str, ask: Ask, seen: &mut u64) -> Result<Job, Refusal> {
        if self.version < *seen {
            return Err("Behind");
        }
        let (book, _) = self.points.get(point).ok_or("UnknownPoint")?;
        if ask.connector as usize > book.ceilings.len() {
            return Err("UnknownConnector");
        }
        if ask.duration == 0 || LONGEST_ASK < ask.duration {
            return Err("BadDuration");
        }
        if self.requests.len() == MOST_REQUESTS {
            return Err("TooManyOpen");
        }
        self.drawn += 1;
        *seen = self.version;
        let (number, book) = (self.drawn, Arc::clone(book));
        self.requests.push(Kept { number, book: Arc::clone(&book), ask, answer: None });
        Ok(Job { number, book, ask })
    }

    /// The request of a number has this answer, if it is kept and has none.
    pub fn post(&mut self, number: u64, answer: Answer) {
        if let Some(kept) = self.requests.iter_mut().find(|kept| kept.number == number && kept.answer.is_none()) {
            kept.answer = Some(answer);
        }
    }

    pub fn awaits(&self, number: u64) -> bool {
        self.requests.iter().any(|kept| kept.number == number && kept.answer.is_none())
    }

    /// Hands out an answer.
    pub fn collect(&mut self, number: u64, seen: &mut u64) -> Option<Collected> {
        let place = self.requests.iter().position(|kept| kept.number == number && kept.answer.is_some())?;
        *seen = self.version.max(*seen);
        let Kept { book, ask, answer, .. } = self.requests.remove(place);
        Some(Collected { book, ask, answer: answer? })
    }

    /// Installs a profile in place of those with its id, and of those with its key.
    pub fn install(&mut self, point: &str, connector: i32, profile: Profile, moment: i64, seen: &mut u64) -> Result<(), Refusal> {
        let (book, outbox) = self.points.get_mut(point).ok_or("UnknownPoint")?;
        let is_replaced = |row: &Row| {
            let has_key = row.connector == connector && row.profile.purpose == profile.purpose && row.profile.level == profile.level;
            has_key || row.profile.id == profile.id
        };
        if connector as usize > book.ceilings.len() {
            return Err("UnknownConnector");
        }
        if book.rows.iter().filter(|row| !is_replaced(row)).count() >= MOST_PROFILES {
            return Err("TooManyProfiles");
        }
        if outbox.calls.len() == MOST_CALLS {
            return Err("OutboxFull");
        }
        let rows = &mut Arc::make_mut(book).rows;
        rows.retain(|row| !is_replaced(row));
        let profile = Arc::new(profile);
        outbox.calls.push_back(Call { number: outbox.next, connector, profile: Arc::clone(&profile) });
        outbox.next += 1;
        rows.push(Row { connector, moment, profile });
        self.version += 1;
        *seen = self.version;
        Ok(())
    }

    /// The first call to a point, unless one is in flight.
    pub fn send(&mut self, point: &str) -> Option<Call> {
        let (_, outbox) = self.points.get_mut(point)?;
        if outbox.is_in_flight {
            return None;
        }
        let call = outbox.calls.front()?.clone();
        outbox.is_in_flight = true;
        Some(call)
    }

    /// The point has answered the call in flight, if it has this number.
    pub fn confirm(&mut self, point: &str, number: u64) {
        if let Some((_, outbox)) = self.points.get_mut(point) {
            if outbox.is_in_flight && outbox.calls.front().is_some_and(|call| call.number == number) {
                outbox.calls.pop_front();
                outbox.is_in_flight = false;
            }
        }
    }
}
