//! Workers that compile asks over one shared store beside a session that changes what a point has, in ordinary
//! Rust: std's Mutex, Condvar, Arc and channel, without a history and without proofs.
#[path = "../../../yardstick/src/instant.rs"]
#[allow(dead_code)]
mod instant;
mod profile;
#[path = "../../../yardstick/src/schedule.rs"]
mod schedule;
mod store;

use instant::{read_instant, Instant};
use profile::Profile;
use schedule::compose;
use std::collections::VecDeque;
use std::hint::black_box;
use std::sync::atomic::{AtomicBool, Ordering};
use std::sync::mpsc::{sync_channel, Receiver, SyncSender};
use std::sync::{Arc, Condvar, Mutex};
use std::thread;
use std::time::Instant as Moment;
use store::{Ask, Job, Store};

/// A profile with the connector that it stands at and the second of its install.
#[derive(Clone)]
pub struct Row {
    pub connector: i32,
    pub moment: i64,
    pub profile: Arc<Profile>,
}

/// What a point has. All limits are in tenths of an ampere.
#[derive(Clone)]
pub struct Point {
    pub ceiling: u64,
    pub ceilings: Vec<u64>,
    pub started: Vec<Option<i64>>,
    pub rows: Vec<Row>,
}

struct Shared {
    store: Mutex<Store>,
    answered: Condvar,
}

/// What is asked and beside how many workers.
#[derive(Clone, Copy)]
struct Load {
    asks: u64,
    duration: i64,
    workers: usize,
    has_changes: bool,
}

const POINT: &str = "0000";
const PROFILES: i32 = 100;
const WAITING: usize = 32;

fn main() {
    for (asks, duration) in [(100_000, 1), (50_000, 86_400)] {
        for has_changes in [false, true] {
            for workers in [1, 2, 4] {
                measure(Load { asks, duration, workers, has_changes });
            }
        }
    }
}

fn midnight() -> Instant {
    read_instant("2025-01-01T00:00:00Z").expect("an instant")
}

fn measure(load: Load) {
    let mut store = Store::default();
    store.add_point(POINT, Point { ceiling: 10_000, ceilings: vec![320], started: vec![None], rows: Vec::new() });
    for number in 0..PROFILES {
        install(&mut store, &Profile::daily(number, midnight()));
        confirm(&mut store);
    }
    let shared = Shared { store: Mutex::new(store), answered: Condvar::new() };
    let (sender, receiver) = sync_channel(64);
    let receiver = Mutex::new(receiver);
    let is_done = AtomicBool::new(false);
    let ((asked, sum), changed) = thread::scope(|scope| {
        for _ in 0..load.workers {
            scope.spawn(|| work(&receiver, &shared));
        }
        let changer = scope.spawn(|| change(&shared, load, &is_done));
        let asked = ask(&shared, sender, load);
        is_done.store(true, Ordering::SeqCst);
        (asked, changer.join().expect("changes"))
    });
    let (duration, workers) = (load.duration, load.workers);
    let changes = if load.has_changes { "changes" } else { "none" };
    println!("plain {duration} {workers} {changes} {asked} {changed} {sum}");
}

fn install(store: &mut Store, profile: &Profile) {
    let mut seen = 0;
    store.install(POINT, 1, profile.clone(), midnight().seconds(), &mut seen).expect("an install");
}

fn confirm(store: &mut Store) {
    let call = store.send(POINT).expect("a call");
    store.confirm(POINT, call.number);
}

fn work(jobs: &Mutex<Receiver<Job>>, shared: &Shared) {
    loop {
        let next = jobs.lock().expect("jobs").recv();
        let Ok(Job { number, book, ask }) = next else {
            return;
        };
        let answer = compose(&book, ask.connector, ask.start, ask.duration).ok_or("ResultTooLong");
        drop(book);
        shared.store.lock().expect("the store").post(number, answer);
        shared.answered.notify_all();
    }
}

/// Asks, with so many requests waiting, and gives asks a second and the sum of the limits in the answers.
fn ask(shared: &Shared, jobs: SyncSender<Job>, load: Load) -> (u64, u64) {
    let (mut seen, mut sum, mut waiting) = (0, 0, VecDeque::new());
    let began = Moment::now();
    for number in 0..load.asks {
        if waiting.len() == WAITING {
            sum += wait(shared, waiting.pop_front().expect("a number"), &mut seen);
        }
        let start = midnight().seconds() + 86_400 + (number * 7 % 86_400) as i64;
        let ask = Ask { connector: 1, start, duration: load.duration };
        let job = shared.store.lock().expect("the store").take(POINT, ask, &mut seen).expect("a job");
        waiting.push_back(job.number);
        jobs.send(job).expect("a worker");
    }
    for number in waiting {
        sum += wait(shared, number, &mut seen);
    }
    (a_second(load.asks, began), sum)
}

fn wait(shared: &Shared, number: u64, seen: &mut u64) -> u64 {
    let store = shared.store.lock().expect("the store");
    let mut store = shared.answered.wait_while(store, |store| store.awaits(number)).expect("the store");
    let collected = store.collect(number, seen).expect("an answer");
    drop(store);
    black_box((collected.ask, collected.book.rows.len()));
    collected.answer.expect("a schedule").iter().map(|period| period.1).sum()
}

/// Installs the lowest profile over and over again, each time with the point's reply to its call.
fn change(shared: &Shared, load: Load, is_done: &AtomicBool) -> u64 {
    let (mut changes, profile) = (0, Profile::daily(0, midnight()));
    let (mut seen, began) = (0, Moment::now());
    while load.has_changes && !is_done.load(Ordering::SeqCst) {
        let (profile, moment) = (profile.clone(), midnight().seconds());
        shared.store.lock().expect("the store").install(POINT, 1, profile, moment, &mut seen).expect("an install");
        let call = shared.store.lock().expect("the store").send(POINT).expect("a call");
        black_box((call.connector, &call.profile));
        shared.store.lock().expect("the store").confirm(POINT, call.number);
        changes += 1;
    }
    a_second(changes, began)
}

fn a_second(count: u64, began: Moment) -> u64 {
    (count as f64 / began.elapsed().as_secs_f64()) as u64
}
