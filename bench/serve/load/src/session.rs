//! One session: its profiles first, then text after text until the load is over.

use crate::socket::Socket;
use crate::texts::{install, Asked, Mix, Side, PROFILES};
use std::io::{Error, ErrorKind, Result};
use std::sync::atomic::{AtomicI64, AtomicU8, Ordering};
use std::sync::{Barrier, OnceLock};
use std::thread;
use std::time::{Duration, Instant};

/// So many calls may wait for a point before its operator waits; the central system refuses a change from 256 on.
const MOST_WAITING: i64 = 200;

#[derive(Clone, Copy)]
#[repr(u8)]
pub enum Phase {
    WarmUp,
    Measured,
    Over,
}

/// What all sessions share.
pub struct Load {
    pub address: String,
    pub mix: Mix,
    pub phase: AtomicU8,
    pub gate: Barrier,
    pub begin: OnceLock<Instant>,
    /// How far apart a session's texts are due.
    pub interval: Option<Duration>,
    pub sessions: usize,
    /// How many calls each point hasn't confirmed, by its number.
    pub waiting: Vec<AtomicI64>,
}

impl Load {
    fn is(&self, phase: Phase) -> bool {
        self.phase.load(Ordering::Relaxed) == phase as u8
    }
}

/// The latencies of the measured texts in nanoseconds, the replies to calls beside them, all texts and replies that were
/// sent, measured or not, and what went wrong.
#[derive(Default)]
pub struct Counts {
    pub latencies: Vec<u64>,
    pub replies: u64,
    pub all: u64,
    pub faults: Vec<String>,
}

impl Counts {
    pub fn failed(why: &str) -> Counts {
        Counts { faults: vec![why.to_string()], ..Counts::default() }
    }
}

struct Session<'a> {
    load: &'a Load,
    socket: Socket,
    side: Side,
    point: usize,
    counts: Counts,
    asked: u64,
    transaction: u64,
}

/// Plays a session. It passes each gate, whatever becomes of it.
pub fn play(load: &Load, place: usize, side: Side, point: usize) -> Counts {
    let mut session = Session::open(load, side, point);
    load.gate.wait();
    load.gate.wait();
    let fault = match session.as_mut() {
        Ok(session) => session.send_texts(place).err().map(|fault| fault.to_string()),
        Err(fault) => Some(fault.to_string()),
    };
    load.gate.wait();
    let mut counts = match session {
        Ok(Session { socket, counts, .. }) => {
            let _ = socket.close();
            counts
        }
        Err(_) => Counts::default(),
    };
    counts.faults.extend(fault);
    counts
}

impl<'a> Session<'a> {
    /// Connects. An operator installs its profiles; a point sends its first text.
    fn open(load: &'a Load, side: Side, point: usize) -> Result<Session<'a>> {
        let folder = if side == Side::Operator { "operator" } else { "ocpp" };
        let socket = Socket::open(&load.address, &format!("/{folder}/P{}", point + 1))?;
        let mut session = Session { load, socket, side, point, counts: Counts::default(), asked: 0, transaction: 0 };
        if side == Side::Operator {
            for number in 0..PROFILES {
                session.exchange(&install(number))?;
            }
        }
        Ok(session)
    }

    /// Sends texts, each when it is due, until the load is over.
    fn send_texts(&mut self, place: usize) -> Result<()> {
        let begin = *self.load.begin.get().unwrap_or(&Instant::now());
        let share = place as f64 / self.load.sessions as f64;
        for number in 0.. {
            let due = match self.load.interval {
                Some(interval) => begin + interval.mul_f64(number as f64 + share),
                None => Instant::now(),
            };
            thread::sleep(due.saturating_duration_since(Instant::now()));
            while self.is_to_wait() && !self.load.is(Phase::Over) {
                thread::sleep(Duration::from_micros(200));
            }
            if self.load.is(Phase::Over) {
                break;
            }
            let asked = self.load.mix.text(self.side, number, self.transaction);
            let due = if self.load.interval.is_some() { due } else { Instant::now() };
            self.exchange(&asked)?;
            if self.load.is(Phase::Measured) {
                self.counts.latencies.push(due.elapsed().as_nanos() as u64);
            }
        }
        Ok(())
    }

    fn is_to_wait(&self) -> bool {
        self.side == Side::Operator && self.load.waiting[self.point].load(Ordering::Relaxed) >= MOST_WAITING
    }

    /// Sends a text and waits for its answer. The calls that came before the answer are replied to behind it.
    fn exchange(&mut self, asked: &Asked) -> Result<()> {
        self.asked += 1;
        self.counts.all += 1;
        let id = self.asked.to_string();
        self.socket.send(&format!(r#"[2,"{id}","{}",{}]"#, asked.action, asked.payload))?;
        let head = format!(r#"[3,"{id}",{}"#, asked.answer);
        let mut calls = Vec::new();
        loop {
            let text = self.socket.receive()?;
            if let Some(call) = text.strip_prefix("[2,\"").and_then(|rest| rest.split('"').next()) {
                calls.push(call.to_string());
                continue;
            }
            let Some(rest) = text.strip_prefix(head.as_str()) else {
                let start: String = text.chars().take(120).collect();
                return Err(Error::new(ErrorKind::InvalidData, format!("{} was answered {start}", asked.action)));
            };
            if asked.action == "StartTransaction" {
                self.transaction = rest.trim_end_matches(['}', ']']).parse().unwrap_or(0);
            }
            break;
        }
        if asked.action == "SetChargingProfile" {
            self.load.waiting[self.point].fetch_add(1, Ordering::Relaxed);
        }
        calls.iter().try_for_each(|call| self.reply(call))
    }

    fn reply(&mut self, call: &str) -> Result<()> {
        self.socket.send(&format!(r#"[3,"{call}",{{"status":"Accepted"}}]"#))?;
        if call != "0" {
            self.load.waiting[self.point].fetch_sub(1, Ordering::Relaxed);
        }
        self.counts.all += 1;
        self.counts.replies += u64::from(self.load.is(Phase::Measured));
        Ok(())
    }
}
