//! serve_load ADDRESS PROCESS MIX SESSIONS SECONDS RATE: a load on a central system, and what it cost there.
//!
//! Sessions of charge points P1, P2, .. and of their operators send texts for so many seconds, after a quarter of that
//! time (one second at least) that isn't counted. Each has one text under way at a time. RATE texts a second are due in
//! all, evenly spread, and a text's latency counts from when it was due; with the rate 0 the next is due once the last is
//! answered. PROCESS is the server's process number. README.md in the folder above says what the mixes hold. It prints
//! one line of words and numbers; status 2 where an answer was wrong.
mod process;
mod session;
mod socket;
mod texts;

use process::{peak_kilobytes, processor_nanoseconds};
use session::{Counts, Load, Phase};
use std::sync::atomic::{AtomicI64, AtomicU8, Ordering};
use std::sync::{Barrier, OnceLock};
use std::thread;
use std::time::{Duration, Instant};
use texts::{Mix, Side};

struct Arguments {
    address: String,
    process: u32,
    mix: Mix,
    sessions: usize,
    seconds: f64,
    rate: f64,
}

fn arguments() -> Option<Arguments> {
    let words: Vec<String> = std::env::args().skip(1).collect();
    let [address, process, mix, sessions, seconds, rate] = words.as_slice() else {
        return None;
    };
    Some(Arguments {
        address: address.clone(),
        process: process.parse().ok()?,
        mix: Mix::named(mix)?,
        sessions: sessions.parse().ok().filter(|sessions| (1..=256).contains(sessions))?,
        seconds: seconds.parse().ok().filter(|seconds| *seconds > 0.0)?,
        rate: rate.parse().ok().filter(|rate| *rate >= 0.0)?,
    })
}

/// What the measured time came to beside the texts.
struct Cost {
    seconds: f64,
    server_seconds: f64,
    peak: u64,
}

fn main() {
    let Some(given) = arguments() else {
        eprintln!("serve_load ADDRESS PROCESS heartbeats|profiles|asks|day|changes SESSIONS SECONDS RATE");
        std::process::exit(4);
    };
    let sides = given.mix.sides(given.sessions);
    let load = Load {
        address: given.address.clone(),
        mix: given.mix,
        phase: AtomicU8::new(Phase::WarmUp as u8),
        gate: Barrier::new(sides.len() + 1),
        begin: OnceLock::new(),
        interval: (given.rate > 0.0).then(|| Duration::from_secs_f64(sides.len() as f64 / given.rate)),
        sessions: sides.len(),
        waiting: sides.iter().map(|_| AtomicI64::new(0)).collect(),
    };
    let (cost, counts) = run(&load, &given, &sides);
    report(&given, &cost, counts);
}

/// Runs the sessions, each on a thread of its own, and measures while they send.
fn run(load: &Load, given: &Arguments, sides: &[(Side, usize)]) -> (Cost, Vec<Counts>) {
    thread::scope(|scope| {
        let threads: Vec<_> = sides
            .iter()
            .enumerate()
            .map(|(place, (side, point))| scope.spawn(move || session::play(load, place, *side, *point)))
            .collect();
        load.gate.wait(); // all are connected, and have their profiles
        let _ = load.begin.set(Instant::now());
        load.gate.wait();
        thread::sleep(Duration::from_secs_f64((given.seconds / 4.0).max(1.0)));
        let (began, before) = (Instant::now(), processor_nanoseconds(given.process));
        load.phase.store(Phase::Measured as u8, Ordering::Relaxed);
        thread::sleep(Duration::from_secs_f64(given.seconds));
        load.phase.store(Phase::Over as u8, Ordering::Relaxed);
        let spent = processor_nanoseconds(given.process).saturating_sub(before);
        let cost = Cost {
            seconds: began.elapsed().as_secs_f64(),
            server_seconds: spent as f64 / 1e9,
            peak: peak_kilobytes(given.process),
        };
        load.gate.wait(); // none sends any more
        let counts = threads.into_iter().map(|thread| thread.join().unwrap_or_else(|_| Counts::failed("a thread"))).collect();
        (cost, counts)
    })
}

/// The latency below which so many of 1,000 lie, in microseconds.
fn quantile(sorted: &[u64], of_thousand: usize) -> f64 {
    let place = (sorted.len() * of_thousand).div_ceil(1_000).max(1) - 1;
    sorted.get(place).map_or(0.0, |nanoseconds| *nanoseconds as f64 / 1e3)
}

fn report(given: &Arguments, cost: &Cost, counts: Vec<Counts>) {
    let mut latencies: Vec<u64> = counts.iter().flat_map(|one| one.latencies.iter().copied()).collect();
    latencies.sort_unstable();
    let replies: u64 = counts.iter().map(|one| one.replies).sum();
    let messages = latencies.len() as u64 + replies;
    let all: u64 = counts.iter().map(|one| one.all).sum();
    let faults: Vec<&String> = counts.iter().flat_map(|one| one.faults.iter()).collect();
    println!(
        "messages {messages} all {all} seconds {:.3} a_second {:.0} server_us {:.2} p50 {:.1} p99 {:.1} p999 {:.1} max {:.1} peak_kb {} wrong {}",
        cost.seconds,
        messages as f64 / cost.seconds,
        1e6 * cost.server_seconds / (messages.max(1)) as f64,
        quantile(&latencies, 500),
        quantile(&latencies, 990),
        quantile(&latencies, 999),
        quantile(&latencies, 1_000),
        cost.peak,
        faults.len(),
    );
    if let Some(first) = faults.first() {
        eprintln!("serve_load, {} sessions: {first}", given.sessions);
        std::process::exit(2);
    }
}
