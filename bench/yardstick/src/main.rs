//! Plays the benchmark's scripts as `central replay` does, in ordinary Rust on serde_json's own values: what a
//! central system costs without marked texts, exact fractions and proofs.
mod action;
mod instant;
mod outbox;
mod profile;
mod schedule;

use action::{answer, Answer};
use instant::{read_instant, Instant};
use outbox::Outbox;
use profile::Profile;
use serde_json::Value;
use std::collections::HashMap;
use std::io::{self, BufWriter, Read, Write};
use std::rc::Rc;

const LONGEST_SCRIPT: usize = 16_777_216;
const LONGEST_LINE: usize = 1_048_576;

/// Who sent a text.
#[derive(Clone, Copy, PartialEq)]
pub enum Side {
    Operator,
    Point,
}

/// A profile with the connector that it stands at and the second of its install.
pub struct Row {
    pub connector: i32,
    pub moment: i64,
    pub profile: Rc<Profile>,
}

/// A charge point: ceilings in tenths, for each connector the start of its transaction, and the profiles in the order of
/// their installs. The calls to it, too.
pub struct Point {
    pub ceiling: u64,
    pub ceilings: Vec<u64>,
    pub started: Vec<Option<i64>>,
    pub rows: Vec<Row>,
    pub outbox: Outbox,
}

/// The points of the site by their identities, and how many transactions began; all limits are in amperes.
#[derive(Default)]
pub struct Site {
    pub points: HashMap<String, Point>,
    pub transactions: u64,
}

/// The points of a site file, which is taken to be right.
fn read_site(path: &str) -> Option<Site> {
    let tenths = |value: &Value| Some((value.as_f64()? * 10.0).round() as u64);
    let file: Value = serde_json::from_slice(&std::fs::read(path).ok()?).ok()?;
    let mut site = Site::default();
    for point in file["points"].as_array()? {
        let ceilings: Vec<u64> = point["connectors"].as_array()?.iter().map(tenths).collect::<Option<_>>()?;
        let started = vec![None; ceilings.len()];
        let entry = Point { ceiling: tenths(&point["ceiling"])?, ceilings, started, rows: Vec::new(), outbox: Outbox::new() };
        site.points.insert(point["id"].as_str()?.to_string(), entry);
    }
    Some(site)
}

fn main() -> io::Result<()> {
    let path = std::env::args().nth(1).unwrap_or_default();
    let mut site = read_site(&path).ok_or_else(|| io::Error::other("no site file"))?;
    let mut script = Vec::new();
    io::stdin().lock().take(LONGEST_SCRIPT as u64 + 1).read_to_end(&mut script)?;
    if script.len() > LONGEST_SCRIPT {
        return Err(io::Error::other("ScriptTooLong"));
    }
    let mut output = BufWriter::new(io::stdout().lock());
    for (index, line) in script.split(|byte| *byte == b'\n').enumerate() {
        let line = line.strip_suffix(b"\r").unwrap_or(line);
        if line.is_empty() {
            continue;
        }
        match play(&mut site, line) {
            Ok(played) => played.write(&mut output)?,
            Err(name) => writeln!(output, "! {} {name}", index + 1)?,
        }
    }
    std::hint::black_box(site.points.len()); // what was installed counts as used
    output.flush()
}

/// What a line prints: the answer to its text, and a call with its point.
struct Played<'a> {
    answer: Option<String>,
    call: Option<(&'a str, String)>,
}

impl Played<'_> {
    fn write(&self, output: &mut impl Write) -> io::Result<()> {
        if let Some(answer) = &self.answer {
            writeln!(output, "> {answer}")?;
        }
        if let Some((point, call)) = &self.call {
            writeln!(output, "* {point} {call}")?;
        }
        Ok(())
    }
}

/// What a line prints, or the name of its fault.
fn play<'a>(site: &mut Site, line: &'a [u8]) -> Result<Played<'a>, &'static str> {
    if line.len() > LONGEST_LINE {
        return Err("TooLong");
    }
    let line = std::str::from_utf8(line).map_err(|_| "BadText")?;
    let mut words = line.splitn(4, ' ');
    let (Some(moment), Some(side), Some(point), Some(frame)) = (words.next(), words.next(), words.next(), words.next())
    else {
        return Err("BadLine");
    };
    let side = match side {
        "operator" => Side::Operator,
        "point" => Side::Point,
        _ => return Err("BadLine"),
    };
    let now = read_instant(moment).ok_or("BadInstant")?;
    if side == Side::Point && !site.points.contains_key(point) {
        return Err("UnknownPoint");
    }
    let answer = take_frame(site, point, side, now, frame);
    let linked = site.points.get_mut(point).filter(|_| side == Side::Point);
    let call = linked.and_then(|linked| linked.outbox.send()).map(|call| (point, call));
    Ok(Played { answer, call })
}

/// The answer to a text; what isn't a CALL has none. A point's reply may be to the call in flight.
fn take_frame(site: &mut Site, point: &str, side: Side, now: Instant, text: &str) -> Option<String> {
    let frame: Value = serde_json::from_str(text).ok()?;
    let parts = frame.as_array()?;
    let kind = parts.first()?.as_i64()?;
    let id = parts.get(1)?.as_str()?;
    if id.chars().count() > 36 {
        return None;
    }
    if kind != 2 {
        let linked = site.points.get_mut(point).filter(|_| side == Side::Point && (kind == 3 || kind == 4));
        linked?.outbox.confirm(id);
        return None;
    }
    let id = serde_json::to_string(id).ok()?;
    let nothing = Value::Object(serde_json::Map::new());
    let (action, payload) = match (parts.get(2).and_then(Value::as_str), parts.get(3)) {
        (Some(action), Some(payload @ Value::Object(_))) => (action, payload),
        (Some(action), None | Some(Value::Null)) => (action, &nothing),
        _ => return Some(format!(r#"[4,{id},"FormationViolation","",{{}}]"#)),
    };
    Some(match answer(site, point, side, now, action, payload) {
        Answer::Result(payload) => format!("[3,{id},{payload}]"),
        Answer::Fault(fault) => format!(r#"[4,{id},"{}","{}",{{}}]"#, fault.code, fault.field),
    })
}
