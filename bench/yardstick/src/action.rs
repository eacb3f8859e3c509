//! The answers to the actions that the benchmark's scripts have.
use crate::instant::Instant;
use crate::outbox::{Body, Criteria};
use crate::profile::{count, name, needed, object, purpose, read_profile, started_at, text, whole, Fault, Object, Profile};
use crate::schedule::compose;
use crate::{Point, Row, Side, Site};
use serde_json::Value;
use std::fmt::Write;
use std::rc::Rc;

pub enum Answer {
    Result(String),
    Fault(Fault),
}

const NOT_IMPLEMENTED: Answer = Answer::Fault(Fault { code: "NotImplemented", field: "" });

/// The answer to an action for a point.
pub fn answer(site: &mut Site, point: &str, side: Side, now: Instant, action: &str, payload: &Value) -> Answer {
    let result = |text: &str| Answer::Result(text.to_string());
    let Some(fields) = payload.as_object() else {
        return NOT_IMPLEMENTED;
    };
    let Site { points, transactions } = site;
    let at = points.get_mut(point);
    match (side, action) {
        (Side::Point, "Heartbeat") => Answer::Result(format!(r#"{{"currentTime":"{now}"}}"#)),
        (Side::Point, "DataTransfer") => result(r#"{"status":"UnknownVendorId"}"#),
        (Side::Point, "StartTransaction") => start(at, transactions, fields).unwrap_or_else(Answer::Fault),
        (Side::Operator, "SetChargingProfile") => install(at, now, fields).unwrap_or_else(Answer::Fault),
        (Side::Operator, "ClearChargingProfile") => clear(at, fields).unwrap_or_else(Answer::Fault),
        (Side::Operator, "GetCompositeSchedule") => ask(at, now, fields).unwrap_or_else(Answer::Fault),
        _ => NOT_IMPLEMENTED,
    }
}

fn accepted() -> Answer {
    Answer::Result(r#"{"status":"Accepted"}"#.to_string())
}

fn rejected(reason: &str) -> Answer {
    Answer::Result(format!(r#"{{"status":"Rejected","reason":"{reason}"}}"#))
}

/// Installs a profile in place of those with its id, and of those with its key. The scripts name no transaction in it.
fn install(at: Option<&mut Point>, now: Instant, fields: &Object) -> Result<Answer, Fault> {
    let missing = Fault { code: "OccurenceConstraintViolation", field: "connectorId" };
    let connector = count(fields, "connectorId")?.ok_or(missing)?;
    let profile = read_profile(object(fields, "csChargingProfiles")?)?;
    if let Some(reason) = profile.refusal() {
        return Ok(rejected(reason));
    }
    let point = match allowed(at, connector, &profile) {
        Ok(point) => point,
        Err(reason) => return Ok(rejected(reason)),
    };
    let is_replaced = |row: &Row| {
        let has_key = row.connector == connector && row.profile.purpose == profile.purpose && row.profile.level == profile.level;
        has_key || row.profile.id == profile.id
    };
    if point.rows.iter().filter(|row| !is_replaced(row)).count() >= 200 {
        return Ok(rejected("TooManyProfiles"));
    }
    if point.outbox.is_full() {
        return Ok(rejected("OutboxFull"));
    }
    point.rows.retain(|row| !is_replaced(row));
    let profile = Rc::new(profile);
    point.outbox.add(Body::Set { connector, profile: Rc::clone(&profile) });
    point.rows.push(Row { connector, moment: now.seconds(), profile });
    Ok(accepted())
}

/// The point, where a profile may stand at its connector.
fn allowed<'a>(at: Option<&'a mut Point>, connector: i32, profile: &Profile) -> Result<&'a mut Point, &'static str> {
    let point = at.ok_or("UnknownPoint")?;
    if connector as usize > point.ceilings.len() {
        return Err("UnknownConnector");
    }
    match (profile.purpose, connector) {
        ("ChargePointMaxProfile", 1..) => Err("MaxNotAtZero"),
        ("TxProfile", 0) => Err("TxAtZero"),
        _ if profile.unit != "A" => Err("WrongUnit"),
        ("TxProfile", _) if point.started[connector as usize - 1].is_none() => Err("NoTransaction"),
        _ => Ok(point),
    }
}

/// Removes the profiles that match each field that is given.
fn clear(at: Option<&mut Point>, fields: &Object) -> Result<Answer, Fault> {
    let id = whole(fields, "id")?;
    let connector = count(fields, "connectorId")?;
    let purpose = purpose(fields, "chargingProfilePurpose")?;
    let level = count(fields, "stackLevel")?;
    let Some(point) = at else {
        return Ok(Answer::Fault(Fault { code: "InternalError", field: "UnknownPoint" }));
    };
    let is_met = |row: &Row| {
        id.is_none_or(|id| row.profile.id == id)
            && connector.is_none_or(|connector| row.connector == connector)
            && purpose.is_none_or(|purpose| row.profile.purpose == purpose)
            && level.is_none_or(|level| row.profile.level == level)
    };
    if !point.rows.iter().any(is_met) {
        return Ok(Answer::Result(r#"{"status":"Unknown"}"#.to_string()));
    }
    if point.outbox.is_full() {
        return Ok(Answer::Fault(Fault { code: "InternalError", field: "OutboxFull" }));
    }
    point.rows.retain(|row| !is_met(row));
    point.outbox.add(Body::Clear(Criteria { id, connector, purpose, level }));
    Ok(accepted())
}

/// Begins a transaction at a connector. The scripts tell no start twice, and stop none.
fn start(at: Option<&mut Point>, transactions: &mut u64, fields: &Object) -> Result<Answer, Fault> {
    let connector = needed(count(fields, "connectorId")?, "connectorId")?;
    let id_tag = needed(text(fields, "idTag")?, "idTag")?;
    if id_tag.chars().count() > 20 {
        return Err(Fault { code: "PropertyConstraintViolation", field: "idTag" });
    }
    needed(whole(fields, "meterStart")?, "meterStart")?;
    let began = started_at(fields)?;
    let place = at.filter(|point| connector > 0 && connector as usize <= point.ceilings.len());
    let Some(point) = place else {
        return Err(Fault { code: "PropertyConstraintViolation", field: "UnknownConnector" });
    };
    point.rows.retain(|row| row.connector != connector || row.profile.purpose != "TxProfile");
    point.started[connector as usize - 1] = Some(began.seconds());
    *transactions += 1;
    Ok(Answer::Result(format!(r#"{{"idTagInfo":{{"status":"Accepted"}},"transactionId":{transactions}}}"#)))
}

/// The composite schedule that is asked for.
fn ask(at: Option<&mut Point>, now: Instant, fields: &Object) -> Result<Answer, Fault> {
    let connector = needed(count(fields, "connectorId")?, "connectorId")?;
    let duration = needed(count(fields, "duration")?, "duration")?;
    let unit = name(fields, "chargingRateUnit", &["A", "W"])?;
    let Some(point) = at else {
        return Ok(rejected("UnknownPoint"));
    };
    if connector as usize > point.ceilings.len() {
        return Ok(rejected("UnknownConnector"));
    }
    if unit.is_some_and(|unit| unit != "A") {
        return Ok(rejected("WrongUnit"));
    }
    if duration == 0 || duration > 2_678_400 {
        return Ok(rejected("BadDuration"));
    }
    if now.seconds() + i64::from(duration) > 253_402_300_800 {
        return Ok(rejected("PastCalendar"));
    }
    let Some(periods) = compose(point, connector, now.seconds(), i64::from(duration)) else {
        return Ok(rejected("ResultTooLong"));
    };
    let mut text = format!(
        r#"{{"status":"Accepted","connectorId":{connector},"scheduleStart":"{now}","chargingSchedule":{{"duration":{duration},"chargingRateUnit":"A","chargingSchedulePeriod":["#
    );
    for (index, (start, limit)) in periods.iter().enumerate() {
        let comma = if index > 0 { "," } else { "" };
        let _ = write!(text, r#"{comma}{{"startPeriod":{start},"limit":{}.{}}}"#, limit / 10, limit % 10);
    }
    text.push_str("]}}");
    Ok(Answer::Result(text))
}
