//! A charging profile out of its JSON, field by field in the order of OCPP's table.
use crate::instant::{read_instant, Instant};
use serde_json::{Map, Value};

pub struct Fault {
    pub code: &'static str,
    pub field: &'static str,
}

pub type Object = Map<String, Value>;

pub struct Period {
    pub start: i32,
    pub limit: u32,
    pub phases: Option<i32>,
}

pub struct Profile {
    pub id: i32,
    pub transaction: Option<i32>,
    pub level: i32,
    pub purpose: &'static str,
    pub kind: &'static str,
    pub recurrency: Option<&'static str>,
    pub valid_from: Option<Instant>,
    pub valid_to: Option<Instant>,
    pub duration: Option<i32>,
    pub start: Option<Instant>,
    pub unit: &'static str,
    pub periods: Vec<Period>,
    pub least_rate: Option<u32>,
}

fn absent(field: &'static str) -> Fault {
    Fault { code: "OccurenceConstraintViolation", field }
}

fn kind(field: &'static str) -> Fault {
    Fault { code: "TypeConstraintViolation", field }
}

fn value(field: &'static str) -> Fault {
    Fault { code: "PropertyConstraintViolation", field }
}

fn present<'a>(object: &'a Object, field: &str) -> Option<&'a Value> {
    object.get(field).filter(|value| !value.is_null())
}

pub fn needed<T>(read: Option<T>, field: &'static str) -> Result<T, Fault> {
    read.ok_or_else(|| absent(field))
}

fn number(object: &Object, field: &'static str, scale: f64, least: f64, most: f64) -> Result<Option<f64>, Fault> {
    let Some(found) = present(object, field) else {
        return Ok(None);
    };
    let scaled = found.as_f64().ok_or_else(|| kind(field))? * scale;
    let whole = scaled.round();
    let ok = (scaled - whole).abs() < 1e-6 && whole >= least && whole <= most;
    ok.then_some(Some(whole)).ok_or_else(|| value(field))
}

pub fn whole(object: &Object, field: &'static str) -> Result<Option<i32>, Fault> {
    Ok(number(object, field, 1.0, f64::from(i32::MIN), f64::from(i32::MAX))?.map(|value| value as i32))
}

pub fn count(object: &Object, field: &'static str) -> Result<Option<i32>, Fault> {
    Ok(number(object, field, 1.0, 0.0, f64::from(i32::MAX))?.map(|value| value as i32))
}

fn tenths(object: &Object, field: &'static str) -> Result<Option<u32>, Fault> {
    Ok(number(object, field, 10.0, 0.0, 1e9)?.map(|value| value as u32))
}

pub fn text<'a>(object: &'a Object, field: &'static str) -> Result<Option<&'a str>, Fault> {
    let Some(found) = present(object, field) else {
        return Ok(None);
    };
    found.as_str().map(Some).ok_or_else(|| kind(field))
}

pub fn name(object: &Object, field: &'static str, names: &[&'static str]) -> Result<Option<&'static str>, Fault> {
    let Some(found) = text(object, field)? else {
        return Ok(None);
    };
    names.iter().find(|name| **name == found).map(|name| Some(*name)).ok_or_else(|| value(field))
}

fn instant(object: &Object, field: &'static str) -> Result<Option<Instant>, Fault> {
    let Some(found) = text(object, field)? else {
        return Ok(None);
    };
    read_instant(found).map(Some).ok_or_else(|| value(field))
}

/// The timestamp of a StartTransaction.
pub fn started_at(object: &Object) -> Result<Instant, Fault> {
    needed(instant(object, "timestamp")?, "timestamp")
}

pub fn object<'a>(object: &'a Object, field: &'static str) -> Result<&'a Object, Fault> {
    needed(present(object, field), field)?.as_object().ok_or_else(|| kind(field))
}

fn read_periods(schedule: &Object) -> Result<Vec<Period>, Fault> {
    let field = "chargingSchedulePeriod";
    let list = needed(present(schedule, field), field)?.as_array().ok_or_else(|| kind(field))?;
    if list.is_empty() {
        return Err(absent(field));
    }
    let mut periods = Vec::with_capacity(list.len());
    for entry in list {
        let entry = entry.as_object().ok_or_else(|| kind(field))?;
        periods.push(Period {
            start: needed(count(entry, "startPeriod")?, "startPeriod")?,
            limit: needed(tenths(entry, "limit")?, "limit")?,
            phases: count(entry, "numberPhases")?,
        });
    }
    Ok(periods)
}

pub fn purpose(object: &Object, field: &'static str) -> Result<Option<&'static str>, Fault> {
    name(object, field, &["ChargePointMaxProfile", "TxDefaultProfile", "TxProfile"])
}

pub fn read_profile(profile: &Object) -> Result<Profile, Fault> {
    const KINDS: [&str; 3] = ["Absolute", "Recurring", "Relative"];
    let id = needed(whole(profile, "chargingProfileId")?, "chargingProfileId")?;
    let transaction = whole(profile, "transactionId")?;
    let level = needed(count(profile, "stackLevel")?, "stackLevel")?;
    let purpose = needed(self::purpose(profile, "chargingProfilePurpose")?, "chargingProfilePurpose")?;
    let kind = needed(name(profile, "chargingProfileKind", &KINDS)?, "chargingProfileKind")?;
    let recurrency = name(profile, "recurrencyKind", &["Daily", "Weekly"])?;
    let valid_from = instant(profile, "validFrom")?;
    let valid_to = instant(profile, "validTo")?;
    let schedule = object(profile, "chargingSchedule")?;
    Ok(Profile {
        id,
        transaction,
        level,
        purpose,
        kind,
        recurrency,
        valid_from,
        valid_to,
        duration: count(schedule, "duration")?,
        start: instant(schedule, "startSchedule")?,
        unit: needed(name(schedule, "chargingRateUnit", &["A", "W"])?, "chargingRateUnit")?,
        periods: read_periods(schedule)?,
        least_rate: tenths(schedule, "minChargingRate")?,
    })
}

impl Profile {
    /// Why the profile isn't well formed, the first reason first.
    pub fn refusal(&self) -> Option<&'static str> {
        if self.level > 99 {
            return Some("LevelTooHigh");
        }
        if self.periods.len() > 200 {
            return Some("TooManyPeriods");
        }
        if self.periods.windows(2).any(|pair| pair[0].start >= pair[1].start) {
            return Some("PeriodsOutOfOrder");
        }
        (self.kind == "Recurring" && self.recurrency.is_none()).then_some("NoRecurrency")
    }
}
