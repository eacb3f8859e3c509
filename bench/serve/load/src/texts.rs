//! What the sessions of each mix send.

use std::fmt::Write;

#[derive(Clone, Copy, PartialEq, Eq)]
pub enum Mix {
    Heartbeats,
    Profiles,
    Asks,
    Day,
    Changes,
}

#[derive(Clone, Copy, PartialEq, Eq)]
pub enum Side {
    Operator,
    Point,
}

/// A text without its id, and how the payload of its answer begins.
pub struct Asked {
    pub action: &'static str,
    pub payload: String,
    pub answer: &'static str,
}

const ACCEPTED: &str = r#"{"status":"Accepted""#;

impl Mix {
    pub fn named(name: &str) -> Option<Mix> {
        let named = [
            ("heartbeats", Mix::Heartbeats),
            ("profiles", Mix::Profiles),
            ("asks", Mix::Asks),
            ("day", Mix::Day),
            ("changes", Mix::Changes),
        ];
        named.into_iter().find_map(|(own, mix)| (own == name).then_some(mix))
    }

    /// The side and the point's number of each session. Where calls arise each operator has its point beside it, so that
    /// they are confirmed; of one session, too.
    pub fn sides(self, sessions: usize) -> Vec<(Side, usize)> {
        match self {
            Mix::Heartbeats | Mix::Changes => (0..sessions).map(|place| (Side::Point, place)).collect(),
            Mix::Asks => (0..sessions).map(|place| (Side::Operator, place)).collect(),
            Mix::Profiles | Mix::Day => (0..sessions.div_ceil(2))
                .flat_map(|point| [(Side::Operator, point), (Side::Point, point)])
                .collect(),
        }
    }

    /// The n-th text of a session.
    pub fn text(self, side: Side, n: usize, transaction: u64) -> Asked {
        match (self, side) {
            (Mix::Profiles, Side::Operator) => install(n),
            (Mix::Day, Side::Operator) if n % 4 == 0 => install(n / 4),
            (_, Side::Operator) => ask(n),
            (Mix::Day, Side::Point) => of_day(n, transaction),
            (Mix::Changes, Side::Point) if n % 2 == 0 => start(n),
            (Mix::Changes, Side::Point) => stop(n, transaction),
            (_, Side::Point) => heartbeat(),
        }
    }
}

fn heartbeat() -> Asked {
    Asked { action: "Heartbeat", payload: "{}".to_string(), answer: r#"{"currentTime":""# }
}

const STAMP: &str = "2025-01-01T00:00:00Z";

fn start(n: usize) -> Asked {
    Asked {
        action: "StartTransaction",
        payload: format!(r#"{{"connectorId":1,"idTag":"bench","meterStart":{n},"timestamp":"{STAMP}"}}"#),
        answer: r#"{"idTagInfo":{"status":"Accepted"},"transactionId":"#,
    }
}

fn stop(n: usize, transaction: u64) -> Asked {
    Asked {
        action: "StopTransaction",
        payload: format!(r#"{{"transactionId":{transaction},"meterStop":{n},"timestamp":"{STAMP}"}}"#),
        answer: "{}",
    }
}

/// A charging session of a car every ten texts, with three reports of its meter.
fn of_day(n: usize, transaction: u64) -> Asked {
    match n % 10 {
        1 => Asked {
            action: "StatusNotification",
            payload: r#"{"connectorId":1,"errorCode":"NoError","status":"Preparing"}"#.to_string(),
            answer: "{}",
        },
        2 => start(n),
        3 | 5 | 7 => Asked {
            action: "MeterValues",
            payload: format!(
                r#"{{"connectorId":1,"transactionId":{transaction},"meterValue":[{{"timestamp":"{STAMP}","sampledValue":[{{"value":"{n}","unit":"Wh"}},{{"value":"16.0","measurand":"Current.Import","unit":"A"}}]}}]}}"#
            ),
            answer: "{}",
        },
        8 => stop(n, transaction),
        _ => heartbeat(),
    }
}

/// How many profiles stand at a point in the end: the installs go round over them.
pub const PROFILES: usize = 9;

/// A daily default of 24 periods, at connector 0, 1 or 2 and stack level 0, 1 or 2, in the place of the one before.
pub fn install(n: usize) -> Asked {
    let place = n % PROFILES;
    let (connector, level) = (place % 3, place / 3);
    let mut periods = String::new();
    for hour in 0..24 {
        let tenths = 60 + (n * 7 + hour * 13) % 260;
        let comma = if hour == 0 { "" } else { "," };
        let _ = write!(periods, r#"{comma}{{"startPeriod":{},"limit":{}.{}}}"#, hour * 3_600, tenths / 10, tenths % 10);
    }
    let payload = format!(
        r#"{{"connectorId":{connector},"csChargingProfiles":{{"chargingProfileId":{place},"stackLevel":{level},"chargingProfilePurpose":"TxDefaultProfile","chargingProfileKind":"Recurring","recurrencyKind":"Daily","chargingSchedule":{{"startSchedule":"2025-01-01T00:00:00Z","chargingRateUnit":"A","chargingSchedulePeriod":[{periods}]}}}}}}"#
    );
    Asked { action: "SetChargingProfile", payload, answer: ACCEPTED }
}

/// An ask of a day, of the connectors in turn.
fn ask(n: usize) -> Asked {
    let payload = format!(r#"{{"connectorId":{},"duration":86400}}"#, n % 3);
    Asked { action: "GetCompositeSchedule", payload, answer: ACCEPTED }
}
