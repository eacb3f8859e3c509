//! The calls to a charge point: sent one at a time, in order, each until the point answers it.
use crate::profile::Profile;
use std::collections::VecDeque;
use std::fmt::{self, Write};
use std::rc::Rc;

const MOST_CALLS: usize = 256;

/// The fields of a ClearChargingProfile.
pub struct Criteria {
    pub id: Option<i32>,
    pub connector: Option<i32>,
    pub purpose: Option<&'static str>,
    pub level: Option<i32>,
}

/// What a call asks of the point.
pub enum Body {
    Clear(Criteria),
    Set { connector: i32, profile: Rc<Profile> },
}

/// The calls that the point hasn't answered.
pub struct Outbox {
    calls: VecDeque<Body>,
    next: u64,
    is_in_flight: bool,
}

impl Outbox {
    /// The first call clears what the point has from before.
    pub fn new() -> Outbox {
        let all = Criteria { id: None, connector: None, purpose: None, level: None };
        Outbox { calls: VecDeque::from([Body::Clear(all)]), next: 1, is_in_flight: false }
    }

    pub fn is_full(&self) -> bool {
        self.calls.len() == MOST_CALLS
    }

    pub fn add(&mut self, body: Body) {
        self.calls.push_back(body);
        self.next += 1;
    }

    fn first_number(&self) -> u64 {
        self.next - self.calls.len() as u64
    }

    /// The text of the first call, unless one is in flight.
    pub fn send(&mut self) -> Option<String> {
        if self.is_in_flight {
            return None;
        }
        let body = self.calls.front()?;
        self.is_in_flight = true;
        Some(format!(r#"[2,"{}",{body}]"#, self.first_number()))
    }

    /// The point has answered the call of this id, if it is the one in flight.
    pub fn confirm(&mut self, id: &str) {
        if self.is_in_flight && id == self.first_number().to_string() {
            self.calls.pop_front();
            self.is_in_flight = false;
        }
    }
}

/// Writes the fields of an object that are there, with a comma between two.
struct Fields<'a, 'b> {
    out: &'a mut fmt::Formatter<'b>,
    comma: &'static str,
}

impl Fields<'_, '_> {
    fn put(&mut self, name: &str, value: Option<impl fmt::Display>) -> fmt::Result {
        let Some(value) = value else {
            return Ok(());
        };
        write!(self.out, r#"{}"{name}":{value}"#, self.comma)?;
        self.comma = ",";
        Ok(())
    }
}

fn quoted(text: impl fmt::Display) -> String {
    format!(r#""{text}""#)
}

fn tenths(tenths: u32) -> String {
    format!("{}.{}", tenths / 10, tenths % 10)
}

impl fmt::Display for Body {
    fn fmt(&self, out: &mut fmt::Formatter<'_>) -> fmt::Result {
        match self {
            Body::Clear(criteria) => write!(out, r#""ClearChargingProfile",{{{criteria}}}"#),
            Body::Set { connector, profile } => {
                write!(out, r#""SetChargingProfile",{{"connectorId":{connector},"csChargingProfiles":{{{profile}}}}}"#)
            }
        }
    }
}

impl fmt::Display for Criteria {
    fn fmt(&self, out: &mut fmt::Formatter<'_>) -> fmt::Result {
        let mut fields = Fields { out, comma: "" };
        fields.put("id", self.id)?;
        fields.put("connectorId", self.connector)?;
        fields.put("chargingProfilePurpose", self.purpose.map(quoted))?;
        fields.put("stackLevel", self.level)
    }
}

impl fmt::Display for Profile {
    fn fmt(&self, out: &mut fmt::Formatter<'_>) -> fmt::Result {
        let is_of_transaction = self.purpose == "TxProfile";
        let mut fields = Fields { out, comma: "" };
        fields.put("chargingProfileId", Some(self.id))?;
        fields.put("transactionId", self.transaction.filter(|_| is_of_transaction))?;
        fields.put("stackLevel", Some(self.level))?;
        fields.put("chargingProfilePurpose", Some(quoted(self.purpose)))?;
        fields.put("chargingProfileKind", Some(quoted(self.kind)))?;
        fields.put("recurrencyKind", self.recurrency.filter(|_| self.kind == "Recurring").map(quoted))?;
        fields.put("validFrom", self.valid_from.map(quoted))?;
        fields.put("validTo", self.valid_to.map(quoted))?;
        fields.put("chargingSchedule", Some(schedule(self)?))
    }
}

fn schedule(profile: &Profile) -> Result<String, fmt::Error> {
    let mut text = String::from("{");
    if let Some(duration) = profile.duration {
        write!(text, r#""duration":{duration},"#)?;
    }
    if let Some(start) = profile.start.filter(|_| profile.kind != "Relative") {
        write!(text, r#""startSchedule":"{start}","#)?;
    }
    write!(text, r#""chargingRateUnit":"{}","chargingSchedulePeriod":["#, profile.unit)?;
    for (index, period) in profile.periods.iter().enumerate() {
        let comma = if index > 0 { "," } else { "" };
        write!(text, r#"{comma}{{"startPeriod":{},"limit":{}"#, period.start, tenths(period.limit))?;
        if let Some(phases) = period.phases {
            write!(text, r#","numberPhases":{phases}"#)?;
        }
        text.push('}');
    }
    text.push(']');
    if let Some(rate) = profile.least_rate {
        write!(text, r#","minChargingRate":{}"#, tenths(rate))?;
    }
    text.push('}');
    Ok(text)
}
