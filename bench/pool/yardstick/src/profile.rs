//! Charging profiles, as the compiler of `bench/yardstick` reads them.
use crate::instant::Instant;

#[derive(Clone)]
pub struct Period {
    pub start: i32,
    pub limit: u32,
}

#[derive(Clone)]
pub struct Profile {
    pub id: i32,
    pub level: i32,
    pub purpose: &'static str,
    pub kind: &'static str,
    pub recurrency: Option<&'static str>,
    pub valid_from: Option<Instant>,
    pub valid_to: Option<Instant>,
    pub duration: Option<i32>,
    pub start: Option<Instant>,
    pub periods: Vec<Period>,
}

impl Profile {
    /// A default profile of 24 periods that recurs daily, at the level of its number.
    pub fn daily(number: i32, midnight: Instant) -> Profile {
        let limit = |hour: i32| 60 + (number * 7 + hour * 13) % 260;
        Profile {
            id: number,
            level: number,
            purpose: "TxDefaultProfile",
            kind: "Recurring",
            recurrency: Some("Daily"),
            valid_from: None,
            valid_to: None,
            duration: None,
            start: Some(midnight),
            periods: (0..24).map(|hour| Period { start: hour * 3_600, limit: limit(hour) as u32 }).collect(),
        }
    }
}
