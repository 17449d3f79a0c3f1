//! T with its amendments.

use crate::dates::{easter_sunday, month_end, Date, Day};
use std::collections::BTreeMap;

/// The number of the layer of amendments.
const AMENDED: u8 = 9;

/// The most days that are entered at once.
pub const MOST_ENTRIES: usize = 200;

/// The layer that closes a day in T, or 0.
fn code_in_t(day: Day) -> u8 {
    if day % 7 >= 5 {
        return 1;
    }
    let date = Date::of(day);
    if matches!((date.month, date.day), (1, 1) | (5, 1) | (12, 25) | (12, 26)) {
        return 2;
    }
    let easter = easter_sunday(date.year);
    if day + 2 == easter || day == easter + 1 {
        return 3;
    }
    0
}

/// T with days that notices have closed or opened.
#[derive(Clone, Default)]
pub struct Calendar {
    entries: BTreeMap<Day, u8>,
}

impl Calendar {
    pub fn code(&self, day: Day) -> u8 {
        match self.entries.get(&day) {
            Some(code) => *code,
            None => code_in_t(day),
        }
    }

    pub fn is_good(&self, day: Day) -> bool {
        self.code(day) == 0
    }

    pub fn is_entered(&self, day: Day) -> bool {
        self.entries.contains_key(&day)
    }

    pub fn entry_count(&self) -> usize {
        self.entries.len()
    }

    pub fn close(&mut self, day: Day) {
        self.entries.insert(day, AMENDED);
    }

    pub fn open(&mut self, day: Day) {
        self.entries.insert(day, 0);
    }

    pub fn restore(&mut self, day: Day) {
        self.entries.remove(&day);
    }

    /// The adjusted day of an unadjusted one under modified following.
    pub fn adjusted(&self, day: Day) -> Option<Day> {
        let mut later = day..=month_end(day);
        let mut earlier = (day - 30..day).rev();
        later.find(|d| self.is_good(*d)).or_else(|| earlier.find(|d| self.is_good(*d)))
    }

    /// The good day reached by counting so many back, among the 60 days before a day.
    pub fn good_days_back(&self, day: Day, lag: usize) -> Option<Day> {
        (day.saturating_sub(60)..day).rev().filter(|d| self.is_good(*d)).nth(lag - 1)
    }
}
