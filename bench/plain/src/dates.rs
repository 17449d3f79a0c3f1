//! Days since 1 January 1900, and civil dates.

use std::fmt;

/// A number of days since 1 January 1900, which is a Monday.
pub type Day = u32;

/// Days from 1 March of the year 0 to 1 January 1900.
const BEFORE_1900: u32 = 693_901;

#[derive(Clone, Copy)]
pub struct Date {
    pub year: u32,
    pub month: u32,
    pub day: u32,
}

fn is_leap(year: u32) -> bool {
    matches!((year % 4, year % 100, year % 400), (0, 1.., _) | (_, _, 0))
}

pub fn month_length(year: u32, month: u32) -> u32 {
    match month {
        2 if is_leap(year) => 29,
        2 => 28,
        4 | 6 | 9 | 11 => 30,
        _ => 31,
    }
}

impl Date {
    /// The date of a day: counted in years from March, so that a leap day is a year's last.
    pub fn of(day: Day) -> Date {
        let days = day + BEFORE_1900;
        let era = days / 146_097;
        let of_era = days % 146_097;
        let year_of_era = (of_era - of_era / 1_460 + of_era / 36_524 - of_era / 146_096) / 365;
        let of_year = of_era - (365 * year_of_era + year_of_era / 4 - year_of_era / 100);
        let from_march = (5 * of_year + 2) / 153;
        let month = if from_march < 10 { from_march + 3 } else { from_march - 9 };
        Date {
            year: 400 * era + year_of_era + u32::from(month <= 2),
            month,
            day: of_year - (153 * from_march + 2) / 5 + 1,
        }
    }

    pub const fn to_day(self) -> Day {
        let year = if self.month <= 2 { self.year - 1 } else { self.year };
        let from_march = (self.month + 9) % 12;
        let before = 365 * year + year / 4 - year / 100 + year / 400;
        before + (153 * from_march + 2) / 5 + self.day - 1 - BEFORE_1900
    }

    /// Whether it is a date of 1900 to 2199 that exists.
    pub fn exists(&self) -> bool {
        (1900..2200).contains(&self.year)
            && (1..=12).contains(&self.month)
            && (1..=month_length(self.year, self.month)).contains(&self.day)
    }
}

impl fmt::Display for Date {
    fn fmt(&self, f: &mut fmt::Formatter) -> fmt::Result {
        write!(f, "{:04}-{:02}-{:02}", self.year, self.month, self.day)
    }
}

/// The last day of a day's month.
pub fn month_end(day: Day) -> Day {
    let date = Date::of(day);
    day + month_length(date.year, date.month) - date.day
}

/// Easter Sunday of a year, by the rule of Meeus.
const fn easter(year: u32) -> Day {
    let (a, b, c) = (year % 19, year / 100, year % 100);
    let (d, e) = (b / 4, b % 4);
    let f = (b + 8) / 25;
    let g = (b - f + 1) / 3;
    let h = (19 * a + b - d - g + 15) % 30;
    let (i, k) = (c / 4, c % 4);
    let l = (32 + 2 * e + 2 * i - h - k) % 7;
    let m = (a + 11 * h + 22 * l) / 451;
    let s = h + l - 7 * m + 114;
    let date = Date { year, month: s / 31, day: s % 31 + 1 };
    date.to_day()
}

const fn easters() -> [Day; 300] {
    let mut table = [0; 300];
    let mut i = 0;
    while i < 300 {
        table[i] = easter(1900 + i as u32);
        i += 1;
    }
    table
}

/// Easter Sunday of the years 1900 to 2199.
static EASTERS: [Day; 300] = easters();

pub fn easter_sunday(year: u32) -> Day {
    EASTERS[(year - 1900) as usize]
}
