//! Bonds, their unadjusted rolls, and the schedules that a calendar makes of them.

use crate::calendar::Calendar;
use crate::dates::{month_end, month_length, Date, Day};

/// Why a line is not granted.
pub type Refusal = u32;

const OUT_OF_RANGE: Refusal = 1;
const BAD_DAYS: Refusal = 2;
const MANY_ROLLS: Refusal = 5;
const NO_GOOD_DAY: Refusal = 20;
const NO_FIXING: Refusal = 21;

const MOST_ROLLS: usize = 100;

/// A bond's fields as they are typed.
pub struct Terms {
    pub number: u64,
    pub effective: Day,
    pub maturity: Day,
    pub months: u64,
    pub stub: u64,
    pub mark: u64,
    pub lag: u64,
    pub face: u64,
    pub rate: u64,
}

impl Terms {
    pub fn check(&self) -> Result<(), Refusal> {
        let in_range = (1..=999_999).contains(&self.number)
            && matches!(self.months, 1 | 3 | 6 | 12)
            && self.stub <= 3
            && self.mark <= 1
            && self.lag <= 10
            && (1..=100_000_000_000).contains(&self.face)
            && self.rate <= 100_000;
        if !in_range {
            return Err(OUT_OF_RANGE);
        }
        if self.effective < 365 || self.maturity > 109_207 || self.maturity <= self.effective {
            return Err(BAD_DAYS);
        }
        Ok(())
    }

    fn counts_back(&self) -> bool {
        self.stub <= 1
    }

    fn drops_next_to_stub(&self) -> bool {
        self.stub == 1 || self.stub == 3
    }

    /// The anchor shifted by so many periods, if that is a day from 1900 to 2199.
    fn shifted(&self, periods: u64) -> Option<Day> {
        let anchor = if self.counts_back() { self.maturity } else { self.effective };
        let date = Date::of(anchor);
        let month = u64::from(12 * date.year + date.month - 1);
        let by = self.months * periods;
        let month = if self.counts_back() { month.checked_sub(by)? } else { month + by };
        let (year, month) = ((month / 12) as u32, (month % 12) as u32 + 1);
        if !(1900..2200).contains(&year) {
            return None;
        }
        let length = month_length(year, month);
        let keeps_to_end = self.mark == 1 && anchor == month_end(anchor);
        let day = if keeps_to_end { length } else { date.day.min(length) };
        Some(Date { year, month, day }.to_day())
    }

    /// The unadjusted rolls, at most 100.
    fn rolls(&self) -> Result<Vec<Day>, Refusal> {
        let is_inside = |day: &Day| self.effective < *day && *day < self.maturity;
        let mut regular: Vec<Day> =
            (1..=MOST_ROLLS as u64).map_while(|k| self.shifted(k).filter(is_inside)).collect();
        let end = if self.counts_back() { self.effective } else { self.maturity };
        let has_stub = self.shifted(regular.len() as u64 + 1) != Some(end);
        if has_stub && self.drops_next_to_stub() && regular.len() < MOST_ROLLS {
            regular.pop();
        }
        if regular.len() + 2 > MOST_ROLLS {
            return Err(MANY_ROLLS);
        }
        if self.counts_back() {
            regular.reverse();
        }
        let mut rolls = vec![self.effective];
        rolls.append(&mut regular);
        rolls.push(self.maturity);
        Ok(rolls)
    }

    /// The interest for so many days, to the nearest minor unit, halves going up.
    fn amount(&self, days: u32) -> u64 {
        let product = u128::from(self.face) * u128::from(self.rate) * u128::from(days);
        ((product + 18_000_000) / 36_000_000) as u64
    }
}

/// A bond with its unadjusted rolls, which no notice alters.
pub struct Bond {
    terms: Terms,
    rolls: Vec<Day>,
}

/// A roll on a calendar, with the first and the last day on which it stands.
struct Roll {
    adjusted: Day,
    fixing: Option<Day>,
    low: Day,
    high: Day,
}

#[derive(Clone, Copy, PartialEq)]
pub struct Payment {
    pub date: Day,
    pub fixing: Option<Day>,
    pub days: u32,
    pub amount: u64,
}

/// What a calendar makes of a bond.
pub struct Schedule {
    rolls: Vec<Roll>,
    pub payments: Vec<Payment>,
}

impl Bond {
    /// A bond of terms that are checked.
    pub fn new(terms: Terms) -> Result<Bond, Refusal> {
        let rolls = terms.rolls()?;
        Ok(Bond { terms, rolls })
    }

    pub fn roll_count(&self) -> usize {
        self.rolls.len()
    }

    fn roll(&self, calendar: &Calendar, unadjusted: Day, lag: usize) -> Result<Roll, Refusal> {
        let adjusted = calendar.adjusted(unadjusted).ok_or(NO_GOOD_DAY)?;
        let fixing = match lag {
            0 => None,
            _ => Some(calendar.good_days_back(adjusted, lag).ok_or(NO_FIXING)?),
        };
        let low = fixing.unwrap_or(adjusted).min(adjusted).min(unadjusted);
        let high = if adjusted < unadjusted { month_end(unadjusted) } else { adjusted };
        Ok(Roll { adjusted, fixing, low, high })
    }

    /// Works out the whole schedule; refused for the first roll that fails.
    pub fn schedule(&self, calendar: &Calendar) -> Result<Schedule, Refusal> {
        let last = self.rolls.len() - 1;
        let mut rolls = Vec::with_capacity(self.rolls.len());
        for (i, unadjusted) in self.rolls.iter().enumerate() {
            let lag = if i == last { 0 } else { self.terms.lag as usize };
            rolls.push(self.roll(calendar, *unadjusted, lag)?);
        }
        let payments = rolls.windows(2).map(|pair| self.payment(&pair[0], &pair[1])).collect();
        Ok(Schedule { rolls, payments })
    }

    fn payment(&self, from: &Roll, to: &Roll) -> Payment {
        let days = to.adjusted - from.adjusted;
        Payment { date: to.adjusted, fixing: from.fixing, days, amount: self.terms.amount(days) }
    }
}

impl Schedule {
    /// How many rolls stand on one of the days.
    pub fn rolls_on(&self, days: &[Day]) -> usize {
        let stands = |roll: &&Roll| days.iter().any(|day| (roll.low..=roll.high).contains(day));
        self.rolls.iter().filter(stands).count()
    }
}
