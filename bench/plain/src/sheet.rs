//! A sheet that keeps no schedule: after each notice it works every one out whole, on the calendar before it and after it.

use crate::bond::{Bond, Payment, Refusal, Schedule, Terms};
use crate::calendar::{Calendar, MOST_ENTRIES};
use crate::dates::Day;
use std::collections::BTreeMap;

const LIVE: Refusal = 3;
const NOT_LIVE: Refusal = 4;
const SHEET_FULL: Refusal = 6;
const SAME_DAY: Refusal = 11;
const WRONG_STATE: Refusal = 12;
const NOT_ENTERED: Refusal = 13;
const ENTRIES_FULL: Refusal = 14;

const MOST_BONDS: usize = 32;
const MOST_ROLLS: usize = 400;

#[derive(Clone, Copy)]
pub enum Notice {
    Declare(Day),
    Cancel(Day),
    Move(Day, Day),
    Withdraw(Day),
}

/// A payment that altered.
pub struct Change {
    pub bond: u64,
    pub payment: usize,
    pub old: Payment,
    pub new: Payment,
    /// The code of the old date after the notice, and that of the new date before it.
    pub codes: (u8, u8),
}

/// What a granted notice comes to.
pub struct Effect {
    pub rolls: usize,
    pub changes: Vec<Change>,
}

#[derive(Default)]
pub struct Sheet {
    calendar: Calendar,
    bonds: BTreeMap<u64, Bond>,
}

impl Notice {
    fn days(&self) -> Vec<Day> {
        match *self {
            Notice::Declare(day) | Notice::Cancel(day) | Notice::Withdraw(day) => vec![day],
            Notice::Move(from, to) => vec![from, to],
        }
    }
}

fn check_good(calendar: &Calendar, day: Day, good: bool) -> Result<(), Refusal> {
    if calendar.is_good(day) != good {
        return Err(WRONG_STATE);
    }
    Ok(())
}

/// What the calendar refuses of a notice.
fn check(calendar: &Calendar, notice: Notice) -> Result<(), Refusal> {
    match notice {
        Notice::Declare(day) => check_good(calendar, day, true)?,
        Notice::Cancel(day) => check_good(calendar, day, false)?,
        Notice::Move(from, to) => {
            if from == to {
                return Err(SAME_DAY);
            }
            check_good(calendar, from, false)?;
            check_good(calendar, to, true)?;
        }
        Notice::Withdraw(day) => {
            if !calendar.is_entered(day) {
                return Err(NOT_ENTERED);
            }
        }
    }
    let new = notice.days().iter().filter(|day| !calendar.is_entered(**day)).count();
    if calendar.entry_count() + new > MOST_ENTRIES {
        return Err(ENTRIES_FULL);
    }
    Ok(())
}

fn amend(calendar: &mut Calendar, notice: Notice) {
    match notice {
        Notice::Declare(day) => calendar.close(day),
        Notice::Cancel(day) => calendar.open(day),
        Notice::Move(from, to) => {
            calendar.open(from);
            calendar.close(to);
        }
        Notice::Withdraw(day) => calendar.restore(day),
    }
}

impl Sheet {
    pub fn enter(&mut self, terms: Terms) -> Result<usize, Refusal> {
        terms.check()?;
        let number = terms.number;
        if self.bonds.contains_key(&number) {
            return Err(LIVE);
        }
        let bond = Bond::new(terms)?;
        let rolls = bond.roll_count();
        let live: usize = self.bonds.values().map(Bond::roll_count).sum();
        if self.bonds.len() == MOST_BONDS || live + rolls > MOST_ROLLS {
            return Err(SHEET_FULL);
        }
        bond.schedule(&self.calendar)?;
        self.bonds.insert(number, bond);
        Ok(rolls)
    }

    pub fn retire(&mut self, number: u64) -> Result<(), Refusal> {
        self.bonds.remove(&number).map(drop).ok_or(NOT_LIVE)
    }

    /// The schedules of all bonds on a calendar, by the bonds' numbers.
    fn schedules(&self, calendar: &Calendar) -> Result<Vec<Schedule>, Refusal> {
        self.bonds.values().map(|bond| bond.schedule(calendar)).collect()
    }

    pub fn amend(&mut self, notice: Notice) -> Result<Effect, Refusal> {
        check(&self.calendar, notice)?;
        let mut amended = self.calendar.clone();
        amend(&mut amended, notice);
        let before = self.schedules(&self.calendar)?;
        let after = self.schedules(&amended)?;
        let days = notice.days();
        let rolls = before.iter().map(|schedule| schedule.rolls_on(&days)).sum();
        let mut changes = Vec::new();
        for ((number, old), new) in self.bonds.keys().zip(&before).zip(&after) {
            for (i, (old, new)) in old.payments.iter().zip(&new.payments).enumerate() {
                if old != new {
                    let codes = (amended.code(old.date), self.calendar.code(new.date));
                    changes.push(Change {
                        bond: *number,
                        payment: i + 1,
                        old: *old,
                        new: *new,
                        codes,
                    });
                }
            }
        }
        self.calendar = amended;
        Ok(Effect { rolls, changes })
    }
}
