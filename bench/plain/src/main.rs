//! Prints what `standing_sheet` prints, and works everything out anew after each notice.

mod bond;
mod calendar;
mod dates;
mod entry;
mod sheet;

use bond::Refusal;
use dates::{Date, Day};
use entry::{is_remark, Entry};
use sheet::{Change, Notice, Sheet};
use std::fmt::{self, Write as _};
use std::io::{self, Read, Write as _};

const LONGEST_INPUT: usize = 65_536;
const BAD_LINE: Refusal = 50;
const TOO_LONG: Refusal = 51;

/// A date, or a hyphen.
struct OptionalDate(Option<Day>);

impl fmt::Display for OptionalDate {
    fn fmt(&self, f: &mut fmt::Formatter) -> fmt::Result {
        match self.0 {
            Some(day) => Date::of(day).fmt(f),
            None => f.write_str("-"),
        }
    }
}

impl fmt::Display for Change {
    fn fmt(&self, f: &mut fmt::Formatter) -> fmt::Result {
        let Change { bond, payment, old, new, codes } = self;
        write!(f, "{bond} {payment} {} {}", Date::of(old.date), Date::of(new.date))?;
        write!(f, " {} {}", OptionalDate(old.fixing), OptionalDate(new.fixing))?;
        write!(f, " {} {} {} {}", old.days, new.days, old.amount, new.amount)?;
        write!(f, " {} {}", codes.0, codes.1)
    }
}

/// Does what an entry asks for, and prints what became of it, unless it is refused.
fn answer(sheet: &mut Sheet, entry: Entry, out: &mut String) -> Result<(), Refusal> {
    let printed = match entry {
        Entry::Enter(terms) => {
            let number = terms.number;
            let rolls = sheet.enter(terms)?;
            writeln!(out, "entered {number} {rolls}")
        }
        Entry::Retire(number) => {
            sheet.retire(number)?;
            writeln!(out, "retired {number}")
        }
        Entry::Amend(notice) => {
            let effect = sheet.amend(notice)?;
            let word = match notice {
                Notice::Declare(_) => "declared",
                Notice::Cancel(_) => "cancelled",
                Notice::Move(..) => "moved",
                Notice::Withdraw(_) => "withdrawn",
            };
            let printed = writeln!(out, "{word} {} {}", effect.rolls, effect.changes.len());
            printed.and_then(|()| {
                effect.changes.iter().try_for_each(|change| writeln!(out, "{change}"))
            })
        }
    };
    printed.expect("a string takes what is written");
    Ok(())
}

fn report(input: &[u8]) -> String {
    let mut out = String::from("convention M\n");
    if input.len() > LONGEST_INPUT {
        return out + &format!("no {TOO_LONG} 0\n");
    }
    let mut sheet = Sheet::default();
    for (i, line) in input.split(|byte| *byte == b'\n').enumerate() {
        if is_remark(line) {
            continue;
        }
        let answered =
            Entry::of(line).ok_or(BAD_LINE).and_then(|entry| answer(&mut sheet, entry, &mut out));
        if let Err(refusal) = answered {
            out += &format!("no {refusal} {}\n", i + 1);
        }
    }
    out
}

fn main() -> io::Result<()> {
    let mut input = Vec::new();
    io::stdin().take(LONGEST_INPUT as u64 + 1).read_to_end(&mut input)?;
    io::stdout().write_all(report(&input).as_bytes())
}
