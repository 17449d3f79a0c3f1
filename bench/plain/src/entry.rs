//! What a line of the input asks for.

use crate::bond::Terms;
use crate::dates::{Date, Day};
use crate::sheet::Notice;

const LONGEST_LINE: usize = 100;
const MOST_DIGITS: usize = 12;

pub enum Entry {
    Enter(Terms),
    Retire(u64),
    Amend(Notice),
}

fn digits(text: &[u8]) -> Option<u64> {
    text.iter().try_fold(0, |value, byte| {
        byte.is_ascii_digit().then(|| 10 * value + u64::from(byte - b'0'))
    })
}

fn number(text: &[u8]) -> Option<u64> {
    match text {
        [] => None,
        [b'0', _, ..] => None,
        _ if text.len() > MOST_DIGITS => None,
        _ => digits(text),
    }
}

fn date(text: &[u8]) -> Option<Day> {
    let [_, _, _, _, b'-', _, _, b'-', _, _] = text else {
        return None;
    };
    let date = Date {
        year: digits(&text[..4])? as u32,
        month: digits(&text[5..7])? as u32,
        day: digits(&text[8..])? as u32,
    };
    date.exists().then(|| date.to_day())
}

impl Entry {
    /// The entry that a line has the form of.
    pub fn of(line: &[u8]) -> Option<Entry> {
        if line.len() > LONGEST_LINE {
            return None;
        }
        let (letter, rest) = line.split_first()?;
        let fields = rest.strip_prefix(b" ")?;
        let fields: Vec<&[u8]> = fields.split(|byte| *byte == b' ').collect();
        match (letter, fields.as_slice()) {
            (b'B', [bond, effective, maturity, months, stub, mark, lag, face, rate]) => {
                Some(Entry::Enter(Terms {
                    number: number(bond)?,
                    effective: date(effective)?,
                    maturity: date(maturity)?,
                    months: number(months)?,
                    stub: number(stub)?,
                    mark: number(mark)?,
                    lag: number(lag)?,
                    face: number(face)?,
                    rate: number(rate)?,
                }))
            }
            (b'X', [bond]) => Some(Entry::Retire(number(bond)?)),
            (b'D', [day]) => Some(Entry::Amend(Notice::Declare(date(day)?))),
            (b'C', [day]) => Some(Entry::Amend(Notice::Cancel(date(day)?))),
            (b'M', [from, to]) => Some(Entry::Amend(Notice::Move(date(from)?, date(to)?))),
            (b'W', [day]) => Some(Entry::Amend(Notice::Withdraw(date(day)?))),
            _ => None,
        }
    }
}

/// Whether a line is passed over.
pub fn is_remark(line: &[u8]) -> bool {
    line.len() <= LONGEST_LINE && matches!(line, [] | [b'#', ..])
}
