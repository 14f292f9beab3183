//! What the programs `sheet`, `replay` and `replay year` print, from the bytes they
//! read.

use super::fields::{Inputs, FIELDS, SHEET_FIELDS};
use super::lent::{Lent, Shown};
use super::{Answer, Call, Edit, Refusal, Worksheet};
use crate::month_file;
use crate::reference::sheets::FIGURES;
use crate::reference::voacap::coefficients::F2_RECORD_BYTES;
use std::fmt::Write;
use std::rc::Rc;

/// The 14 words of a sheet over a pair of files.
pub const HEAD: usize = 4 * SHEET_FIELDS;
/// Where the month file begins.
pub const MONTH: usize = HEAD + F2_RECORD_BYTES;
/// Where the calls of a journal over a pair of files begin.
pub const CALLS: usize = MONTH + month_file::BYTES;

/// The 15 words of a worksheet over a year file.
pub const YEAR_HEAD: usize = 4 * FIELDS;
/// Where the year file begins, after the word with its length.
pub const YEAR: usize = YEAR_HEAD + 4;
/// The length of the longest year file that is read.
pub const LONGEST_YEAR: usize = 1_048_576;

/// The highest operation of a journal over a pair of files, and over a year file.
const PAIR_OPERATIONS: u32 = 10;
const YEAR_OPERATIONS: u32 = 12;

/// The 15 words; bytes that are missing count as 0.
pub fn inputs(input: &[u8]) -> Inputs {
    let mut bytes = [0; YEAR_HEAD];
    let given = input.len().min(YEAR_HEAD);
    bytes[..given].copy_from_slice(&input[..given]);
    std::array::from_fn(|i| word(&bytes, i).expect("all 15 are there"))
}

/// The 14 words. The model is not among them and counts as 0, as what is missing
/// does.
pub fn sheet_inputs(input: &[u8]) -> Inputs {
    inputs(part(input, 0, HEAD))
}

/// The bytes from `start` to `end`, or as many of them as there are.
fn part(input: &[u8], start: usize, end: usize) -> &[u8] {
    &input[start.min(input.len())..end.min(input.len())]
}

pub fn record(input: &[u8]) -> &[u8] {
    part(input, HEAD, MONTH)
}

/// What the program `sheet` does with its input.
pub fn sheet(input: &[u8]) -> Result<Rc<Shown>, Refusal> {
    let lent = Lent::pair(record(input), part(input, MONTH, input.len()));
    Worksheet::open(sheet_inputs(input))?.show(0, FIGURES, &lent)
}

/// What the program `replay` does with its input.
pub struct Replayed {
    /// The worksheet, unless its opening was refused.
    pub opened: Result<Worksheet, Refusal>,
    pub calls: Vec<Call>,
    pub answers: Vec<Answer>,
    /// The first byte of a call that is none.
    pub stopped: Option<usize>,
}

impl Replayed {
    /// Nothing is called yet.
    pub fn of(opened: Result<Worksheet, Refusal>) -> Self {
        Self {
            opened,
            calls: Vec::new(),
            answers: Vec::new(),
            stopped: None,
        }
    }

    /// Calls are read from a byte of the input on until it ends, or until what
    /// stands there is none. A refused open has none.
    fn call_all(&mut self, lent: &Lent, input: &[u8], start: usize, operations: u32) {
        let Ok(mut sheet) = self.opened else {
            return;
        };
        let mut at = start;
        while at < input.len() {
            let Some(call) = call(&input[at..], operations) else {
                self.stopped = Some(at);
                return;
            };
            self.answers.push(sheet.answer(&call, lent));
            sheet = sheet.after(&call);
            at += 4 * words(&call).len();
            self.calls.push(call);
        }
    }
}

/// A whole input, with files of its own.
pub fn replay(input: &[u8]) -> Replayed {
    let lent = Lent::pair(record(input), part(input, MONTH, CALLS));
    replay_with(&lent, input)
}

/// A whole input that holds the files `lent` was made of, or ends before its
/// calls.
pub fn replay_with(lent: &Lent, input: &[u8]) -> Replayed {
    let mut replayed = Replayed::of(Worksheet::open(sheet_inputs(input)));
    replayed.call_all(lent, input, CALLS, PAIR_OPERATIONS);
    replayed
}

/// What `replay year` does with a whole input.
pub fn replay_year(input: &[u8]) -> Replayed {
    replay_year_with(&Lent::year(year_file(input)), input)
}

/// A whole input that holds the year file `lent` was made of, or ends before its
/// calls.
pub fn replay_year_with(lent: &Lent, input: &[u8]) -> Replayed {
    let mut replayed = Replayed::of(Worksheet::open(inputs(input)));
    match year_length(input) {
        Some(length @ ..=LONGEST_YEAR) => {
            replayed.call_all(lent, input, YEAR + length, YEAR_OPERATIONS);
        }
        Some(_) if replayed.opened.is_ok() => replayed.stopped = Some(YEAR_HEAD),
        _ => {}
    }
    replayed
}

/// The word after the 15, if it is there.
pub fn year_length(input: &[u8]) -> Option<usize> {
    word(input, FIELDS).map(|length| length as usize)
}

/// The year file of an input, or as much of it as there is.
pub fn year_file(input: &[u8]) -> &[u8] {
    part(input, YEAR, YEAR + year_length(input).unwrap_or(0))
}

/// The little-endian word of this number.
fn word(bytes: &[u8], number: usize) -> Option<u32> {
    let bytes = bytes.get(4 * number..4 * number + 4)?;
    bytes.try_into().ok().map(u32::from_le_bytes)
}

/// The call that stands first; none if it is cut short or of an operation that is
/// unknown, above the highest too. Its words are any words: a bad flag, month or
/// model is refused like a bad number.
fn call(bytes: &[u8], operations: u32) -> Option<Call> {
    let word = |number| word(bytes, number);
    let operation = word(0)?;
    if operation == 9 {
        return Some(Call::TakeBack);
    }
    if !(1..=operations).contains(&operation) {
        return None;
    }
    let desk = word(1)?;
    let edit = match operation {
        1 => return Some(Call::Begin(desk)),
        7 => return Some(Call::Commit(desk)),
        8 => return Some(Call::Cancel(desk)),
        10 => return Some(Call::Show(desk, FIGURES)),
        2 => Edit::Sunspots(word(2)?),
        3 => Edit::Hour(word(2)?),
        4 => Edit::Path {
            ends: [word(2)?, word(3)?, word(4)?, word(5)?],
            flag: word(6)?,
        },
        5 => Edit::Factors([word(2)?, word(3)?, word(4)?, word(5)?]),
        6 => Edit::Pole([word(2)?, word(3)?]),
        11 => Edit::Month(word(2)?),
        _ => Edit::Model(word(2)?),
    };
    Some(Call::Change(desk, edit))
}

/// A call as a journal holds it. A showing's buffer is always of 151.
pub fn words(call: &Call) -> Vec<u32> {
    match call {
        Call::Begin(desk) => vec![1, *desk],
        Call::Change(desk, edit) => {
            let operation = match edit {
                Edit::Sunspots(_) => 2,
                Edit::Hour(_) => 3,
                Edit::Path { .. } => 4,
                Edit::Factors(_) => 5,
                Edit::Pole(_) => 6,
                Edit::Month(_) => 11,
                Edit::Model(_) => 12,
            };
            let (_, numbers) = edit.fields();
            [&[operation, *desk], &numbers[..]].concat()
        }
        Call::Commit(desk) => vec![7, *desk],
        Call::Cancel(desk) => vec![8, *desk],
        Call::TakeBack => vec![9],
        Call::Show(desk, _) => vec![10, *desk],
    }
}

fn figures(shown: &Shown) -> String {
    let mut text = String::with_capacity(9 * FIGURES);
    for word in shown.words {
        writeln!(text, "{word:08x}").expect("a string takes everything");
    }
    text
}

fn refused(refusal: Refusal) -> String {
    format!("refused {} {}\n", refusal.number, refusal.place)
}

/// What `sheet` prints.
pub fn sheet_text(answer: &Result<Rc<Shown>, Refusal>) -> String {
    match answer {
        Ok(shown) => figures(shown),
        Err(refusal) => refused(*refusal),
    }
}

/// What `replay` prints.
pub fn replay_text(replayed: &Replayed) -> String {
    let mut text = String::new();
    if let Err(refusal) = replayed.opened {
        text += &refused(refusal);
    }
    for answer in &replayed.answers {
        match answer {
            Answer::Accepted => text += "accepted\n",
            Answer::Refused(refusal) => text += &refused(*refusal),
            Answer::Points(shown) => {
                text += &format!("points {}\n", shown.points);
                text += &figures(shown);
            }
        }
    }
    if let Some(at) = replayed.stopped {
        text += &format!("stopped at {at}\n");
    }
    text
}

#[cfg(test)]
mod tests;
