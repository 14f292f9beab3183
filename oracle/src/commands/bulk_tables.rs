//! `bulk-tables COUNT SEED`: the port's tables beside the Rust's over random
//! numbers and files, good, damaged and wild.

use crate::commands::compare::{report, Tally};
use crate::commands::whole;
use crate::draw::damage::Damage;
use crate::draw::data_files::{calm, ladders::near_good, wild, Pair};
use crate::draw::generator::Generator;
use crate::model::desks::Refusal;
use crate::reference::tables::{Part, Starts, TABLES};
use crate::reference::voacap::coefficients::F2_RECORD_BYTES;
use jutetrowel::raw::{self, Span};

/// Tables for each pair of files, which takes longer to make.
const ASKED: u64 = 50;

pub fn run(count: &str, seed: &str) -> Result<(), String> {
    let count = whole(count)?;
    let seed = whole(seed)?;
    let mut tallies = ["given", "refused"].map(Tally::new);
    for case in 0..count.div_ceil(ASKED) {
        let mut random = Generator::of_case(seed, case);
        let pair = files(&mut random);
        let starts = Starts::of(&pair.month);
        for _ in 0..ASKED.min(count - case * ASKED) {
            compare(&mut random, &mut tallies, case, &pair, &starts);
        }
    }
    report(&tallies)
}

fn compare(
    random: &mut Generator,
    tallies: &mut [Tally; 2],
    case: u64,
    pair: &Pair,
    starts: &Starts,
) {
    let number = number(random);
    let record = &pair.daw[..record_length(random, pair.daw.len())];
    let month = match random.below(2) {
        0 => Damage::any(random).done_to(&pair.month),
        _ => pair.month.clone(),
    };
    let given = raw::table(number, record, &month);
    let wanted = starts.table(number, record, &month);
    let file = if number == 0 { record } else { &month };
    let tally = &mut tallies[usize::from(wanted.is_err())];
    tally.note(case, difference(number, given, &wanted, file));
}

fn number(random: &mut Generator) -> u32 {
    match random.below(8) {
        0 => random.any_word(),
        1 => TABLES as u32 + random.below(4) as u32,
        _ => random.below(TABLES as u64) as u32,
    }
}

/// Any index table: it is no part of this check.
fn files(random: &mut Generator) -> Pair {
    let ikim = near_good(random);
    let one_in = 1 << random.below(13);
    let mut pair = match random.below(2) {
        0 => calm(random, &ikim, 1),
        _ => wild(random, &ikim, 1, one_in),
    };
    // Bytes after the record are ignored.
    pair.daw.resize(F2_RECORD_BYTES + 64, 0xaa);
    pair
}

fn record_length(random: &mut Generator, longest: usize) -> usize {
    match random.below(16) {
        0 => random.below(F2_RECORD_BYTES as u64) as usize,
        1 => F2_RECORD_BYTES - 1,
        2..=5 => random.between(F2_RECORD_BYTES as i64, longest as i64) as usize,
        _ => F2_RECORD_BYTES,
    }
}

/// The bytes there must be those that the Rust has read as the table.
fn difference(
    number: u32,
    given: Span,
    wanted: &Result<Part, Refusal>,
    file: &[u8],
) -> Option<String> {
    let answer = match wanted {
        Ok(part) => Span {
            start: part.start,
            size: part.length(),
            number: 0,
            place: 0,
        },
        Err(Refusal { number, place, .. }) => Span {
            start: 0,
            size: 0,
            number: *number,
            place: *place,
        },
    };
    if given != answer {
        return Some(format!("table {number}: port {given:?}, wanted {answer:?}"));
    }
    let part = wanted.as_ref().ok()?;
    let bytes = part.words.iter().flat_map(|word| word.to_le_bytes());
    let held = &file[part.start..part.start + part.length()];
    (!bytes.eq(held.iter().copied())).then(|| format!("table {number}: other bytes"))
}
