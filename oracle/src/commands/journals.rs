//! `journals FILE`: short journals with what `replay` prints for them. The
//! number of journals, an F2 record and a month file, then for each journal its
//! inputs, its calls and its output, byte for byte.

pub mod by_hand;
pub mod clauses;
pub mod counts;
pub mod drawn;
pub mod seen;

use super::write_file;
use crate::draw::data_files::{named, Pair};
use crate::draw::generator::Generator;
use crate::draw::journal_kinds::{any_buffers, bad_flags, with_a_nan, OVER_A_PAIR};
use crate::model::desks::fields::SHEET_FIELDS;
use crate::model::desks::lent::Lent;
use crate::model::desks::programs::{replay_text, replay_with, Replayed, CALLS};
use crate::model::desks::shorter::check;
use crate::model::desks::Call;
use crate::month_file::push_words;
use clauses::DEMAND_3;
use counts::{possible, BY_DESKS};
use drawn::{random_list, refused_opens, start, stopped, Journal, REFUSED_OPENS};
use seen::{Least, Seen, Wanted};

const LISTS: usize = 200;
const BAD_FLAGS: usize = 50;
/// At most so much; the file is kept.
const MOST: usize = 3_000_000;
/// At most so many bytes of calls in one journal, and of text.
const MOST_CALLS: usize = 1024;
const MOST_TEXT: usize = 32_768;
const LEAST: Least = Least {
    answers: 10,
    of_opens: REFUSED_OPENS as u64,
    refusals: 100,
    clauses: 30,
};

/// What the program reads.
pub fn input(journal: &Journal, files: &[u8]) -> Vec<u8> {
    let mut input = Vec::new();
    push_words(&mut input, &journal.inputs[..SHEET_FIELDS]);
    input.extend(files);
    assert_eq!(input.len(), CALLS);
    input.extend(&journal.calls);
    input
}

fn wanted() -> Wanted {
    Wanted {
        possible: possible(),
        refusals: BY_DESKS.to_vec(),
        clauses: [&DEMAND_3[..], &clauses::BAD_FLAGS].concat(),
    }
}

pub fn run(file: &str) -> Result<(), String> {
    let journals = journals();
    let (bytes, seen) = vectors(&journals)?;
    print_groups(journals.iter());
    seen.print();
    seen.check(&LEAST)?;
    if bytes.len() > MOST {
        return Err(format!("{} bytes are too many", bytes.len()));
    }
    write_file(file, &bytes)
}

/// One figure of each point is NaN, the others depend on all fields.
fn pair() -> Pair {
    let [(_, calm_1), ..] = named();
    with_a_nan(&calm_1)
}

fn journals() -> Vec<Journal> {
    let mut random = Generator::new(601);
    let mut journals = lists_by_hand("by hand", &by_hand::lists());
    journals.extend(lists_by_hand("calls of a year", &by_hand::of_a_year()));
    let kind = &OVER_A_PAIR;
    journals.extend((0..LISTS).map(|_| random_list(&mut random, kind, "lists")));
    journals.extend((0..BAD_FLAGS).map(|_| with_bad_flags(&mut random)));
    journals.extend(refused_opens(&mut random, kind));
    journals.extend(stopped(&mut random, kind));
    journals
}

pub fn lists_by_hand(group: &'static str, lists: &[Vec<Call>]) -> Vec<Journal> {
    let journal = |calls: &Vec<Call>| Journal::of(group, by_hand::inputs(), calls);
    lists.iter().map(journal).collect()
}

fn with_bad_flags(random: &mut Generator) -> Journal {
    let (inputs, opened) = start(random, &OVER_A_PAIR);
    let count = 8 + random.below(9);
    Journal::of("bad flags", inputs, &bad_flags(random, &opened, count))
}

/// The file's bytes, and what was seen on the way.
fn vectors(journals: &[Journal]) -> Result<(Vec<u8>, Seen), String> {
    let pair = pair();
    let lent = Lent::pair(&pair.daw, &pair.month);
    let mut random = Generator::new(602);
    let mut seen = Seen::nothing(wanted());
    let mut bytes = Vec::new();
    push_words(&mut bytes, &[journals.len() as u32]);
    let files = [pair.daw, pair.month].concat();
    bytes.extend(&files);
    for (i, journal) in journals.iter().enumerate() {
        let replayed = replay_with(&lent, &input(journal, &files));
        let held = hold_to_demand_3(&mut random, &replayed, &lent);
        held.map_err(|text| format!("journal {i}: {text}"))?;
        seen.note(&replayed);
        push_words(&mut bytes, &journal.inputs[..SHEET_FIELDS]);
        let pushed = push_calls(&mut bytes, &journal.calls, &replayed);
        pushed.map_err(|text| format!("journal {i}: {text}"))?;
    }
    Ok((bytes, seen))
}

/// The calls and what is printed for them, each after its length. What reads them
/// has no room for more.
pub fn push_calls(bytes: &mut Vec<u8>, calls: &[u8], replayed: &Replayed) -> Result<(), String> {
    let text = replay_text(replayed);
    if calls.len() > MOST_CALLS || text.len() > MOST_TEXT {
        return Err(String::from("its calls or its text are too long"));
    }
    push_part(bytes, calls);
    push_part(bytes, text.as_bytes());
    Ok(())
}

/// Bytes after their length.
pub fn push_part(bytes: &mut Vec<u8>, part: &[u8]) {
    push_words(bytes, &[part.len() as u32]);
    bytes.extend(part);
}

/// Demand 3 of what was replayed, if it was opened: as it is, and with some
/// buffers of a wrong length, which no journal can hold.
pub fn hold_to_demand_3(
    random: &mut Generator,
    replayed: &Replayed,
    lent: &Lent,
) -> Result<(), String> {
    let Ok(opened) = &replayed.opened else {
        return Ok(());
    };
    let mut calls = replayed.calls.clone();
    check(opened, &calls, lent)?;
    any_buffers(random, &mut calls);
    check(opened, &calls, lent)?;
    Ok(())
}

pub fn print_groups<'a>(journals: impl Iterator<Item = &'a Journal>) {
    let groups: Vec<&str> = journals.map(|journal| journal.group).collect();
    for same in groups.chunk_by(|a, b| a == b) {
        println!("{:<20} {:>4} journals", same[0], same.len());
    }
    println!("{:<20} {:>4} journals", "in all", groups.len());
}

#[cfg(test)]
mod tests {
    use super::{by_hand, input, journals, pair, vectors, LEAST, MOST, SHEET_FIELDS};
    use crate::model::desks::lent::Lent;
    use crate::model::desks::programs::replay;
    use crate::model::desks::Worksheet;
    use crate::reference::sheets::FIGURES;

    #[test]
    fn journals_show_everything_and_are_the_same_each_time() {
        let journals = journals();
        assert!(journals.len() >= 150);
        let (bytes, seen) = vectors(&journals).expect("demand 3 holds");
        seen.print();
        assert_eq!(seen.check(&LEAST), Ok(()));
        assert!(bytes.len() <= MOST, "{} bytes", bytes.len());
        assert!(vectors(&super::journals()).is_ok_and(|(again, _)| again == bytes));
    }

    /// Its three words are all there, and its first byte is named.
    #[test]
    fn a_whole_call_of_a_year_stops_a_journal() {
        let pair = pair();
        let files = [pair.daw, pair.month].concat();
        let mut stopped = journals();
        stopped.retain(|journal| journal.group == "calls of a year");
        assert_eq!(stopped.len(), 6);
        for (i, journal) in stopped.iter().enumerate() {
            let input = input(journal, &files);
            let last = input.len() - 12;
            assert_eq!(input[last..last + 4], [11 + i as u8 % 2, 0, 0, 0]);
            assert_eq!(replay(&input).stopped, Some(last));
        }
    }

    /// Of the files that the journals share.
    #[test]
    fn figures_depend_on_every_field_and_some_are_nan() {
        let pair = pair();
        let lent = Lent::pair(&pair.daw, &pair.month);
        let show = |inputs| {
            let sheet = Worksheet::open(inputs).expect("in range");
            sheet.show(0, FIGURES, &lent).expect("good files").words
        };
        let figures = show(by_hand::inputs());
        let nans = figures.iter().filter(|word| **word == 0x7fc0_0000).count();
        assert_eq!(nans, 1);
        for field in 1..=SHEET_FIELDS {
            let mut inputs = by_hand::inputs();
            inputs[field - 1] = match field {
                1 => 5,
                8 => 1,
                _ => (f32::from_bits(inputs[field - 1]) + 0.5).to_bits(),
            };
            assert_ne!(show(inputs), figures, "field {field}");
        }
    }
}
