//! `bulk-years COUNT SEED`: what the port's library says of year files' directories
//! beside the second rule, src/model/year.rs, over every kind of damage.

#[cfg(test)]
mod tests;

use crate::commands::compare::{report, Tally};
use crate::draw::generator::Generator;
use crate::draw::year_files::directories::{any_bytes, damaged_somewhere};
use crate::draw::year_files::small_year;
use crate::model::desks::Refusal;
use crate::model::year::{model_place, month_place, places, PARTS};
use jutetrowel::raw::{Answer, Span};
use std::fmt::Debug;
use std::ops::Range;

/// What a library says of a year file: of its directory, and of the parts of a
/// month and of a model.
struct Years<'a> {
    check: &'a dyn Fn(&[u8]) -> Answer,
    month: &'a dyn Fn(&[u8], u32) -> Span,
    model: &'a dyn Fn(&[u8], u32) -> Span,
}

/// The directories that are accepted and those in which each pair is named, then
/// the parts by what is said of them.
const NAMES: [&str; PARTS + 7] = [
    "accepted",
    "19 at pair 1",
    "19 at pair 2",
    "19 at pair 3",
    "19 at pair 4",
    "19 at pair 5",
    "19 at pair 6",
    "19 at pair 7",
    "19 at pair 8",
    "19 at pair 9",
    "19 at pair 10",
    "19 at pair 11",
    "19 at pair 12",
    "19 at pair 13",
    "19 at pair 14",
    "months' parts",
    "  refused by 1",
    "  refused by 19",
    "models' parts",
    "  refused by 7",
    "  refused by 19",
];
const MONTHS: usize = PARTS + 1;
const MODELS: usize = MONTHS + 3;

/// Words that are no month and no model, some of which would be one if cut to a
/// byte or to two.
const NO_WORDS: [u32; 6] = [13, 255, 256, 257, 65_537, u32::MAX];
/// At least one directory in so many must have each answer.
const RARE: u64 = 200;

#[cfg(linked)]
pub fn run(count: &str, seed: &str) -> Result<(), String> {
    use super::whole;
    use jutetrowel::raw;
    let library = Years {
        check: &raw::year_check,
        month: &raw::year_month,
        model: &raw::year_model,
    };
    compare(&library, whole(count)?, whole(seed)?)
}

fn compare(years: &Years, count: u64, seed: u64) -> Result<(), String> {
    let mut tallies = NAMES.map(Tally::new);
    for case in 0..count {
        let mut random = Generator::of_case(seed, case);
        one(years, &mut random, &mut tallies, case);
    }
    report(&tallies)?;
    let directories = &tallies[..MONTHS];
    directories
        .iter()
        .try_for_each(|tally| tally.refuse_rare(count / RARE))
}

/// One file, and all its parts.
fn one(years: &Years, random: &mut Generator, tallies: &mut [Tally], case: u64) {
    let file = file(random);
    let (check, kind) = match places(&file) {
        Ok(_) => (answer(0, 0), 0),
        Err(Refusal { number, place, .. }) => (answer(number, place), place as usize),
    };
    tallies[kind].note(case, differing((years.check)(&file), check));
    let others = [random.any_word(), random.below(3) as u32];
    for word in (0..=12).chain(NO_WORDS).chain(others) {
        let wanted = month_place(&file, word);
        let text = differing((years.month)(&file, word), span(&wanted));
        let named = |text| format!("month {word}: {text}");
        tallies[MONTHS + kind_of(&wanted)].note(case, text.map(named));
    }
    for word in (0..=2).chain(NO_WORDS).chain(others) {
        let wanted = model_place(&file, word);
        let text = differing((years.model)(&file, word), span(&wanted));
        let named = |text| format!("model {word}: {text}");
        tallies[MODELS + kind_of(&wanted)].note(case, text.map(named));
    }
}

/// A small year with a damage, or bytes that nobody packed.
fn file(random: &mut Generator) -> Vec<u8> {
    match random.below(16) {
        0 => any_bytes(random),
        _ => {
            let good = small_year(random);
            damaged_somewhere(random, &good)
        }
    }
}

fn answer(number: u32, place: u32) -> Answer {
    Answer { number, place }
}

/// A refused one has zeros for its start and its size.
fn span(place: &Result<Range<usize>, Refusal>) -> Span {
    let (start, size, number, place) = match place {
        Ok(place) => (place.start, place.len(), 0, 0),
        Err(Refusal { number, place, .. }) => (0, 0, *number, *place),
    };
    Span {
        start,
        size,
        number,
        place,
    }
}

/// Among the three tallies of a part: given, refused by its own word, or by 19.
fn kind_of(place: &Result<Range<usize>, Refusal>) -> usize {
    match place {
        Ok(_) => 0,
        Err(Refusal { number: 19, .. }) => 2,
        Err(_) => 1,
    }
}

fn differing<T: PartialEq + Debug>(given: T, wanted: T) -> Option<String> {
    (given != wanted).then(|| format!("port {given:?}, wanted {wanted:?}"))
}
