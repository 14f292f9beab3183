//! `bulk-year-journals COUNT SEED PROGRAM`: the port's program `replay` with the
//! argument `year` beside the model over random journals, whole outputs byte by
//! byte.

use crate::commands::journals::counts::{by_bad_words, Counts, SHOWINGS};
use crate::commands::journals::drawn::long;
use crate::commands::journals::hold_to_demand_3;
use crate::commands::program::Compared;
use crate::commands::{whole, year_journals};
use crate::draw::generator::Generator;
use crate::draw::journal_kinds::OVER_A_YEAR;
use crate::draw::sheet_kinds::one_of;
use crate::draw::year_files::any_year;
use crate::model::desks::lent::Lent;
use crate::model::desks::programs::{
    replay_text, replay_year_with, year_file, year_length, Replayed, LONGEST_YEAR, YEAR, YEAR_HEAD,
};

/// Journals for each year file.
const JOURNALS: u64 = 10;
/// In so many journals a showing must be refused by 23, of the record and of the month
/// file.
const RARE: u64 = 1000;

/// Whether an input is such, by its bytes and what was made of it.
type Kind = (&'static str, fn(&[u8], &Replayed) -> bool);

/// Inputs whose calls are not looked at. But for the first their open is accepted.
const WITHOUT_CALLS: [Kind; 4] = [
    ("open refused", |_, replayed| replayed.opened.is_err()),
    ("length above the limit", |_, replayed| {
        replayed.stopped == Some(YEAR_HEAD)
    }),
    ("length cut or not there", |input, replayed| {
        replayed.opened.is_ok() && input.len() < YEAR
    }),
    ("year file cut", |input, replayed| {
        let length = year_length(input).filter(|length| *length <= LONGEST_YEAR);
        let is_cut = length.is_some_and(|length| input.len() < YEAR + length);
        replayed.opened.is_ok() && is_cut
    }),
];

/// How often each kind came.
#[derive(Default)]
struct Kinds([u64; WITHOUT_CALLS.len()]);

impl Kinds {
    fn note(&mut self, input: &[u8], replayed: &Replayed) {
        for (count, (_, is_such)) in self.0.iter_mut().zip(WITHOUT_CALLS) {
            *count += u64::from(is_such(input, replayed));
        }
    }

    fn print(&self) {
        for (count, (name, _)) in self.0.iter().zip(WITHOUT_CALLS) {
            println!("{count:>10}  {name}");
        }
    }
}

pub fn run(count: &str, seed: &str, program: &str) -> Result<(), String> {
    let (count, seed) = (whole(count)?, whole(seed)?);
    let mut compared = Compared::new(program, &["year"]);
    let mut counts = Counts::default();
    let mut kinds = Kinds::default();
    for case in 0..count.div_ceil(JOURNALS) {
        let mut random = Generator::of_case(seed, case);
        let year = any_year(&mut random);
        let lent = Lent::year(&year);
        for number in 0..JOURNALS.min(count - case * JOURNALS) {
            let input = journal(&mut random, &year);
            // What an input is cut to may leave another year file.
            let given = year_file(&input);
            let other = (given != year).then(|| Lent::year(given));
            let lent = other.as_ref().unwrap_or(&lent);
            let replayed = replay_year_with(lent, &input);
            let name = format!("journal {number} of case {case}");
            let held = hold_to_demand_3(&mut random, &replayed, lent);
            held.map_err(|text| format!("{name}: {text}"))?;
            counts.note(&replayed);
            kinds.note(&input, &replayed);
            compared.note(&name, &input, &replay_text(&replayed))?;
        }
    }
    counts.print();
    kinds.print();
    compared.report()?;
    counts.refuse_rare(&by_bad_words(&SHOWINGS), count / RARE, 0)
}

/// Mostly 40 to 200 calls; some opens are refused, some journals end with what is
/// no call, some are cut before their calls, of these some in the word with the year
/// file's length, and some give their year file another length.
fn journal(random: &mut Generator, year: &[u8]) -> Vec<u8> {
    let (journal, last) = long(random, &OVER_A_YEAR);
    let mut input = year_journals::input(&journal, &of_any_length(random, year));
    match random.below(16) {
        0 | 1 => {
            let (_, no_call) = one_of(random, &OVER_A_YEAR.no_calls);
            input.extend(no_call(random, &last));
        }
        2 => input.truncate(random.below(YEAR as u64 + 4) as usize),
        3 => input.truncate(random.below((YEAR + year.len()) as u64 + 8) as usize),
        4 => {
            let length = other_length(random, year.len() as u32);
            input[YEAR_HEAD..YEAR].copy_from_slice(&length.to_le_bytes());
        }
        5 => input.truncate(YEAR_HEAD + random.below(4) as usize),
        _ => {}
    }
    input
}

/// Now and then as long as a year file may be, or one byte longer.
fn of_any_length(random: &mut Generator, year: &[u8]) -> Vec<u8> {
    let mut year = year.to_vec();
    match random.below(64) {
        0 => year.resize(LONGEST_YEAR, 0xaa),
        1 => year.resize(LONGEST_YEAR + 1, 0xaa),
        _ => {}
    }
    year
}

/// With which calls are taken for a file, or a file for calls.
fn other_length(random: &mut Generator, length: u32) -> u32 {
    match random.below(8) {
        0 => random.any_word(),
        1 => random.below(length.into()) as u32,
        2 => length.wrapping_sub(1),
        3 => length + 1 + random.below(40) as u32,
        _ => {
            let longest = LONGEST_YEAR as u32;
            one_of(random, &[0, longest, longest + 1, 1 << 31, u32::MAX])
        }
    }
}

#[cfg(test)]
mod tests {
    use super::{journal, Kinds, YEAR};
    use crate::draw::generator::Generator;
    use crate::draw::year_files::small_year;
    use crate::model::desks::programs::replay_year;

    /// With every length that the cut word can have.
    #[test]
    fn inputs_of_all_kinds_come() {
        let mut random = Generator::new(1);
        let mut kinds = Kinds::default();
        let mut cut = [0; 4];
        for _ in 0..3000 {
            let year = small_year(&mut random);
            let input = journal(&mut random, &year);
            let replayed = replay_year(&input);
            kinds.note(&input, &replayed);
            if replayed.opened.is_ok() && (YEAR - 4..YEAR).contains(&input.len()) {
                cut[input.len() + 4 - YEAR] += 1;
            }
        }
        assert!(kinds.0.iter().all(|count| *count >= 60), "{:?}", kinds.0);
        assert!(cut.iter().all(|count| *count >= 20), "{cut:?}");
    }
}
