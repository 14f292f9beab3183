//! `bulk-journals COUNT SEED PROGRAM`: the port's program `replay` beside the
//! model over random journals, whole outputs byte by byte.

use crate::commands::journals::counts::{by_bad_words, Counts, SHOWINGS};
use crate::commands::journals::drawn::long;
use crate::commands::journals::{self, hold_to_demand_3};
use crate::commands::program::Compared;
use crate::commands::whole;
use crate::draw::generator::Generator;
use crate::draw::journal_kinds::{damaged, files, OVER_A_PAIR};
use crate::draw::sheet_kinds::one_of;
use crate::model::desks::lent::Lent;
use crate::model::desks::programs::{replay_text, replay_with, CALLS};

/// Journals for each pair of files.
const JOURNALS: u64 = 10;
/// In so many journals a showing must be refused by 23, of the record and of the month
/// file.
const RARE: u64 = 1000;

pub fn run(count: &str, seed: &str, program: &str) -> Result<(), String> {
    let (count, seed) = (whole(count)?, whole(seed)?);
    let mut compared = Compared::new(program, &[]);
    let mut counts = Counts::default();
    for case in 0..count.div_ceil(JOURNALS) {
        let mut random = Generator::of_case(seed, case);
        let pair = files(&mut random);
        let month = match random.below(8) {
            0 => damaged(&mut random, &pair.month),
            _ => pair.month,
        };
        let lent = Lent::pair(&pair.daw, &month);
        let files = [pair.daw, month].concat();
        for number in 0..JOURNALS.min(count - case * JOURNALS) {
            let input = journal(&mut random, &files);
            let replayed = replay_with(&lent, &input);
            let name = format!("journal {number} of case {case}");
            let held = hold_to_demand_3(&mut random, &replayed, &lent);
            held.map_err(|text| format!("{name}: {text}"))?;
            counts.note(&replayed);
            compared.note(&name, &input, &replay_text(&replayed))?;
        }
    }
    counts.print();
    compared.report()?;
    counts.refuse_rare(&by_bad_words(&SHOWINGS), count / RARE, 0)
}

/// Mostly 40 to 200 calls; some opens are refused, some journals end with what
/// is no call, some are cut before their calls.
fn journal(random: &mut Generator, files: &[u8]) -> Vec<u8> {
    let (journal, last) = long(random, &OVER_A_PAIR);
    let mut input = journals::input(&journal, files);
    match random.below(16) {
        0 | 1 => {
            let (_, no_call) = one_of(random, &OVER_A_PAIR.no_calls);
            input.extend(no_call(random, &last));
        }
        2 => input.truncate(random.below(60) as usize),
        3 => input.truncate(random.below(CALLS as u64 + 8) as usize),
        _ => {}
    }
    input
}
