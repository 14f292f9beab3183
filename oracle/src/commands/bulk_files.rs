//! `bulk-files COUNT SEED`: the port's file functions beside the Rust over
//! random files, good, damaged and wild.

use crate::commands::compare::{filled, report, Tally};
use crate::commands::whole;
use crate::draw::damage::Damage;
use crate::draw::data_files::{any, ladders::near_good, Pair};
use crate::draw::generator::Generator;
use crate::reference::files::{blends, put, walk};
use crate::reference::sheets::{file_check, files_check, number_and_place};
use crate::reference::voacap::coefficients::F2_RECORD_BYTES;
use jutetrowel::raw::{self, Answer};

pub fn run(count: &str, seed: &str) -> Result<(), String> {
    let count = whole(count)?;
    let seed = whole(seed)?;
    let mut tallies = NAMES.map(Tally::new);
    for case in 0..count {
        let mut random = Generator::of_case(seed, case);
        compare(&mut random, &mut tallies, case);
    }
    report(&tallies)?;
    tallies
        .iter()
        .try_for_each(|tally| tally.refuse_rare(count / RARE))
}

/// The functions, each but the first without and with a refusal by 23.
const NAMES: [&str; 8] = [
    "month_file_check",
    "file_check",
    "  by 23",
    "cofion",
    "  by 23, record",
    "  by 23, month file",
    "hmym",
    "  by 23",
];
/// At least one pair in so many must have each answer.
const RARE: u64 = 500;

/// Places of the functions among the names.
const FORM: usize = 0;
const CHECK: usize = 1;
const COFION: usize = 3;
const HMYM: usize = 6;

fn compare(random: &mut Generator, tallies: &mut [Tally; 8], case: u64) {
    let pair = files(random);
    let walked = refusal(raw::month_file_check(&pair.month), walk(&pair.month));
    tallies[FORM].note(case, walked);
    let ssn = sunspots(random);
    let both = files_check(&pair.daw, &pair.month);
    let wanted = both.is_ok().then(|| blended(&pair, ssn).0);
    let difference = filled(number_and_place(both), wanted, |out| {
        raw::cofion(&pair.daw, &pair.month, ssn, out)
    });
    let kind = match both {
        Err(why) if why.number == 23 => 2 - usize::from(why.of_record),
        _ => 0,
    };
    let at = |text| format!("at {ssn:e}, {text}");
    tallies[COFION + kind].note(case, difference.map(at));
    compare_month_file(tallies, case, &pair, ssn);
}

/// What is asked of the month file alone.
fn compare_month_file(tallies: &mut [Tally; 8], case: u64, pair: &Pair, ssn: f32) {
    let alone = file_check(&pair.month);
    let kind = usize::from(alone.is_err_and(|why| why.number == 23));
    let answer = number_and_place(alone);
    let checked = refusal(raw::file_check(&pair.month), answer);
    tallies[CHECK + kind].note(case, checked);
    let wanted = alone.is_ok().then(|| blended(pair, ssn).1);
    let difference = filled(answer, wanted, |out| raw::hmym(&pair.month, ssn, out));
    let at = |text| format!("at {ssn:e}, {text}");
    tallies[HMYM + kind].note(case, difference.map(at));
}

/// The Rust reads no height map without a whole record.
fn blended(pair: &Pair, ssn: f32) -> (Vec<f32>, Vec<f32>) {
    let mut daw = pair.daw.clone();
    daw.resize(daw.len().max(F2_RECORD_BYTES), 0);
    put(&daw, &pair.month, 1);
    blends(1, ssn)
}

/// Calm or wild, some with a word that is no finite number, with a table that passes
/// or nearly does; half of them damaged.
fn files(random: &mut Generator) -> Pair {
    let ikim = near_good(random);
    let mut pair = any(random, &ikim, 1);
    if random.below(2) == 0 {
        pair.month = Damage::any(random).done_to(&pair.month);
    }
    // Bytes after the record are ignored; some records are cut.
    let size = match random.below(16) {
        0 => random.below(F2_RECORD_BYTES as u64) as usize,
        further => pair.daw.len() + further as usize % 8,
    };
    pair.daw.resize(size, 0xaa);
    pair
}

/// In range, whole or not, and any bits.
fn sunspots(random: &mut Generator) -> f32 {
    match random.below(4) {
        0 => random.below(301) as f32,
        1 => random.any_number(),
        _ => random.uniform(0.0, 300.0) as f32,
    }
}

fn refusal(ours: Answer, wanted: (u32, u32)) -> Option<String> {
    let ours = (ours.number, ours.place);
    let text = |(number, place): (u32, u32)| format!("{number} at {place}");
    (ours != wanted).then(|| format!("port {}, wanted {}", text(ours), text(wanted)))
}
