//! `bulk-sheet COUNT SEED PROGRAM`: the port's program `sheet` beside the model
//! over random inputs, whole outputs byte by byte.

use crate::commands::journals::counts::{by_bad_words, Counts};
use crate::commands::program::Compared;
use crate::commands::whole;
use crate::draw::damage::Damage;
use crate::draw::data_files::Pair;
use crate::draw::generator::Generator;
use crate::draw::journal_kinds::{any_field, bad_inputs, files};
use crate::draw::sheet_kinds::inputs;
use crate::model::desks::fields::SHEET_FIELDS;
use crate::model::desks::programs::{sheet, sheet_text, CALLS};
use crate::month_file::push_words;
use crate::reference::voacap::coefficients::F2_RECORD_BYTES;

/// Inputs for each pair of files.
const INPUTS: u64 = 20;
/// Of so many inputs one must be refused by 23, of the record and of the month file.
const RARE: u64 = 2000;

pub fn run(count: &str, seed: &str, program: &str) -> Result<(), String> {
    let (count, seed) = (whole(count)?, whole(seed)?);
    let mut compared = Compared::new(program, &[]);
    let mut counts = Counts::default();
    for case in 0..count.div_ceil(INPUTS) {
        let mut random = Generator::of_case(seed, case);
        let pair = files(&mut random);
        for number in 0..INPUTS.min(count - case * INPUTS) {
            let input = input(&mut random, &pair);
            let answer = sheet(&input);
            counts.note_sheet(&answer);
            let name = format!("input {number} of case {case}");
            compared.note(&name, &input, &sheet_text(&answer))?;
        }
    }
    counts.print();
    compared.report()?;
    counts.refuse_rare(&by_bad_words(&["sheet"]), count / RARE, 0)
}

/// Mostly good; otherwise with bad fields, a damaged month file, a record of
/// another length or cut anywhere.
fn input(random: &mut Generator, pair: &Pair) -> Vec<u8> {
    let field = any_field(random, SHEET_FIELDS);
    let fields = match random.below(8) {
        0 => bad_inputs(random, field),
        _ => inputs(random),
    };
    let record = match random.below(32) {
        0 => random.below(F2_RECORD_BYTES as u64) as usize,
        _ => F2_RECORD_BYTES,
    };
    let month = match random.below(6) {
        0 => Damage::any(random).done_to(&pair.month),
        _ => pair.month.clone(),
    };
    let mut input = Vec::with_capacity(CALLS);
    push_words(&mut input, &fields[..SHEET_FIELDS]);
    input.extend(&pair.daw[..record]);
    input.extend(month);
    match random.below(16) {
        0 => input.truncate(random.below(60) as usize),
        1 => input.truncate(random.below(CALLS as u64) as usize),
        _ => {}
    }
    input
}
