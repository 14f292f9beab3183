//! What the program `sheet` is given: fields, and how much of both files, with
//! one byte of the month file changed, all of it cut.

use crate::draw::damage::{set_byte, to_be_set};
use crate::draw::data_files::Pair;
use crate::draw::generator::Generator;
use crate::draw::sheet_kinds::inputs;
use crate::model::desks::fields::{self, range, Inputs, Range, SHEET_FIELDS};
use crate::model::desks::programs::{CALLS, HEAD, MONTH};
use crate::month_file::{markers, push_words, BYTES};
use crate::reference::voacap::coefficients::F2_RECORD_BYTES;

/// Stands for a byte that is not changed.
const NOWHERE: u32 = BYTES as u32;
/// What follows the month file if it is to be longer.
const FURTHER: u8 = 0xaa;
const NANS: [u32; 3] = [0x7fc0_0000, 0xffc0_0000, 0x7f80_0001];

#[derive(Clone, Copy)]
pub struct Case {
    pub fields: Inputs,
    /// How many bytes of the record, and of the month file, which is longer
    /// than it is by further bytes.
    pub record: u32,
    pub month: u32,
    /// A byte of the month file and what it becomes.
    pub place: u32,
    pub value: u32,
    /// The length to which the whole is cut at last.
    pub total: u32,
}

impl Case {
    /// Nothing is cut and nothing changed.
    fn whole(fields: Inputs) -> Self {
        Self {
            fields,
            record: F2_RECORD_BYTES as u32,
            month: BYTES as u32,
            place: NOWHERE,
            value: 0,
            total: CALLS as u32,
        }
    }

    fn cut(self, total: usize) -> Self {
        Self {
            total: total as u32,
            ..self
        }
    }

    /// Other lengths of both files, and nothing else cut.
    fn with_files(self, record: usize, month: usize) -> Self {
        Self {
            record: record as u32,
            month: month as u32,
            ..self.cut(HEAD + record + month)
        }
    }

    fn changed(self, place: usize, value: u8) -> Self {
        Self {
            place: place as u32,
            value: value.into(),
            ..self
        }
    }

    pub fn input(&self, pair: &Pair) -> Vec<u8> {
        let mut month = pair.month.clone();
        set_byte(&mut month, self.place, self.value);
        month.resize(self.month as usize, FURTHER);
        let mut input = Vec::new();
        push_words(&mut input, &self.fields[..SHEET_FIELDS]);
        input.extend(&pair.daw[..self.record as usize]);
        input.extend(month);
        input.truncate(self.total as usize);
        input
    }
}

pub fn cases(pair: &Pair) -> Vec<Case> {
    let mut cases = good();
    cases.extend(cuts());
    cases.extend(bad_fields());
    cases.extend(several_bad());
    cases.extend(bad_files(&pair.month));
    cases.extend(bad_words(&pair.month));
    cases
}

/// June at noon, a route of three points.
fn usual() -> Inputs {
    let numbers = [
        70.0, 12.0, 52.0, 4.0, 62.0, -40.0, 1.0, 1.0, 1.0, 0.7, 78.5, -68.0,
    ];
    fields::inputs(6, numbers, false)
}

/// As usual but for one field.
fn with(field: usize, word: u32) -> Inputs {
    let mut inputs = usual();
    inputs[field - 1] = word;
    inputs
}

fn good() -> Vec<Case> {
    let mut cases = vec![Case::whole(usual()), Case::whole(with(8, 1))];
    for high in [false, true] {
        cases.push(Case::whole(std::array::from_fn(|i| end(i + 1, high))));
    }
    let mut random = Generator::new(702);
    cases.extend((0..8).map(|_| Case::whole(inputs(&mut random))));
    // Longer than needed.
    for further in [1, 3, 4, 1000] {
        cases.push(Case::whole(usual()).with_files(F2_RECORD_BYTES, BYTES + further));
    }
    cases
}

/// The lower or the upper end of a field.
fn end(field: usize, high: bool) -> u32 {
    match (range(field), high) {
        (Range::Whole(low, _), false) => low,
        (Range::Whole(_, high), true) => high,
        (Range::Number(low, _), false) => low.to_bits(),
        (Range::Number(_, high), true) => high.to_bits(),
    }
}

/// The same input at many lengths.
fn cuts() -> Vec<Case> {
    let within = [
        0, 1, 2, 4, 5, 7, 8, 16, 29, 32, 35, 36, 39, 44, 47, 48, 52, 53, 55,
    ];
    let files = [
        HEAD,
        HEAD + 1,
        HEAD + 4,
        MONTH - 4,
        MONTH - 1,
        MONTH,
        MONTH + 1,
        MONTH + 3,
        MONTH + 4,
        MONTH + 200,
        MONTH + 244,
        MONTH + 247,
        MONTH + 252,
        MONTH + BYTES / 2,
        MONTH + BYTES / 2 + 1,
        CALLS - 5,
        CALLS - 4,
        CALLS - 3,
        CALLS - 1,
    ];
    let lengths = within.into_iter().chain(files);
    let mut cases: Vec<Case> = lengths
        .map(|length| Case::whole(usual()).cut(length))
        .collect();
    // Of these only the first byte is in range.
    cases.push(Case::whole(with(1, 256 + 6)).cut(1));
    cases.push(Case::whole(with(1, 256 + 6)).cut(2));
    cases.push(Case::whole(with(8, 257)).cut(30));
    cases.push(Case::whole(with(8, 257)).cut(29));
    cases
}

/// Every field just outside both ends, and what is no number. Of each field one
/// input is whole, and the others end with the 14 words.
fn bad_fields() -> Vec<Case> {
    let mut cases = Vec::new();
    for field in 1..=SHEET_FIELDS {
        let words = match range(field) {
            Range::Whole(low, high) => {
                let mut words = vec![high + 1, 256 + low, 1 << 31, u32::MAX, 1f32.to_bits()];
                words.extend(low.checked_sub(1));
                words
            }
            Range::Number(low, high) => {
                let ends = [low.next_down(), high.next_up()];
                let infinite = [f32::INFINITY, f32::NEG_INFINITY];
                let numbers = ends.into_iter().chain(infinite).map(f32::to_bits);
                numbers.chain(NANS).collect()
            }
        };
        let cut = words
            .iter()
            .map(|word| Case::whole(with(field, *word)).cut(HEAD));
        cases.extend(cut);
        cases.push(Case::whole(with(field, words[0])));
    }
    cases
}

/// Two bad fields or more, and a bad field with bad files: the first decides.
fn several_bad() -> Vec<Case> {
    let mut cases = Vec::new();
    for first in 1..=SHEET_FIELDS {
        let mut inputs = usual();
        inputs[first - 1..].fill(u32::MAX);
        cases.push(Case::whole(inputs).cut(HEAD));
    }
    let bad = with(14, NANS[0]);
    cases.push(Case::whole(bad).cut(HEAD + 100));
    cases.push(Case::whole(bad).cut(MONTH + 2));
    cases.push(Case::whole(bad).changed(0, 0).cut(MONTH + 40));
    cases.push(Case::whole(bad).changed(4, 76));
    cases
}

/// Each marker wrong, index tables that do not pass, records of another length
/// in front of the month file.
fn bad_files(month: &[u8]) -> Vec<Case> {
    let usual = Case::whole(usual());
    let mut cases = Vec::new();
    for (i, at) in markers().into_iter().enumerate() {
        // Another byte of the marker each time.
        let place = at + i % 4;
        cases.push(
            usual
                .changed(place, month[place] ^ 0x10)
                .cut(MONTH + at + 4),
        );
    }
    cases.push(usual.changed(BYTES - 1, 1));
    // Cut before, within and after a wrong marker.
    for off in [0, 3, 4] {
        cases.push(usual.changed(248, month[248] ^ 1).cut(MONTH + 248 + off));
    }
    for map in 0..6 {
        let word = |number: usize| 4 + 40 * map + 4 * number;
        cases.push(usual.changed(word(0), 0));
        cases.push(usual.changed(word(3) + 3, 0x80));
        cases.push(usual.changed(word(8), 76));
        cases.push(usual.changed(word(9), 7));
    }
    for (record, month) in [
        (0, BYTES),
        (F2_RECORD_BYTES - 1, BYTES),
        (0, F2_RECORD_BYTES - 1),
    ] {
        cases.push(usual.with_files(record, month));
    }
    // A word of a table changed: still good.
    cases.push(usual.changed(20_000, month[20_000] ^ 1));
    cases
}

/// Words that are no finite numbers, their signs by turns. A cut file or a bad field
/// comes first.
fn bad_words(month: &[u8]) -> Vec<Case> {
    let bytes = to_be_set(month)
        .into_iter()
        .zip([0x7f, 0xff].into_iter().cycle());
    let mut cases: Vec<Case> = bytes
        .map(|(at, value)| Case::whole(usual()).changed(at, value))
        .collect();
    let [first, last] = [cases[0], cases[cases.len() - 1]];
    cases.push(first.cut(CALLS - 1));
    cases.push(last.cut(CALLS - 4));
    let fields = with(14, NANS[0]);
    cases.push(Case { fields, ..first });
    cases
}
