//! The 15 fields of a worksheet's inputs and their ranges.

use super::Refusal;
use crate::reference::routes::{end, Route};
use crate::reference::sheets::Sheet;

/// The fields of a sheet over an F2 record and a month file: all but the model.
pub const SHEET_FIELDS: usize = 14;
pub const FIELDS: usize = SHEET_FIELDS + 1;

/// The F2 models, as field 15 has them.
pub const CCIR: u32 = 0;
pub const URSI: u32 = 1;

/// In the documents' order: month, flag and model as whole numbers, the others
/// as f32 bits.
pub type Inputs = [u32; FIELDS];

#[derive(Debug, Clone, Copy, PartialEq)]
pub enum Range {
    Whole(u32, u32),
    Number(f32, f32),
}

impl Range {
    /// Ends are included; NaN is outside.
    fn holds(self, word: u32) -> bool {
        match self {
            Range::Whole(low, high) => (low..=high).contains(&word),
            Range::Number(low, high) => (low..=high).contains(&f32::from_bits(word)),
        }
    }
}

const LATITUDE: (u32, Range) = (4, Range::Number(-90.0, 90.0));
const LONGITUDE: (u32, Range) = (5, Range::Number(-180.0, 180.0));
const FLAG: (u32, Range) = (7, Range::Whole(0, 1));
const FACTOR: (u32, Range) = (6, Range::Number(0.125, 8.0));
const MODEL: (u32, Range) = (7, Range::Whole(CCIR, URSI));

/// Each field's refusal and range.
const ALL: [(u32, Range); FIELDS] = [
    (1, Range::Whole(1, 12)),
    (2, Range::Number(0.0, 300.0)),
    (3, Range::Number(0.0, 24.0)),
    LATITUDE,
    LONGITUDE,
    LATITUDE,
    LONGITUDE,
    FLAG,
    FACTOR,
    FACTOR,
    FACTOR,
    FACTOR,
    LATITUDE,
    LONGITUDE,
    MODEL,
];

/// The range of a field by its number, 1 to 15.
pub fn range(field: usize) -> Range {
    ALL[field - 1].1
}

/// Refuses the first bad one of fields that follow each other; `first` is the
/// number of the first.
pub fn check(first: usize, words: &[u32]) -> Result<(), Refusal> {
    for (field, word) in (first..).zip(words) {
        let (number, range) = ALL[field - 1];
        if !range.holds(*word) {
            let place = field as u32;
            return Err(Refusal::at(number, place));
        }
    }
    Ok(())
}

pub fn month(inputs: &Inputs) -> u32 {
    inputs[0]
}

pub fn model(inputs: &Inputs) -> u32 {
    inputs[FIELDS - 1]
}

/// The words of a sheet's fields, and the model after them.
pub fn with_model(words: [u32; SHEET_FIELDS], model: u32) -> Inputs {
    let mut inputs = [model; FIELDS];
    inputs[..SHEET_FIELDS].copy_from_slice(&words);
    inputs
}

/// The same inputs in another month and with another model.
pub fn moved_to(mut inputs: Inputs, month: u32, model: u32) -> Inputs {
    inputs[0] = month;
    inputs[FIELDS - 1] = model;
    inputs
}

/// A month, the 12 numbers in their order, and the flag in its place; the model
/// is CCIR.
pub fn inputs(month: u32, numbers: [f32; 12], long: bool) -> Inputs {
    let [ssn, gmt, tlat, tlon, rlat, rlon, e, f1, f2, es, lat, lon] = numbers.map(f32::to_bits);
    let long = long.into();
    let words = [
        month, ssn, gmt, tlat, tlon, rlat, rlon, long, e, f1, f2, es, lat, lon,
    ];
    with_model(words, CCIR)
}

/// The sheet that these inputs, all in range, ask the Rust for. Its files are
/// those of the model.
pub fn sheet(inputs: &Inputs) -> Sheet {
    let number = |field: usize| f32::from_bits(inputs[field - 1]);
    let route = Route {
        from: end(number(4), number(5)),
        to: end(number(6), number(7)),
        long: inputs[7] == 1,
        pole: end(number(13), number(14)),
    };
    Sheet {
        month: month(inputs),
        ssn: number(2),
        gmt: number(3),
        route,
        psc: [number(9), number(10), number(11), number(12)],
    }
}

#[cfg(test)]
mod tests {
    use super::{model, sheet, with_model, URSI};
    use crate::draw::generator::Generator;
    use crate::draw::sheet_kinds::in_range;

    #[test]
    fn a_sheet_has_the_words_it_is_made_of() {
        let mut random = Generator::new(5);
        for _ in 0..100 {
            let words = in_range(&mut random).words();
            let inputs = with_model(words, URSI);
            assert_eq!(sheet(&inputs).words(), words);
            assert_eq!(model(&inputs), URSI);
        }
    }
}
