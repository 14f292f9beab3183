//! A small year file with a good directory: January and February can be shown with
//! both models, and each month after them is refused by another number or, by 23, for
//! another file.

use crate::draw::data_files::ladders::USUAL;
use crate::draw::generator::Generator;
use crate::draw::year_files::{first_months, packed, Parts, NO_GAPS};
use crate::model::year::{DIRECTORY, MONTHS};
use crate::month_file::{to_bytes, words, LENGTHS};
use crate::reference::voacap::coefficients::F2_RECORD_BYTES;
use std::array::from_fn;

/// Months that can be shown.
const GOOD: usize = 2;
/// Months with a CCIR record; those of the damaged ones are filled up.
const RECORDS: usize = 7;
/// The second marker, and the end of the third.
const SECOND: usize = 244;
const THIRD: usize = SECOND + 8;
/// The index table's word 8 of map 4 and the rows that this map has.
const WORD: usize = 4 + 40 * 3 + 4 * 8;
const ROWS: u8 = 76;
/// Words of June's record and of July's month file, there the first of `fakmap`.
const IN_RECORD: usize = 4_000;
const IN_MONTH: usize = 23_532;

pub fn year() -> Vec<u8> {
    packed(&parts(), &NO_GAPS)
}

/// January's CCIR record and its month file.
pub fn pair() -> [Vec<u8>; 2] {
    let parts = parts();
    let record = parts[MONTHS][..F2_RECORD_BYTES].to_vec();
    [record, parts[0].clone()]
}

/// The file as a copy leaves it that stopped in the middle of January: its parts, and so
/// the last pair of its directory, reach past its end.
pub fn cut() -> Vec<u8> {
    let parts = parts();
    let mut year = packed(&parts, &NO_GAPS);
    year.truncate(DIRECTORY + parts[0].len() / 2);
    year
}

fn parts() -> Parts {
    let mut parts = first_months(&mut Generator::new(905), GOOD);
    let good = parts[0].clone();
    // March ends in the middle of its third marker, April's second is wrong.
    parts[2] = good[..THIRD - 2].to_vec();
    parts[3] = good[..THIRD].to_vec();
    parts[3][SECOND] ^= 1;
    parts[4] = zeros();
    parts[4][WORD] = ROWS;
    // June's record and July's month file have a word that is no finite number.
    parts[5] = zeros();
    parts[6] = zeros();
    set_nan(&mut parts[6][IN_MONTH..]);
    parts[MONTHS].resize(RECORDS * F2_RECORD_BYTES, 0);
    set_nan(&mut parts[MONTHS][5 * F2_RECORD_BYTES + IN_RECORD..]);
    parts
}

/// A month file of zeros, which takes little room.
fn zeros() -> Vec<u8> {
    to_bytes(&from_fn(|table| match table {
        0 => words(&USUAL),
        _ => vec![0; LENGTHS[table]],
    }))
}

fn set_nan(bytes: &mut [u8]) {
    bytes[..4].copy_from_slice(&f32::NAN.to_le_bytes());
}

#[cfg(test)]
mod tests {
    use super::year;
    use crate::model::desks::survey::survey_text;

    /// What each month is refused by with CCIR and with URSI.
    const WANTED: [[&str; 2]; 7] = [
        ["can be shown"; 2],
        ["can be shown"; 2],
        ["refused 9 248:", "refused 8 0:"],
        ["refused 10 244:", "refused 8 0:"],
        ["refused 11 4:", "refused 8 0:"],
        ["refused 23 4000: the F2 planes have", "refused 8 0:"],
        ["refused 23 23532: the month file has", "refused 8 0:"],
    ];

    #[test]
    fn each_month_has_its_own_answer() {
        let text = survey_text(&year());
        let lines: Vec<&str> = text.lines().collect();
        let (first, rest) = lines.split_at(2 * WANTED.len());
        for (line, wanted) in first.iter().zip(WANTED.as_flattened()) {
            assert!(line.contains(&format!(": {wanted}")), "{line}");
        }
        assert!(rest.iter().all(|line| line.contains(": refused 8 0:")));
    }
}
