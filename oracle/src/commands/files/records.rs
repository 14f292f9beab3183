//! Month records of a cut F2 file with the Rust's answer: rows of length,
//! month, number and place of the refusal, start of the record.

use crate::draw::data_files::{Pair, YEAR};
use crate::month_file::push_words;
use crate::reference::files::{put, record};
use crate::reference::voacap::coefficients::F2_RECORD_BYTES;

pub fn rows(pair: &Pair) -> Vec<u8> {
    // The Rust reads the month file after the record, whatever the month.
    for month in 1..=YEAR {
        put(&[], &pair.month, month as u32);
    }
    let mut bytes = Vec::new();
    for length in lengths(pair.daw.len()) {
        put(&pair.daw[..length], &pair.month, 1);
        for month in (0..=14).chain([255, 1 << 31, u32::MAX]) {
            let [number, place, start] = record(month);
            push_words(&mut bytes, &[length as u32, month, number, place, start]);
        }
    }
    bytes
}

/// Around each record's end.
fn lengths(longest: usize) -> Vec<usize> {
    let mut lengths = Vec::new();
    for end in (0..=longest).step_by(F2_RECORD_BYTES) {
        lengths.extend(end.saturating_sub(5)..=longest.min(end + 5));
    }
    lengths.extend([F2_RECORD_BYTES / 2, 3 * F2_RECORD_BYTES / 2]);
    lengths
}
