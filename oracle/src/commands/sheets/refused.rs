//! Refused showings and some that are not, in two sections: both files, then rows
//! of the lengths lent, a changed byte of the month file, the buffer's length, and
//! number and place of the refusal. The record of the second section has a word
//! that is no finite number.

use crate::draw::damage::{set_byte, to_be_set};
use crate::draw::data_files::{named, Pair};
use crate::month_file::{markers, push_words, BYTES};
use crate::reference::sheets::{number_and_place, showing_check, FIGURES};
use crate::reference::voacap::coefficients::F2_RECORD_BYTES;
use std::collections::HashSet;

/// Stands in a row for a byte that is not changed.
const NOWHERE: u32 = BYTES as u32;
const BUFFERS: [u32; 6] = [0, 1, 150, 151, 152, 200];
const RECORDS: [u32; 4] = [7904, 7903, 7900, 0];
/// A word of the record.
const BAD_WORD: usize = 4 * 1234;

/// What a showing is lent. A changed byte that is cut off changes nothing.
#[derive(Clone, Copy, PartialEq, Eq, Hash)]
struct Lent {
    record: u32,
    file: u32,
    place: u32,
    value: u32,
    buffer: u32,
}

/// Nothing is wrong with it.
const GOOD: Lent = Lent {
    record: F2_RECORD_BYTES as u32,
    file: BYTES as u32,
    place: NOWHERE,
    value: 0,
    buffer: FIGURES as u32,
};

impl Lent {
    fn cut(self, file: usize) -> Self {
        Self {
            file: file as u32,
            ..self
        }
    }

    fn changed(self, place: usize, value: u8) -> Self {
        Self {
            place: place as u32,
            value: value.into(),
            ..self
        }
    }

    fn row(self, pair: &Pair) -> [u32; 7] {
        let mut file = pair.month[..self.file as usize].to_vec();
        set_byte(&mut file, self.place, self.value);
        let record = &pair.daw[..self.record as usize];
        let check = showing_check(record, &file, self.buffer as usize);
        let (number, at) = number_and_place(check);
        let Self {
            record,
            file,
            place,
            value,
            buffer,
        } = self;
        [record, file, place, value, buffer, number, at]
    }
}

pub fn bytes() -> Vec<u8> {
    let mut bytes = Vec::new();
    for (pair, cases) in sections() {
        bytes.extend(&pair.daw[..F2_RECORD_BYTES]);
        bytes.extend(&pair.month);
        push_words(&mut bytes, &[cases.len() as u32]);
        for lent in cases {
            push_words(&mut bytes, &lent.row(&pair));
        }
    }
    bytes
}

/// A row changes no byte of the record, which is why a bad one has its own files.
fn sections() -> [(Pair, Vec<Lent>); 2] {
    let (good, bad) = (pair(), with_a_bad_record(pair()));
    let (of_good, of_bad) = (cases(&good), cases_without_index_tables(&bad));
    [(good, of_good), (bad, of_bad)]
}

/// All nine words of its ladders count.
fn pair() -> Pair {
    let [_, (_, calm_2), ..] = named();
    calm_2
}

/// An infinity in the record, far from both ends.
fn with_a_bad_record(mut pair: Pair) -> Pair {
    pair.daw[BAD_WORD..][..4].copy_from_slice(&f32::NEG_INFINITY.to_le_bytes());
    pair
}

fn cases(pair: &Pair) -> Vec<Lent> {
    let mut cases = cases_without_index_tables(pair);
    cases.extend(index_tables(&pair.month));
    distinct(cases)
}

/// But for those among several at once.
fn cases_without_index_tables(pair: &Pair) -> Vec<Lent> {
    let mut cases = several_at_once(pair);
    cases.extend(walks(&pair.month));
    cases.extend(bad_words(&pair.month));
    distinct(cases)
}

fn distinct(mut cases: Vec<Lent>) -> Vec<Lent> {
    let mut seen = HashSet::new();
    cases.retain(|lent| seen.insert(*lent));
    cases
}

/// Every buffer with every record and every sort of month file, so that the
/// order shows.
fn several_at_once(pair: &Pair) -> Vec<Lent> {
    let mut cases = Vec::new();
    for file in month_files(&pair.month) {
        for record in RECORDS {
            cases.extend(BUFFERS.map(|buffer| Lent {
                record,
                buffer,
                ..file
            }));
        }
    }
    cases
}

/// A cut, a wrong marker, a bad index table, and two of them in either order; a word
/// that is no finite number in the first and in the last table, whole and cut.
fn month_files(file: &[u8]) -> Vec<Lent> {
    let marker = |at: usize| GOOD.changed(at, file[at] ^ 1);
    // Word 0 of a map as 76.
    let bad_map = |map: usize| GOOD.changed(4 + 40 * (map - 1), 76);
    let bad = bad_words(file);
    let (first_bad, last_bad) = (bad[0], bad[bad.len() - 1]);
    vec![
        GOOD,
        GOOD.cut(0),
        GOOD.cut(3),
        GOOD.cut(20_001),
        GOOD.cut(BYTES - 1),
        marker(0),
        marker(244),
        marker(BYTES - 4),
        marker(0).cut(2),
        marker(244).cut(246),
        marker(244).cut(BYTES - 1),
        marker(BYTES - 4).cut(BYTES - 4),
        bad_map(1),
        bad_map(6),
        bad_map(1).cut(BYTES - 1),
        bad_map(3).cut(40),
        first_bad,
        last_bad,
        first_bad.cut(BYTES - 1),
        last_bad.cut(BYTES - 4),
    ]
}

/// Each marker changed, cut before and after it, and both.
fn walks(file: &[u8]) -> Vec<Lent> {
    let mut cases = Vec::new();
    for (i, at) in markers().into_iter().enumerate() {
        let byte = at + i % 4;
        let wrong = GOOD.changed(byte, file[byte] ^ 0x80);
        let lengths = [at, at + 1, at + 3, at + 4].into_iter();
        cases.push(wrong);
        cases.extend(lengths.clone().map(|length| GOOD.cut(length)));
        cases.extend(lengths.map(|length| wrong.cut(length)));
    }
    cases
}

/// Each word of the index table: its lowest byte beside what it was and at
/// ends of ranges, its highest, which makes it negative.
fn index_tables(file: &[u8]) -> Vec<Lent> {
    let mut cases = Vec::new();
    for at in (4..244).step_by(4) {
        let old = file[at];
        let lowest = [old.wrapping_sub(2), old.wrapping_sub(1), old + 1, old + 2];
        cases.extend(lowest.map(|value| GOOD.changed(at, value)));
        cases.extend([0, 1, 75, 76, 77].map(|value| GOOD.changed(at, value)));
        cases.push(GOOD.changed(at + 1, 1));
        cases.push(GOOD.changed(at + 3, 0x80));
    }
    cases
}

/// Words that are no finite numbers, of either sign, in tables that sheets use and in
/// others.
fn bad_words(file: &[u8]) -> Vec<Lent> {
    let bytes = to_be_set(file).into_iter();
    let cases = bytes.flat_map(|at| [0x7f, 0xff].map(|value| GOOD.changed(at, value)));
    cases.collect()
}

#[cfg(test)]
mod tests {
    use super::{bytes, sections, BAD_WORD};
    use std::collections::HashMap;

    #[test]
    fn every_refusal_is_there() {
        let [of_good, of_bad] = sections().map(|(pair, cases)| {
            let mut counts = HashMap::new();
            for lent in cases {
                let [.., number, place] = lent.row(&pair);
                let place = if number == 11 { place } else { 0 };
                *counts.entry((number, place)).or_insert(0) += 1;
            }
            println!("{counts:?}");
            counts
        });
        for answer in [(0, 0), (8, 0), (9, 0), (10, 0), (12, 0), (23, 0)] {
            assert!(of_good[&answer] >= 20, "{answer:?}");
        }
        assert!((1..=6).all(|map| of_good[&(11, map)] >= 10));
        // Over a bad record nothing is shown, and no index table is come to.
        let wanted = [(8, 0), (9, 0), (10, 0), (12, 0), (23, 0)];
        assert!(of_bad.keys().all(|answer| wanted.contains(answer)));
        assert!(wanted.iter().all(|answer| of_bad[answer] >= 20));
        assert!(bytes() == bytes());
    }

    /// The record's word is named before the month file's.
    #[test]
    fn the_record_comes_first() {
        let [(good, of_good), (bad, of_bad)] = sections();
        for lent in of_bad.iter().filter(|lent| of_good.contains(lent)) {
            let [.., number, place] = lent.row(&good);
            let [.., other, at] = lent.row(&bad);
            match number {
                0 | 11 | 23 => assert_eq!((other, at), (23, BAD_WORD as u32)),
                _ => assert_eq!((other, at), (number, place)),
            }
        }
    }
}
