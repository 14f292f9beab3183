//! Document 02's request 10, written from its text alone: the first f32 word of an
//! F2 record or of a month file that is no finite number. The Rust has no such rule
//! and reckons with what it reads.

use super::desks::Refusal;
use crate::month_file::{tables_at, BYTES};
use std::ops::Range;

const REFUSED: u32 = 23;
const RECORD: usize = 7904;

/// All of a whole record is one table; what follows it is no part of it.
pub fn of_record(record: &[u8]) -> Result<(), Refusal> {
    refuse(record, 0..RECORD).map_err(Refusal::about_record)
}

/// Of a month file that has passed its walk: every table but the first, `ikim`,
/// which holds whole numbers. Markers belong to no table.
pub fn of_month_file(file: &[u8]) -> Result<(), Refusal> {
    assert!(file.len() >= BYTES);
    let [_ikim, tables @ ..] = tables_at();
    tables.into_iter().try_for_each(|table| refuse(file, table))
}

/// The place of the first word among these bytes that is no finite number.
fn refuse(bytes: &[u8], table: Range<usize>) -> Result<(), Refusal> {
    let mut places = table.step_by(4);
    match places.find(|at| !is_finite(&bytes[*at..at + 4])) {
        Some(at) => Err(Refusal::at(REFUSED, at as u32)),
        None => Ok(()),
    }
}

/// Both infinities and every NaN have all eight bits of the exponent set: the last
/// byte but for the sign, and the highest bit of the one before it.
fn is_finite(word: &[u8]) -> bool {
    word[3] & 0x7f != 0x7f || word[2] & 0x80 == 0
}

#[cfg(test)]
mod tests {
    use super::{is_finite, of_month_file, of_record, Refusal, RECORD};
    use crate::month_file::{markers, tables_at, BYTES};

    const BAD: [u32; 8] = [
        0x7f80_0000,
        0xff80_0000,
        0x7f80_0001,
        0xff80_0001,
        0x7fc0_0000,
        0xffc0_0000,
        0x7fff_ffff,
        0xffff_ffff,
    ];
    const GOOD: [u32; 9] = [
        0x7f7f_ffff,
        0xff7f_ffff,
        0x7f00_0000,
        0x0000_0001,
        0x8000_0001,
        0x8000_0000,
        0x0080_0000,
        0x807f_ffff,
        0x3fff_ffff,
    ];

    fn with(mut bytes: Vec<u8>, at: usize, word: u32) -> Vec<u8> {
        bytes[at..at + 4].copy_from_slice(&word.to_le_bytes());
        bytes
    }

    fn in_record(at: usize, word: u32) -> Result<(), Refusal> {
        of_record(&with(vec![0; RECORD + 4], at, word))
    }

    fn in_month(at: usize, word: u32) -> Result<(), Refusal> {
        of_month_file(&with(vec![0; BYTES + 4], at, word))
    }

    fn refused(at: usize) -> Result<(), Refusal> {
        Err(Refusal::at(23, at as u32))
    }

    /// As the library tells them, over every exponent and sign.
    #[test]
    fn finite_numbers_are_told_from_others() {
        for top in 0..=u16::MAX {
            for low in [0, 1, 0x8000, 0xffff] {
                let word = u32::from(top) << 16 | low;
                let finite = f32::from_bits(word).is_finite();
                assert_eq!(is_finite(&word.to_le_bytes()), finite, "{word:08x}");
            }
        }
    }

    #[test]
    fn first_and_last_words_of_every_table_count() {
        for word in BAD {
            for at in [0, 4, RECORD - 4] {
                let of_record = refused(at).map_err(Refusal::about_record);
                assert_eq!(in_record(at, word), of_record);
            }
            for table in &tables_at()[1..] {
                for at in [table.start, table.end - 4] {
                    assert_eq!(in_month(at, word), refused(at));
                }
            }
        }
        for word in GOOD {
            assert!((0..RECORD)
                .step_by(988)
                .all(|at| in_record(at, word).is_ok()));
            let starts = tables_at().map(|table| table.start);
            assert!(starts.iter().all(|at| in_month(*at, word).is_ok()));
        }
    }

    #[test]
    fn index_tables_markers_and_what_follows_do_not_count() {
        for word in BAD {
            let [ikim, ..] = tables_at();
            let free = ikim.step_by(4).chain(markers()).chain([BYTES]);
            for at in free {
                assert_eq!(in_month(at, word), Ok(()), "{at}");
            }
            assert_eq!(in_record(RECORD, word), Ok(()));
        }
    }

    #[test]
    fn the_lowest_place_is_named() {
        let two = with(with(vec![0; RECORD], 7900, BAD[0]), 988, BAD[3]);
        assert_eq!(of_record(&two).map_err(|why| why.place), Err(988));
        let two = with(with(vec![0; BYTES], 38_544, BAD[0]), 252, BAD[3]);
        assert_eq!(of_month_file(&two), refused(252));
    }
}
