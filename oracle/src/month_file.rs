//! The form of the month file: nine records, each between two markers of
//! its size. The Rust only reads it.

use crate::reference::voacap::coefficients::RawMonthFile;
use std::ops::Range;

const RECORDS: [u32; 9] = [240, 11184, 5328, 3528, 3168, 1920, 7128, 4400, 1584];
/// How many of the 20 tables each record holds.
const TABLES: [usize; 9] = [1, 2, 3, 1, 2, 6, 2, 2, 1];
/// How many words each table has.
pub const LENGTHS: [usize; 20] = [
    60, 2784, 12, 300, 168, 864, 882, 576, 216, 3, 3, 2, 2, 464, 6, 854, 928, 550, 550, 396,
];
pub const BYTES: usize = 38_552;

/// Each table's words, in the order in which the file holds them.
pub type Tables = [Vec<u32>; 20];

/// A table's bits with the last index fastest, as they stand in a file.
pub trait Words {
    fn add_to(&self, words: &mut Vec<u32>);
}

impl Words for f32 {
    fn add_to(&self, words: &mut Vec<u32>) {
        words.push(self.to_bits());
    }
}

impl Words for i32 {
    fn add_to(&self, words: &mut Vec<u32>) {
        words.push(*self as u32);
    }
}

impl<T: Words, const N: usize> Words for [T; N] {
    fn add_to(&self, words: &mut Vec<u32>) {
        for part in self {
            part.add_to(words);
        }
    }
}

pub fn words(table: &impl Words) -> Vec<u32> {
    let mut words = Vec::new();
    table.add_to(&mut words);
    words
}

pub fn tables(raw: &RawMonthFile) -> Tables {
    [
        words(&raw.ikim),
        words(&raw.fakp),
        words(&raw.fakabp),
        words(&raw.dud),
        words(&raw.fam),
        words(&raw.sys),
        words(&raw.xfm3cf),
        words(&raw.f2d),
        words(&raw.perr),
        words(&raw.anew),
        words(&raw.bnew),
        words(&raw.achi),
        words(&raw.bchi),
        words(&raw.fakmap),
        words(&raw.abmap),
        words(&raw.xesmcf),
        words(&raw.xpmap),
        words(&raw.xeslcf),
        words(&raw.xesucf),
        words(&raw.xercof),
    ]
}

pub fn push_words(bytes: &mut Vec<u8>, words: &[u32]) {
    bytes.extend(words.iter().flat_map(|word| word.to_le_bytes()));
}

pub fn to_bytes(tables: &Tables) -> Vec<u8> {
    let mut bytes = Vec::with_capacity(BYTES);
    let mut rest = tables.iter();
    for (size, count) in RECORDS.into_iter().zip(TABLES) {
        push_words(&mut bytes, &[size]);
        for table in rest.by_ref().take(count) {
            push_words(&mut bytes, table);
        }
        push_words(&mut bytes, &[size]);
    }
    bytes
}

/// The byte places of the 18 markers.
pub fn markers() -> Vec<usize> {
    let mut places = Vec::new();
    let mut start = 0;
    for size in RECORDS {
        let end = start + 4 + size as usize;
        places.extend([start, end]);
        start = end + 4;
    }
    places
}

/// The bytes of each of the 20 tables in a whole file.
pub fn tables_at() -> [Range<usize>; 20] {
    let mut start = 0;
    let mut lengths = LENGTHS.iter();
    let mut places = Vec::new();
    for count in TABLES {
        start += 4;
        for length in lengths.by_ref().take(count) {
            places.push(start..start + 4 * length);
            start += 4 * length;
        }
        start += 4;
    }
    places.try_into().expect("20 tables")
}

#[cfg(test)]
mod tests {
    use super::{markers, tables, tables_at, to_bytes, BYTES, LENGTHS};
    use crate::reference::voacap::coefficients::parse_month_file;
    use std::array::from_fn;

    /// Each word counts its place, so that a table out of order would show.
    fn counted() -> Vec<u8> {
        let mut next = 0..;
        to_bytes(&from_fn(|i| next.by_ref().take(LENGTHS[i]).collect()))
    }

    #[test]
    fn the_rust_reads_what_is_written() {
        let bytes = counted();
        assert_eq!(bytes.len(), BYTES);
        let raw = parse_month_file(&bytes, "month").expect("a good file");
        let read: Vec<u32> = tables(&raw).concat();
        assert!(read.iter().copied().eq(0..9620));
        assert_eq!(to_bytes(&tables(&raw)), bytes);
    }

    /// Tables and markers leave no byte of the file to anything else.
    #[test]
    fn tables_stand_between_the_markers() {
        let tables = tables_at();
        assert_eq!((&tables[0], &tables[1]), (&(4..244), &(252..11_388)));
        let ends = [&tables[14], &tables[16], &tables[19]].map(|table| table.end);
        assert_eq!(ends, [25_412, 32_548, BYTES - 4]);
        let words = tables.into_iter().flat_map(|table| table.step_by(4));
        let mut all: Vec<usize> = words.chain(markers()).collect();
        all.sort_unstable();
        assert!(all.into_iter().eq((0..BYTES).step_by(4)));
    }

    #[test]
    fn markers_stand_where_the_sizes_put_them() {
        let places = markers();
        assert_eq!(places.len(), 18);
        assert_eq!(places[..3], [0, 244, 248]);
        assert_eq!(places[17], BYTES - 4);
    }
}
