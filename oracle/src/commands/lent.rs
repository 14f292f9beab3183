//! What the commands lend to the port that compare sheets or their parts:
//! files that are good or not, and buffers.

use super::buffer::Buffer;
use crate::bits::F32;
use crate::draw::damage::Damage;
use crate::draw::data_files::ladders::{good, near_good, LONG, SHORT, USUAL};
use crate::draw::data_files::{any, Pair};
use crate::draw::generator::Generator;
use crate::draw::sheet_kinds::{any_bits, in_range, one_of, outside};
use crate::model::index_check::IndexTable;
use crate::reference::sheets::Sheet;
use crate::reference::voacap::coefficients::F2_RECORD_BYTES;
use std::borrow::Cow;
use std::fmt::{Display, Formatter, Result};

/// Mostly with every field in its range.
pub fn sheet(random: &mut Generator) -> Sheet {
    match random.below(8) {
        0 => outside(random),
        1 => any_bits(random),
        _ => in_range(random),
    }
}

/// A flag where none is judged: any word but 0 is the long way round.
pub fn flag(random: &mut Generator, long: bool) -> u32 {
    match (long, random.below(2)) {
        (false, _) => 0,
        (true, 0) => 1,
        (true, _) => 1 << random.below(32),
    }
}

/// Calm or wild, some with a word that is no finite number; most tables pass.
pub fn files(random: &mut Generator) -> Pair {
    let ikim = table(random);
    let mut pair = any(random, &ikim, 1);
    // Bytes after the record are ignored.
    let further = random.below(8) as usize;
    pair.daw.resize(pair.daw.len() + further, 0xaa);
    pair
}

fn table(random: &mut Generator) -> IndexTable {
    match random.below(8) {
        0 => near_good(random),
        1 => one_of(random, &[USUAL, LONG, SHORT]),
        _ => good(random),
    }
}

/// A pair as it is lent: some records are cut, some month files damaged.
pub struct Files<'a> {
    pub record: &'a [u8],
    pub file: Cow<'a, [u8]>,
}

impl<'a> Files<'a> {
    /// Mostly such that there is nothing to refuse.
    pub fn of(random: &mut Generator, pair: &'a Pair) -> Self {
        let record = match random.below(40) {
            0 => random.below(F2_RECORD_BYTES as u64) as usize,
            1 => F2_RECORD_BYTES - 1,
            _ => pair.daw.len(),
        };
        let file = match random.below(16) {
            0 => Cow::Owned(Damage::any(random).done_to(&pair.month)),
            _ => Cow::Borrowed(&pair.month[..]),
        };
        Self {
            record: &pair.daw[..record],
            file,
        }
    }

    pub fn is_damaged(&self) -> bool {
        matches!(self.file, Cow::Owned(_))
    }
}

impl Display for Files<'_> {
    fn fmt(&self, f: &mut Formatter) -> Result {
        let Self { record, file } = self;
        let damaged = if self.is_damaged() { " damaged" } else { "" };
        let (record, file) = (record.len(), file.len());
        write!(f, "record {record}, month file {file}{damaged}")
    }
}

/// The fields as words, from which a sheet can be made again.
pub fn fields(sheet: &Sheet) -> String {
    sheet.words().map(|word| format!("{word:08x}")).join(" ")
}

/// A buffer for so many numbers.
pub fn buffer(random: &mut Generator, length: usize) -> Buffer {
    Buffer::holding(length, |count| words(random, count))
}

/// What a buffer may hold before: every second word is a NaN of any bits.
fn words(random: &mut Generator, count: usize) -> Vec<u32> {
    let word = |random: &mut Generator| {
        let word = random.next() as u32;
        match random.below(2) {
            0 => word,
            _ => word | F32.infinity() as u32 | 1,
        }
    };
    (0..count).map(|_| word(random)).collect()
}
