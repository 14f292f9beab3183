//! One damage of a month file: a cut, a changed byte or both.

use crate::draw::generator::Generator;
use crate::month_file::{markers, tables_at, BYTES};

/// Stands in a row for a byte that is not changed.
pub const NOWHERE: u32 = u32::MAX;
/// Bytes after the last marker, which a reader ignores.
pub const EXTRA: [u8; 64] = [0xaa; 64];
pub const LONGEST: usize = BYTES + EXTRA.len();

#[derive(Clone, Copy, PartialEq, Eq, Hash)]
pub struct Damage {
    pub length: u32,
    pub place: u32,
    pub value: u32,
}

impl Damage {
    pub fn cut(length: usize) -> Self {
        Self {
            length: length as u32,
            place: NOWHERE,
            value: 0,
        }
    }

    pub fn change(length: usize, place: usize, value: u8) -> Self {
        Self {
            length: length as u32,
            place: place as u32,
            value: value.into(),
        }
    }

    /// A cut anywhere or near a marker, a change anywhere or in a marker.
    pub fn any(random: &mut Generator) -> Self {
        let length = match random.below(4) {
            0 => BYTES,
            1 => LONGEST,
            2 => anywhere(random),
            _ => (marker(random) + random.below(16) as usize).saturating_sub(6),
        };
        let place = match random.below(8) {
            0 => return Self::cut(anywhere(random)),
            1..=3 => anywhere(random),
            _ => marker(random) + random.below(4) as usize,
        };
        Self::change(length, place, random.below(256) as u8)
    }

    /// The file with the extra bytes behind it, cut, and one byte changed. A
    /// place that was cut off changes nothing.
    pub fn done_to(self, file: &[u8]) -> Vec<u8> {
        let mut bytes = [file, &EXTRA].concat();
        bytes.truncate(self.length as usize);
        set_byte(&mut bytes, self.place, self.value);
        bytes
    }
}

/// A place that is not there changes nothing.
pub fn set_byte(file: &mut [u8], place: u32, value: u32) {
    if let Some(byte) = file.get_mut(place as usize) {
        *byte = value as u8;
    }
}

/// The bytes of a month file that make a word of a table no finite number, if all but
/// the sign is set in them: those of the first and of the last word of each table whose
/// exponent has its lowest bit set, which stands in the byte before.
pub fn to_be_set(month: &[u8]) -> Vec<usize> {
    let mut bytes = Vec::new();
    for table in &tables_at()[1..] {
        let last_bytes = table.clone().skip(3).step_by(4);
        let mut odd = last_bytes.filter(|at| month[at - 1] & 0x80 != 0);
        bytes.extend(odd.next());
        bytes.extend(odd.next_back());
    }
    bytes
}

fn anywhere(random: &mut Generator) -> usize {
    random.below(LONGEST as u64 + 1) as usize
}

fn marker(random: &mut Generator) -> usize {
    let markers = markers();
    markers[random.below(markers.len() as u64) as usize]
}

#[cfg(test)]
mod tests {
    use super::to_be_set;
    use crate::draw::data_files::named;
    use crate::month_file::tables_at;
    use crate::reference::sheets::{file_check, number_and_place};

    /// In nearly every table there is such a byte; the small ones may have none.
    #[test]
    fn one_byte_makes_a_word_no_finite_number() {
        let [_, (_, pair), ..] = named();
        let bytes = to_be_set(&pair.month);
        for at in &bytes {
            let mut month = pair.month.clone();
            month[*at] |= 0x7f;
            assert_eq!(number_and_place(file_check(&month)), (23, *at as u32 - 3));
        }
        let has_one = |table: &std::ops::Range<usize>| bytes.iter().any(|at| table.contains(at));
        let found = tables_at().iter().filter(|table| has_one(table)).count();
        assert!(found >= 17, "{found} tables");
    }
}
