//! The Rust side of `table`: which bytes of a file the Rust reads as each
//! table, and document 01's refusals before that.

use crate::model::desks::{at_no_place, Refusal};
use crate::month_file::{markers, tables, words};
use crate::reference::files::walk;
use crate::reference::voacap::coefficients::{f2_planes, parse_month_file, F2_RECORD_BYTES};

/// The F2 planes and the 20 tables of a month file.
pub const TABLES: usize = 21;

/// What is handed back of the file that holds the table.
#[derive(Debug, Clone, PartialEq)]
pub struct Part {
    pub start: usize,
    /// As the Rust has read them.
    pub words: Vec<u32>,
}

impl Part {
    pub fn length(&self) -> usize {
        4 * self.words.len()
    }
}

/// Where each table starts in the file that holds it.
pub struct Starts([usize; TABLES]);

impl Starts {
    /// From what the Rust reads of a file in which each word is its own place,
    /// made of a good month file.
    pub fn of(month: &[u8]) -> Self {
        let mut file = month.to_vec();
        let markers = markers();
        for (i, word) in file.chunks_exact_mut(4).enumerate() {
            if !markers.contains(&(4 * i)) {
                word.copy_from_slice(&(4 * i as u32).to_le_bytes());
            }
        }
        let raw = parse_month_file(&file, "month").expect("a good file");
        let mut starts = [0; TABLES];
        for (start, table) in starts[1..].iter_mut().zip(tables(&raw)) {
            let one_by_one = table.windows(2).all(|two| two[1] == two[0] + 4);
            assert!(one_by_one, "a table stands in one piece");
            *start = table[0] as usize;
        }
        Self(starts)
    }

    /// The part that is handed back. Bytes after the record are ignored.
    pub fn table(&self, number: u32, record: &[u8], month: &[u8]) -> Result<Part, Refusal> {
        if number as usize >= TABLES {
            return Err(at_no_place(13));
        }
        if record.len() < F2_RECORD_BYTES {
            return Err(at_no_place(8));
        }
        match walk(month) {
            (0, 0) => Ok(Part {
                start: self.0[number as usize],
                words: read(number, record, month),
            }),
            (number, place) => Err(Refusal::at(number, place)),
        }
    }
}

fn read(number: u32, record: &[u8], month: &[u8]) -> Vec<u32> {
    match number as usize {
        0 => words(&f2_planes(record, 1, "daw").expect("a whole record")),
        place => {
            let raw = parse_month_file(month, "month").expect("a good file");
            tables(&raw)[place - 1].clone()
        }
    }
}

#[cfg(test)]
mod tests {
    use super::{Starts, TABLES};
    use crate::draw::data_files::named;
    use crate::model::desks::Refusal;

    fn bytes(words: &[u32]) -> Vec<u8> {
        words.iter().flat_map(|word| word.to_le_bytes()).collect()
    }

    #[test]
    fn a_table_is_a_part_of_its_file() {
        for (_, pair) in named() {
            let starts = Starts::of(&pair.month);
            for number in 0..TABLES as u32 {
                let part = starts.table(number, &pair.daw, &pair.month);
                let part = part.expect("both files are good");
                let file = if number == 0 { &pair.daw } else { &pair.month };
                let end = part.start + part.length();
                assert!(
                    file[part.start..end] == bytes(&part.words),
                    "table {number}"
                );
            }
        }
    }

    #[test]
    fn known_points() {
        let [(_, pair), ..] = named();
        let starts = Starts::of(&pair.month);
        let place = |number| {
            let part = starts.table(number, &pair.daw, &pair.month);
            part.map(|part| (part.start, part.length()))
        };
        assert_eq!(place(0), Ok((0, 7904)));
        assert_eq!(place(1), Ok((4, 240)));
        assert_eq!(place(15), Ok((25_388, 24)));
        assert_eq!(place(17), Ok((28_836, 3712)));
        assert_eq!(place(20), Ok((36_964, 1584)));
    }

    #[test]
    fn refusals_come_in_their_order() {
        let [(_, pair), ..] = named();
        let starts = Starts::of(&pair.month);
        let refused = |number, place| Err(Refusal::at(number, place));
        let mut wrong = pair.month.clone();
        wrong[244] = 0;
        assert_eq!(starts.table(21, &[], &[]), refused(13, 0));
        assert_eq!(starts.table(20, &pair.daw[..7903], &[]), refused(8, 0));
        assert_eq!(starts.table(0, &pair.daw, &[]), refused(9, 0));
        assert_eq!(starts.table(0, &pair.daw, &wrong), refused(10, 244));
        assert_eq!(starts.table(0, &pair.daw, &wrong[..247]), refused(9, 244));
    }
}
