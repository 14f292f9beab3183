//! The Rust side of the file functions: its answers as document 01's numbers
//! and places.

use crate::month_file::{tables, words};
use crate::reference::voacap::coefficients::{
    f2_planes, parse_month_file, redmap, CoefficientSet, FoF2Model, F2_RECORD_BYTES,
};
use crate::reference::voacap::data;
use crate::reference::voacap::ionosphere::cofion;
use std::io::{ErrorKind, Result};
use std::path::Path;
use std::rc::Rc;

/// The refusal of a month file and its place, both 0 for a good file.
pub fn walk(file: &[u8]) -> (u32, u32) {
    let Err(error) = parse_month_file(file, "month") else {
        return (0, 0);
    };
    let number = match error.kind() {
        ErrorKind::UnexpectedEof => 9,
        ErrorKind::InvalidData => 10,
        kind => panic!("{kind:?} is no refusal of a month file"),
    };
    let text = error.to_string();
    let place = text.rsplit(" at byte ").next().map(str::parse);
    match place {
        Some(Ok(place)) => (number, place),
        _ => panic!("no place in {text}"),
    }
}

/// Holds both files for `read`, as those of one month.
pub fn put(daw: &[u8], file: &[u8], month: u32) {
    data::put("coeffs/fof2CCIR.daw", daw.to_vec());
    data::put(&month_name(month), file.to_vec());
}

fn month_name(month: u32) -> String {
    format!("coeffs/coeff{month:02}w.bin")
}

/// Holds twelve month files, then the `.daw` files of CCIR and URSI, each under
/// the name by which the Rust asks for it.
pub fn put_year(parts: &[Rc<[u8]>; 14]) {
    let (months, daws) = parts.split_at(12);
    for (month, file) in (1..).zip(months) {
        data::put(&month_name(month), file.clone());
    }
    for (model, daw) in [FoF2Model::Ccir, FoF2Model::Ursi].into_iter().zip(daws) {
        data::put(&format!("coeffs/{}", model.daw_name()), daw.clone());
    }
}

pub fn read(month: u32, ssn: f32) -> Result<CoefficientSet> {
    read_of(FoF2Model::Ccir, month, ssn)
}

/// From the files that are put: the Rust chooses by month and model.
pub fn read_of(model: FoF2Model, month: u32, ssn: f32) -> Result<CoefficientSet> {
    redmap(Path::new(""), model, month, ssn)
}

/// The refusal of a month record, its place and the record's start, for a
/// month file that is good and put.
pub fn record(month: u32) -> [u32; 3] {
    match read(month, 0.0).map_err(|error| error.kind()) {
        Ok(_) => [0, 0, (month - 1) * F2_RECORD_BYTES as u32],
        Err(ErrorKind::InvalidInput) => [1, 1, 0],
        Err(ErrorKind::UnexpectedEof) => [8, 0, 0],
        Err(kind) => panic!("{kind:?} is no refusal of a month record"),
    }
}

/// Every table word as the Rust's arrays hold it, F2 planes first.
pub fn table_words(daw: &[u8], month: u32, file: &[u8]) -> Vec<u32> {
    let planes = f2_planes(daw, month, "daw").expect("a record for the month");
    let raw = parse_month_file(file, "month").expect("a good file");
    let mut all = words(&planes);
    all.extend(tables(&raw).concat());
    all
}

/// The flattened coefficients of the six maps and the height ratio map, from
/// the files that are put.
pub fn blends(month: u32, ssn: f32) -> (Vec<f32>, Vec<f32>) {
    let set = read(month, ssn).expect("both files are good");
    (cofion(&set), set.hmym.concat())
}

#[cfg(test)]
mod tests {
    use super::{put, record, table_words, walk};
    use crate::draw::data_files::named;
    use crate::month_file::markers;

    /// The bytes as words, markers left out.
    fn words_of(file: &[u8]) -> Vec<u32> {
        let word = |at: usize| u32::from_le_bytes(file[at..at + 4].try_into().expect("four bytes"));
        let places = (0..file.len()).step_by(4);
        let markers = markers();
        places
            .filter(|at| !markers.contains(at))
            .map(word)
            .collect()
    }

    #[test]
    fn tables_hold_the_files_words_in_their_order() {
        for (_, pair) in named() {
            let mut expected = Vec::new();
            for bytes in pair.daw[7904..15_808].chunks(4) {
                expected.push(u32::from_le_bytes(bytes.try_into().expect("four bytes")));
            }
            expected.extend(words_of(&pair.month));
            assert!(table_words(&pair.daw, 2, &pair.month) == expected);
        }
    }

    #[test]
    fn known_points() {
        let [(_, pair), ..] = named();
        assert_eq!(walk(&[]), (9, 0));
        assert_eq!(walk(&pair.month), (0, 0));
        assert_eq!(walk(&pair.month[..38_551]), (9, 38_548));
        let mut wrong = pair.month.clone();
        wrong[38_551] ^= 1;
        assert_eq!(walk(&wrong), (10, 38_548));
        put(&pair.daw, &pair.month, 12);
        assert_eq!(record(12), [0, 0, 86_944]);
    }
}
