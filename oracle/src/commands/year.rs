//! `year FILE SEED`, `year-parts DIR FILE`, `year-damaged FILE` and `year-few FILE`:
//! good year files, one of which some parts are damaged, and a small one.
//! `year-pair RECORD MONTH` and `year-cut FILE`: a pair of the small one, and what a copy
//! that stopped in January leaves of it.
//! `year-check FILE`: what the program `year check` prints of one.

mod damaged;
pub mod few;

use super::answer::print;
use super::{read_file, whole, write, write_file};
use crate::draw::generator::Generator;
use crate::draw::year_files::plain::plain_year;
use crate::draw::year_files::{calm_year, packed, NO_GAPS};
use crate::model::desks::survey::survey_text;
use crate::model::year::PARTS;

/// The files that a year is packed from, in the order of its parts.
const NAMES: [&str; PARTS] = [
    "jan.month",
    "feb.month",
    "mar.month",
    "apr.month",
    "may.month",
    "jun.month",
    "jul.month",
    "aug.month",
    "sep.month",
    "oct.month",
    "nov.month",
    "dec.month",
    "ccir.daw",
    "ursi.daw",
];

/// All months and both models, their numbers from a seed.
pub fn run(file: &str, seed: &str) -> Result<(), String> {
    let parts = calm_year(&mut Generator::new(whole(seed)?));
    write_file(file, &packed(&parts, &NO_GAPS))
}

/// What the program `year` is given, and what it makes of it.
pub fn parts(folder: &str, file: &str) -> Result<(), String> {
    let parts = plain_year();
    for (name, part) in NAMES.iter().zip(&parts) {
        write(folder, name, part)?;
    }
    write_file(file, &packed(&parts, &NO_GAPS))
}

pub fn damaged(file: &str) -> Result<(), String> {
    write_file(file, &damaged::year())
}

pub fn few(file: &str) -> Result<(), String> {
    write_file(file, &few::year())
}

pub fn pair(record: &str, month: &str) -> Result<(), String> {
    let [first, second] = few::pair();
    write_file(record, &first)?;
    write_file(month, &second)
}

pub fn cut(file: &str) -> Result<(), String> {
    write_file(file, &few::cut())
}

pub fn check(file: &str) -> Result<(), String> {
    print(&survey_text(&read_file(file)?))
}

#[cfg(test)]
mod tests {
    use super::{packed, plain_year, NAMES, NO_GAPS, PARTS};
    use std::collections::HashSet;

    /// With any two of the files exchanged the year file is another.
    #[test]
    fn no_part_stands_for_another() {
        assert_eq!(NAMES.iter().collect::<HashSet<_>>().len(), PARTS);
        let parts = plain_year();
        let year = packed(&parts, &NO_GAPS);
        for (a, b) in (0..PARTS).flat_map(|a| (0..a).map(move |b| (a, b))) {
            let mut other = parts.clone();
            other.swap(a, b);
            let [a, b] = [a, b].map(|k| NAMES[k]);
            assert!(packed(&other, &NO_GAPS) != year, "{a} and {b}");
        }
    }
}
