//! A year of few numbers, which takes little room where it is kept: all its parts
//! are good, no two are alike or of one length, and no two records are alike.

use super::Parts;
use crate::draw::data_files::ladders::{LONG, SHORT, USUAL};
use crate::model::year::MONTHS;
use crate::month_file::{push_words, to_bytes, words, LENGTHS};
use crate::reference::voacap::coefficients::F2_RECORD_BYTES;
use std::array::from_fn;

/// After so many the numbers of a part come again: a prime, so that no two records
/// of a part begin alike.
const ROUND: u32 = 97;

/// With a few bytes after each part's own, which are ignored. Of months and of
/// models they are different numbers of bytes.
pub fn plain_year() -> Parts {
    from_fn(|k| {
        let number = k as u8 + 1;
        let mut part = match k < MONTHS {
            true => month(k),
            false => daw(k),
        };
        part.extend(vec![number; 5 * k % MONTHS]);
        part
    })
}

/// The part's number, counted from 1, with a fraction.
fn numbers(part: usize) -> impl Iterator<Item = u32> {
    let number = move |n: u32| (part + 1) as f32 + (n % ROUND) as f32 / 128.0;
    (0..).map(move |n| number(n).to_bits())
}

fn month(part: usize) -> Vec<u8> {
    let ladders = [USUAL, LONG, SHORT];
    let mut numbers = numbers(part);
    to_bytes(&from_fn(|table| match table {
        0 => words(&ladders[part % ladders.len()]),
        _ => numbers.by_ref().take(LENGTHS[table]).collect(),
    }))
}

fn daw(part: usize) -> Vec<u8> {
    let mut bytes = Vec::new();
    let count = MONTHS * F2_RECORD_BYTES / 4;
    push_words(&mut bytes, &numbers(part).take(count).collect::<Vec<_>>());
    bytes
}

#[cfg(test)]
mod tests {
    use super::plain_year;
    use crate::draw::year_files::{packed, NO_GAPS};
    use crate::model::desks::programs::LONGEST_YEAR;
    use crate::model::desks::survey::survey_text;
    use crate::model::year::{places, MONTHS};
    use crate::month_file::BYTES;
    use std::collections::HashSet;

    #[test]
    fn no_two_parts_or_records_are_alike() {
        let parts = plain_year();
        let (months, daws) = parts.split_at(MONTHS);
        for (alike, least) in [(months, BYTES), (daws, MONTHS * 7904)] {
            let lengths: HashSet<usize> = alike.iter().map(Vec::len).collect();
            assert_eq!(lengths.len(), alike.len());
            assert!(lengths.iter().all(|n| (least..least + 12).contains(n)));
        }
        // Nor up to where the shorter of two ends.
        let starts: HashSet<&[u8]> = parts.iter().map(|part| &part[..BYTES]).collect();
        assert_eq!(starts.len(), parts.len());
        let records = daws.iter().flat_map(|daw| daw.chunks_exact(7904));
        assert_eq!(records.collect::<HashSet<_>>().len(), 24);
    }

    #[test]
    fn all_of_a_plain_year_can_be_shown() {
        let parts = plain_year();
        let year = packed(&parts, &NO_GAPS);
        assert!(year.len() <= LONGEST_YEAR);
        let places = places(&year).expect("a good directory");
        for (part, place) in parts.iter().zip(places) {
            assert!(year[place] == part[..]);
        }
        let shown = survey_text(&year).matches(": can be shown\n").count();
        assert_eq!(shown, 24);
    }
}
