//! Year files: fourteen parts behind the directory of their pairs, good ones and
//! damaged ones.

pub mod directories;
pub mod plain;

use crate::draw::damage::Damage;
use crate::draw::data_files::ladders::{LONG, SHORT, USUAL};
use crate::draw::data_files::{calm, Pair};
use crate::draw::generator::Generator;
use crate::draw::journal_kinds::files_with;
use crate::model::year::{DIRECTORY, MONTHS, PARTS};
use crate::month_file::push_words;
use crate::reference::voacap::coefficients::F2_RECORD_BYTES;
use directories::damaged_somewhere;
use std::array::from_fn;

/// Twelve month files, then the `.daw` files of CCIR and URSI.
pub type Parts = [Vec<u8>; PARTS];

/// Bytes before each part, and after the last.
pub type Gaps = [usize; PARTS + 1];
pub const NO_GAPS: Gaps = [0; PARTS + 1];
/// What stands in them, and where a month that is not there has a record.
const FILLER: u8 = 0xaa;

/// The year file of these parts.
pub fn packed(parts: &Parts, gaps: &Gaps) -> Vec<u8> {
    let mut directory = Vec::new();
    let mut body = Vec::new();
    for (part, gap) in parts.iter().zip(gaps) {
        body.resize(body.len() + gap, FILLER);
        let offset = DIRECTORY + body.len();
        push_words(&mut directory, &[offset as u32, part.len() as u32]);
        body.extend(part);
    }
    body.resize(body.len() + gaps[PARTS], FILLER);
    [directory, body].concat()
}

/// All months, each with numbers and an index table of its own, and for each
/// model with another record.
pub fn calm_year(random: &mut Generator) -> Parts {
    first_months(random, MONTHS)
}

/// Only so many months, with whose records the `.daw` files end.
pub fn first_months(random: &mut Generator, count: usize) -> Parts {
    let tables = [USUAL, LONG, SHORT];
    let mut parts = parts(&from_fn(|month| {
        (month < count).then(|| calm(random, &tables[month % tables.len()], 2))
    }));
    for daw in &mut parts[MONTHS..] {
        daw.truncate(count * F2_RECORD_BYTES);
    }
    parts
}

/// The parts of some months: of each a month file, and the records of CCIR and
/// URSI. The part of another month is empty.
fn parts(months: &[Option<Pair>; MONTHS]) -> Parts {
    let month = |pair: &Option<Pair>| pair.as_ref().map_or(Vec::new(), |pair| pair.month.clone());
    let record = |pair: &Option<Pair>, model: usize| match pair {
        Some(pair) => pair.daw[model * F2_RECORD_BYTES..][..F2_RECORD_BYTES].to_vec(),
        None => vec![FILLER; F2_RECORD_BYTES],
    };
    from_fn(|part| match part.checked_sub(MONTHS) {
        None => month(&months[part]),
        Some(model) => {
            let records = months.iter().map(|pair| record(pair, model));
            records.collect::<Vec<_>>().concat()
        }
    })
}

/// Months that are calm or wild, some of them damaged or not there; `.daw` files
/// of which some are too short; of one year in three the directory is damaged.
pub fn any_year(random: &mut Generator) -> Vec<u8> {
    let all = random.below(4) == 0;
    let mut parts = parts(&from_fn(|_| {
        (all || random.below(4) > 0).then(|| any_month(random))
    }));
    for daw in &mut parts[MONTHS..] {
        let length = daw_length(random);
        daw.truncate(length);
    }
    let file = packed(&parts, &any_gaps(random, 9));
    match random.below(3) {
        0 => damaged_somewhere(random, &file),
        _ => file,
    }
}

/// With two records; the month file of one in eight is damaged.
fn any_month(random: &mut Generator) -> Pair {
    let mut pair = files_with(random, 2);
    if random.below(8) == 0 {
        pair.month = Damage::any(random).done_to(&pair.month);
    }
    pair
}

/// Mostly whole; else it ends anywhere, with a record, or one byte before one
/// does.
fn daw_length(random: &mut Generator) -> usize {
    let records = random.below(MONTHS as u64 + 1) as usize * F2_RECORD_BYTES;
    match random.below(12) {
        0 => random.below(12 * F2_RECORD_BYTES as u64) as usize,
        1 => records,
        2 => records.saturating_sub(1),
        _ => MONTHS * F2_RECORD_BYTES,
    }
}

/// Half of them without a gap, the others with some of fewer than so many bytes.
fn any_gaps(random: &mut Generator, most: u64) -> Gaps {
    match random.below(2) {
        0 => NO_GAPS,
        _ => from_fn(|_| random.below(2 * most).saturating_sub(most) as usize),
    }
}

/// A good year whose parts are a few bytes of anything, or none, for what looks
/// at the directory alone.
#[cfg(any(linked, test))]
pub fn small_year(random: &mut Generator) -> Vec<u8> {
    let parts = from_fn(|_| {
        let length = random.below(28).saturating_sub(8);
        (0..length).map(|_| random.next() as u8).collect()
    });
    packed(&parts, &any_gaps(random, 5))
}

#[cfg(test)]
mod tests {
    use super::{any_year, calm_year, packed, small_year, Gaps, NO_GAPS};
    use crate::draw::generator::Generator;
    use crate::draw::sheet_kinds::inputs;
    use crate::model::desks::fields::{moved_to, CCIR, URSI};
    use crate::model::desks::lent::Lent;
    use crate::model::desks::Refusal;
    use crate::model::year::{places, MONTHS};
    use crate::month_file::BYTES;
    use crate::reference::files::walk;
    use crate::reference::sheets::FIGURES;
    use std::collections::HashSet;

    #[test]
    fn what_is_packed_is_found_again() {
        let mut random = Generator::new(1);
        let parts = calm_year(&mut random);
        let gaps: Gaps = std::array::from_fn(|i| i * 3 % 7);
        for gaps in [NO_GAPS, gaps] {
            let file = packed(&parts, &gaps);
            let places = places(&file).expect("a good directory");
            assert_eq!(places[0].start, 112 + gaps[0]);
            for (part, place) in parts.iter().zip(places) {
                assert!(file[place] == part[..]);
            }
        }
        for _ in 0..1000 {
            assert!(places(&small_year(&mut random)).is_ok());
        }
    }

    #[test]
    fn a_calm_year_has_all_months_and_no_two_alike() {
        let parts = calm_year(&mut Generator::new(2));
        let (months, daws) = parts.split_at(MONTHS);
        assert!(months.iter().all(|month| month.len() == BYTES));
        assert!(months.iter().all(|month| walk(month) == (0, 0)));
        let different: HashSet<&[u8]> = months.iter().map(|month| &month[..]).collect();
        assert_eq!(different.len(), 12);
        let records = daws.iter().flat_map(|daw| daw.chunks(7904));
        assert_eq!(records.collect::<HashSet<_>>().len(), 24);
    }

    /// By a showing of each month and model: figures and every refusal.
    #[test]
    fn years_of_all_kinds_come() {
        let mut random = Generator::new(3);
        let mut numbers = HashSet::new();
        let mut shown = 0;
        for _ in 0..60 {
            let lent = Lent::year(&any_year(&mut random));
            for month in 1..=12 {
                for model in [CCIR, URSI] {
                    let inputs = moved_to(inputs(&mut random), month, model);
                    match lent.figures(&inputs, FIGURES) {
                        Ok(_) => shown += 1,
                        Err(Refusal { number, .. }) => {
                            numbers.insert(number);
                        }
                    }
                }
            }
        }
        assert!(shown > 200, "{shown} shown");
        assert_eq!(numbers, HashSet::from([8, 9, 10, 11, 19, 23]));
    }
}
