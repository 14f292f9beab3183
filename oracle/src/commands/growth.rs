//! Index tables that pass and ask for more and more of the maps.

use crate::draw::data_files::ladders::USUAL;
use crate::draw::data_files::Pair;
use crate::model::index_check::{IndexTable, HARMONICS, ROWS};
use crate::month_file::{push_words, words};
use std::array::from_fn;

/// From the least of terms or harmonics to the most.
const STEPS: i32 = 4;

/// More and more terms with every harmonic, then more and more harmonics with
/// every term; the last is the usual table.
pub fn tables() -> Vec<IndexTable> {
    let terms = (0..STEPS).map(|terms| table(terms, STEPS));
    let harmonics = (0..=STEPS).map(|harmonics| table(STEPS, harmonics));
    terms.chain(harmonics).collect()
}

/// So many of the steps.
fn table(terms: i32, harmonics: i32) -> IndexTable {
    from_fn(|map| {
        let last = (ROWS[map] - 1) * terms / STEPS;
        let mut words = climbing_to(last, &USUAL[map]);
        words[8] = last;
        words[9] = HARMONICS[map] * harmonics / STEPS;
        words
    })
}

/// The usual ladder, cut where it passes the last term. It must have a first
/// step, and all others are even.
fn climbing_to(last: i32, usual: &[i32; 10]) -> [i32; 10] {
    let highest = last.max(1);
    let first = usual[0].min(highest);
    usual.map(|word| {
        let word = word.min(highest);
        word - (word - first) % 2
    })
}

/// Terms and harmonics of the six maps.
pub fn sums(table: &IndexTable) -> (i32, i32) {
    let terms = table.iter().map(|words| words[8] + 1);
    (terms.sum(), table.iter().map(|words| words[9]).sum())
}

/// The pair with this table in the first record of its month file.
pub fn with_table(mut pair: Pair, table: &IndexTable) -> Pair {
    let mut bytes = Vec::new();
    push_words(&mut bytes, &words(table));
    pair.month[4..244].copy_from_slice(&bytes);
    pair
}

#[cfg(test)]
mod tests {
    use super::{sums, tables, with_table};
    use crate::draw::data_files::ladders::USUAL;
    use crate::draw::data_files::named;
    use crate::model::index_check::answer;
    use crate::reference::voacap::coefficients::parse_month_file;

    #[test]
    fn tables_pass_and_grow() {
        let tables = tables();
        assert!(tables.iter().all(|table| answer(table) == (0, 0)));
        assert_eq!(tables.last(), Some(&USUAL));
        let mut all: Vec<(i32, i32)> = tables.iter().map(sums).collect();
        assert_eq!(all[0], (6, 21));
        assert_eq!(all[all.len() - 1], (318, 21));
        all.dedup();
        assert_eq!(all.len(), tables.len());
    }

    #[test]
    fn the_rust_reads_the_table() {
        for table in tables() {
            let [(_, pair), ..] = named();
            let pair = with_table(pair, &table);
            let raw = parse_month_file(&pair.month, "month").expect("a good file");
            assert_eq!(raw.ikim, table);
        }
    }
}
