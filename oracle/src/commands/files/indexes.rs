//! Index tables with the answer of document 01's check: rows of 60 words,
//! number and place of the refusal.

use super::distinct;
use crate::draw::data_files::ladders::{near_good, LONG, SHORT, USUAL};
use crate::draw::generator::Generator;
use crate::model::index_check::{answer, IndexTable, HARMONICS, ROWS};
use crate::month_file::{push_words, words};

type Map = [i32; 10];

pub fn rows() -> Vec<u8> {
    let mut bytes = Vec::new();
    for table in cases() {
        let (number, place) = answer(&table);
        push_words(&mut bytes, &words(&table));
        push_words(&mut bytes, &[number, place]);
    }
    bytes
}

fn cases() -> Vec<IndexTable> {
    let mut random = Generator::new(400);
    let mut cases = vec![USUAL, LONG, SHORT];
    for map in 0..6 {
        let changed = one_map(map).into_iter();
        cases.extend(changed.map(|words| with_map(USUAL, map, words)));
    }
    cases.extend(two_maps());
    cases.extend((0..2000).map(|_| near_good(&mut random)));
    distinct(cases)
}

fn with_map(mut table: IndexTable, map: usize, words: Map) -> IndexTable {
    table[map] = words;
    table
}

fn with_word(mut words: Map, place: usize, value: i32) -> Map {
    words[place] = value;
    words
}

/// What one map is tried with while the others are good.
fn one_map(map: usize) -> Vec<Map> {
    let mut cases = vec![USUAL[map], LONG[map], SHORT[map]];
    cases.extend(last_rows(map));
    cases.extend(harmonics(map));
    cases.extend(first_words(map));
    for place in 1..=8 {
        cases.extend(steps(map, place));
    }
    for place in 1..=7 {
        cases.extend(early_ends(map, place));
    }
    cases
}

/// Word 8, after a ladder that has ended and as a ladder's ninth word.
fn last_rows(map: usize) -> Vec<Map> {
    let rows = ROWS[map];
    let ended = [rows - 2, rows - 1, rows, 0, -1, 75, 76, i32::MIN, i32::MAX];
    let climbing = [rows - 5, rows - 3, rows - 2, rows - 1, rows, rows + 1];
    let after = ended.map(|value| with_word(USUAL[map], 8, value));
    let ninth = climbing.map(|value| with_word(LONG[map], 8, value));
    after.into_iter().chain(ninth).collect()
}

fn harmonics(map: usize) -> Vec<Map> {
    let most = HARMONICS[map];
    let values = [0, most - 1, most, most + 1, -1, i32::MIN, i32::MAX];
    values.map(|value| with_word(USUAL[map], 9, value)).to_vec()
}

/// Word 0 alone and with one step after it.
fn first_words(map: usize) -> Vec<Map> {
    let last = [ROWS[map] - 1, HARMONICS[map]];
    let start = |a: i32, b: i32, c: i32| [a, b, c, -9, 9, 99, 0, 0, last[0], last[1]];
    let alone = [0, 1, 2, 74, 75, 76, 77, -1, i32::MIN, i32::MAX];
    let stepping = [-2, -1, 0, 1, 72, 73, 74, 75];
    let ends_at_once = alone.map(|word| start(word, word, 1000));
    let ends_later = stepping.map(|word| start(word, word + 2, word + 2));
    ends_at_once.into_iter().chain(ends_later).collect()
}

/// The word at `place` after a ladder that is good so far. The next one is
/// equal to it, so that nothing else decides. From the ends of i32 a
/// difference that wraps would look like a step up.
fn steps(map: usize, place: usize) -> Vec<Map> {
    let last = LONG[map][place - 1];
    let beside = [-4, -2, -1, 1, 2, 3].map(|step| last + step);
    let ends = [74, 75, 76, 77, -last, 0];
    let far = [i32::MIN, i32::MIN + 1, i32::MAX - 1, i32::MAX];
    let values = beside.into_iter().chain(ends).chain(far);
    values.map(|value| ended_at(map, place, value)).collect()
}

fn ended_at(map: usize, place: usize, value: i32) -> Map {
    let words = with_word(LONG[map], place, value);
    if place < 8 {
        with_word(words, place + 1, value)
    } else {
        words
    }
}

/// A word that equals its predecessor at `place`, and anything after it.
fn early_ends(map: usize, place: usize) -> Vec<Map> {
    let fillings = [i32::MIN, i32::MAX, -1, 76];
    let ended = fillings.map(|filling| {
        let mut words = with_word(LONG[map], place, LONG[map][place - 1]);
        words[place + 1..8].fill(filling);
        words
    });
    ended.to_vec()
}

/// The lower of two bad maps decides.
fn two_maps() -> Vec<IndexTable> {
    let bad: [fn(usize) -> Map; 3] = [
        |map| with_word(USUAL[map], 0, 76),
        |map| with_word(USUAL[map], 8, ROWS[map]),
        |map| with_word(USUAL[map], 3, USUAL[map][2] + 1),
    ];
    let mut cases = Vec::new();
    for low in 0..6 {
        for high in low + 1..6 {
            for (first, second) in [(0, 1), (1, 2), (2, 0)] {
                let table = with_map(USUAL, low, bad[first](low));
                cases.push(with_map(table, high, bad[second](high)));
            }
        }
    }
    cases
}

#[cfg(test)]
mod tests {
    use super::cases;
    use crate::draw::data_files::ladders::good;
    use crate::draw::generator::Generator;
    use crate::model::index_check::{answer, IndexTable};
    use crate::reference::voacap::ionosphere::{versy, virtim};
    use std::panic::catch_unwind;

    /// What the check is for: no index of the Rust leaves its array.
    fn runs_in_the_rust(random: &mut Generator, table: &IndexTable) {
        let cof: Vec<f32> = (0..2604)
            .map(|_| random.uniform(-9.0, 9.0) as f32)
            .collect();
        let [gmt, x, clg, gob] = [24.0, 1.5, 6.2, 1.0].map(|high| random.uniform(0.0, high) as f32);
        let ran = catch_unwind(|| {
            let ab = virtim(&cof, table, gmt);
            (1..=6).for_each(|iz| assert!(versy(&ab, table, iz, x, clg, gob).is_finite()));
        });
        assert!(ran.is_ok(), "{table:?}");
    }

    #[test]
    fn tables_that_pass_run_in_the_rust() {
        let mut random = Generator::new(5);
        let mut passing: Vec<_> = cases();
        passing.retain(|table| answer(table) == (0, 0));
        passing.extend((0..5000).map(|_| good(&mut random)));
        for table in &passing {
            runs_in_the_rust(&mut random, table);
        }
        println!("{} tables", passing.len());
    }

    #[test]
    fn every_map_is_refused_and_many_tables_pass() {
        let answers: Vec<_> = cases().iter().map(answer).collect();
        let count = |wanted: (u32, u32)| answers.iter().filter(|a| **a == wanted).count();
        let counts: Vec<usize> = (1..=6).map(|map| count((11, map))).collect();
        println!(
            "{} cases, {} pass, {counts:?} by map",
            answers.len(),
            count((0, 0))
        );
        assert!(count((0, 0)) > 500);
        assert!(counts.iter().all(|count| *count > 50));
    }
}
