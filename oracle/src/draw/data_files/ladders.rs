//! Index tables that pass document 01's index check, and some that nearly
//! do.

use crate::draw::generator::Generator;
use crate::model::index_check::{IndexTable, HARMONICS, ROWS};
use std::array::from_fn;

/// As in the files that are used: six harmonics of longitude at most, every
/// row and every harmonic of time.
pub const USUAL: IndexTable = [
    [8, 26, 38, 46, 50, 54, 54, 54, 54, 2],
    [10, 30, 44, 52, 58, 60, 60, 60, 60, 3],
    [10, 30, 42, 50, 54, 54, 54, 54, 54, 2],
    [11, 35, 53, 65, 71, 75, 75, 75, 75, 6],
    [6, 22, 34, 42, 46, 48, 48, 48, 48, 4],
    [5, 13, 17, 19, 21, 21, 21, 21, 21, 4],
];

/// All nine words climb, as far as the eighth harmonic of longitude. The
/// last but one is two below the last row.
pub const LONG: IndexTable = [
    [8, 20, 30, 38, 44, 48, 50, 52, 54, 2],
    [8, 22, 34, 42, 48, 52, 56, 58, 60, 2],
    [6, 20, 30, 38, 44, 48, 50, 52, 54, 1],
    [11, 27, 41, 51, 59, 65, 69, 73, 75, 5],
    [4, 14, 24, 32, 38, 42, 44, 46, 48, 3],
    [5, 7, 9, 11, 13, 15, 17, 19, 21, 4],
];

/// Ladders that end early, with anything in the words that are free, and
/// with word 8 above, at or below what the ladder reaches.
pub const SHORT: IndexTable = [
    [54, 54, -1, 200, 0, 77, -300, 1, 54, 0],
    [12, 36, 36, 7, i32::MIN, 3, 0, 99, 40, 1],
    [1, 9, 21, 21, 20, 19, 18, 17, 21, 2],
    [9, 33, 51, 51, 52, i32::MAX, 0, -1, 60, 6],
    [4, 20, 30, 38, 38, 0, 0, 0, 33, 2],
    [3, 9, 13, 13, 0, 0, 0, 0, 17, 4],
];

/// Ladders that end at once: powers of the sine and no longitude. Word 8
/// stands at, below and above the last power.
pub const AT_ONCE: IndexTable = [
    [1, 1, 0, 0, 0, 0, 0, 0, 54, 2],
    [60, 60, 76, -1, 0, i32::MAX, 9, 9, 60, 3],
    [75, 75, 75, 75, 75, 75, 75, 75, 54, 2],
    [75, 75, 1, 2, 3, 4, 5, 6, 75, 6],
    [2, 2, 3, 4, 5, 6, 7, 8, 48, 4],
    [7, 7, 9, 11, 13, 15, 17, 19, 4, 3],
];

/// Eight harmonics of longitude with as few and as many terms to each as
/// there can be, and ladders up to 75.
pub const LONGEST: IndexTable = [
    [38, 40, 42, 44, 46, 48, 50, 52, 54, 2],
    [63, 65, 67, 69, 71, 73, 75, 75, 60, 3],
    [1, 13, 23, 31, 37, 43, 47, 51, 53, 2],
    [59, 61, 63, 65, 67, 69, 71, 73, 75, 6],
    [2, 4, 6, 8, 10, 12, 14, 16, 48, 4],
    [1, 3, 9, 11, 13, 15, 17, 19, 21, 4],
];

/// Word 8 beyond the ladder's end, so that zeros of the basis are read.
pub const BEYOND: IndexTable = [
    [3, 5, 5, 0, 0, 0, 0, 0, 54, 2],
    [6, 16, 16, 17, 0, 0, 0, 0, 60, 3],
    [2, 8, 12, 12, 0, 0, 0, 0, 53, 1],
    [5, 17, 27, 35, 41, 41, 0, 0, 75, 6],
    [4, 10, 10, 10, 0, 0, 0, 0, 48, 4],
    [1, 3, 5, 5, 0, 0, 0, 0, 21, 4],
];

/// One term of each map, without a harmonic of time.
pub const LEAST: IndexTable = [
    [1, 1, 0, 0, 0, 0, 0, 0, 0, 0],
    [8, 26, 38, 46, 50, 54, 54, 54, 0, 0],
    [2, 4, 4, 4, 4, 4, 4, 4, 0, 0],
    [75, 75, 75, 75, 75, 75, 75, 75, 0, 0],
    [1, 75, 75, 75, 75, 75, 75, 75, 0, 0],
    [61, 63, 65, 67, 69, 71, 73, 73, 0, 0],
];

/// The usual table without a harmonic of time, so that a row's series is its
/// first coefficient.
pub fn flat() -> IndexTable {
    USUAL.map(|mut words| {
        words[9] = 0;
        words
    })
}

/// The usual ladders with one term of each map and no harmonic.
#[cfg(any(linked, test))]
pub fn single() -> IndexTable {
    flat().map(|mut words| {
        words[8] = 0;
        words
    })
}

/// A random table that passes.
pub fn good(random: &mut Generator) -> IndexTable {
    from_fn(|map| good_map(random, map))
}

fn good_map(random: &mut Generator, map: usize) -> [i32; 10] {
    let mut words = from_fn(|_| free_word(random));
    words[9] = between(random, 0, HARMONICS[map]);
    if random.below(3) == 0 {
        climb_to_the_end(random, &mut words, ROWS[map] - 1);
    } else {
        words[8] = between(random, 0, ROWS[map] - 1);
        climb_a_part(random, &mut words[..8]);
    }
    words
}

fn between(random: &mut Generator, low: i32, high: i32) -> i32 {
    random.between(low.into(), high.into()) as i32
}

/// Half of them could be words of a ladder.
fn free_word(random: &mut Generator) -> i32 {
    if random.below(2) == 0 {
        between(random, 0, 77)
    } else {
        any(random)
    }
}

fn any(random: &mut Generator) -> i32 {
    random.next() as i32
}

/// Ends at a word below 8 that equals its predecessor. Without room for a
/// step it ends sooner.
fn climb_a_part(random: &mut Generator, words: &mut [i32]) {
    let end = 1 + random.below(7) as usize;
    words[0] = between(random, 1, 75);
    for i in 1..end {
        let room = (75 - words[i - 1]) / 2;
        words[i] = words[i - 1] + 2 * between(random, room.min(1), room.min(12));
    }
    words[end] = words[end - 1];
}

/// Worked out from word 8 down, which leaves room for the words below. Word
/// 8 equals its predecessor in some.
fn climb_to_the_end(random: &mut Generator, words: &mut [i32; 10], highest: i32) {
    words[8] = between(random, 17, highest);
    for i in (0..8).rev() {
        let lowest = 1 + 2 * i as i32;
        let room = (words[i + 1] - lowest) / 2;
        words[i] = words[i + 1] - 2 * between(random, 1, room.min(8));
    }
    if random.below(4) == 0 {
        words[8] = words[7];
    }
}

/// A table that passes but for at most three words, each of which may spoil
/// it or not.
pub fn near_good(random: &mut Generator) -> IndexTable {
    let mut table = good(random);
    for _ in 0..random.below(4) {
        let map = random.below(6) as usize;
        let word = random.below(10) as usize;
        table[map][word] = other_word(random, map, table[map][word]);
    }
    table
}

fn other_word(random: &mut Generator, map: usize, old: i32) -> i32 {
    let ends = [0, 1, 74, 75, 76, 77, -1];
    match random.below(8) {
        0..=2 => old.wrapping_add(between(random, -2, 2)),
        3 => ROWS[map] - 1 + between(random, -1, 1),
        4 => HARMONICS[map] + between(random, -1, 1),
        5 => ends[random.below(7) as usize],
        6 => i32::MIN.wrapping_add(between(random, -2, 1)),
        _ => any(random),
    }
}

#[cfg(test)]
mod tests {
    use super::{flat, good, near_good, single};
    use super::{AT_ONCE, BEYOND, LEAST, LONG, LONGEST, SHORT, USUAL};
    use crate::draw::generator::Generator;
    use crate::model::index_check::answer;

    #[test]
    fn good_tables_pass() {
        let others = [flat(), single()];
        for table in [USUAL, LONG, SHORT, AT_ONCE, LONGEST, BEYOND, LEAST]
            .into_iter()
            .chain(others)
        {
            assert_eq!(answer(&table), (0, 0));
        }
        let mut random = Generator::new(1);
        for _ in 0..20_000 {
            let table = good(&mut random);
            assert_eq!(answer(&table), (0, 0), "{table:?}");
        }
    }

    #[test]
    fn near_good_tables_pass_or_not() {
        let mut random = Generator::new(2);
        let passing = (0..4000)
            .filter(|_| answer(&near_good(&mut random)) == (0, 0))
            .count();
        assert!((1000..3000).contains(&passing), "{passing} of 4000 pass");
    }
}
