//! Words of every sort that a file can hold, and those of every finite sort.

use crate::bits::F32;
use crate::draw::generator::Generator;

/// How a word is drawn.
pub type Draw = fn(&mut Generator) -> u32;

/// Puts a drawn word in the place of one word in `one_in`.
pub fn roughen(random: &mut Generator, words: &mut [u32], one_in: u64, draw: Draw) {
    for word in words {
        if random.below(one_in) == 0 {
            *word = draw(random);
        }
    }
}

pub fn wild_word(random: &mut Generator) -> u32 {
    let exponent = match random.below(10) {
        0 => return nan(random, true),
        1 => return nan(random, false),
        2 => return signed(random, F32.infinity() as u32),
        3 => return signed(random, 0),
        4 => SUBNORMAL,
        5 => HUGEST,
        6 => overflowing(random),
        7 => usual(random),
        _ => return random.next() as u32,
    };
    random.with_exponent(F32, exponent) as u32
}

/// A finite number: what a sheet can be made of.
pub fn finite_word(random: &mut Generator) -> u32 {
    let exponent = match random.below(8) {
        0 => return signed(random, 0),
        1 => return signed(random, f32::MAX.to_bits()),
        2 => SUBNORMAL,
        3 => HUGEST,
        4 => overflowing(random),
        5 => usual(random),
        _ => random.below(HUGEST + 1),
    };
    random.with_exponent(F32, exponent) as u32
}

/// A NaN of either sort or an infinity.
pub fn bad_word(random: &mut Generator) -> u32 {
    match random.below(3) {
        0 => nan(random, true),
        1 => nan(random, false),
        _ => signed(random, F32.infinity() as u32),
    }
}

const SUBNORMAL: u64 = 0;
const HUGEST: u64 = 254;

/// Such that a blend overflows or not.
fn overflowing(random: &mut Generator) -> u64 {
    240 + random.below(14)
}

/// The usual sizes.
fn usual(random: &mut Generator) -> u64 {
    117 + random.below(20)
}

fn signed(random: &mut Generator, word: u32) -> u32 {
    word | (random.below(2) as u32) << 31
}

/// The highest fraction bit tells a quiet NaN from a signalling one, which
/// needs another bit to be no infinity.
fn nan(random: &mut Generator, quiet: bool) -> u32 {
    let highest = 1 << 22;
    let lower = random.below(highest) as u32;
    let fraction = if quiet {
        lower | highest as u32
    } else {
        lower.max(1)
    };
    signed(random, F32.infinity() as u32 | fraction)
}

#[cfg(test)]
mod tests {
    use super::{bad_word, finite_word, wild_word, Draw};
    use crate::draw::generator::Generator;
    use std::collections::HashSet;

    fn sort(word: u32) -> &'static str {
        let v = f32::from_bits(word);
        match (v.is_nan(), word >> 22 & 1) {
            (true, 1) => "quiet NaN",
            (true, _) => "signalling NaN",
            _ if v.is_infinite() => "infinite",
            _ if v == 0.0 => "zero",
            _ if v.is_subnormal() => "subnormal",
            _ if v.abs() > 1.0e38 => "huge",
            _ => "other",
        }
    }

    fn sorts(draw: Draw) -> HashSet<(&'static str, u32)> {
        let mut random = Generator::new(3);
        let words = (0..2000).map(|_| draw(&mut random));
        words.map(|word| (sort(word), word >> 31)).collect()
    }

    #[test]
    fn every_sort_comes_with_both_signs() {
        let (finite, bad) = (sorts(finite_word), sorts(bad_word));
        assert_eq!((finite.len(), bad.len()), (8, 6));
        assert!(finite.is_disjoint(&bad));
        assert_eq!(sorts(wild_word), &finite | &bad);
    }
}
