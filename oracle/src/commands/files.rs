//! `files DIR`: the vectors of the file functions. Rows of little-endian
//! u32, next to the files that they are about.

mod indexes;
mod records;
mod tables;
mod walks;

use super::write;
use crate::bits::Answer;
use crate::draw::data_files::{named, wild_1, Pair};
use crate::month_file::push_words;
use crate::reference::files::{blends, put, table_words};
use crate::reference::voacap::coefficients::F2_RECORD_BYTES;
use std::collections::HashSet;
use std::hash::Hash;

/// The month whose record is read; the second, so that its start is not 0.
const MONTH: u32 = 2;

const SUNSPOTS: [f32; 15] = [
    0.0, 10.0, 25.0, 70.0, 100.0, 125.0, 150.0, 300.0, 0.5, 33.3, 99.99, 149.5, 250.25, -0.0,
    1.0e-40,
];

pub fn run(folder: &str) -> Result<(), String> {
    let mut total = 0;
    for (name, bytes) in all() {
        total += bytes.len();
        write(folder, name, &bytes)?;
    }
    println!("{total} bytes in all");
    Ok(())
}

fn all() -> Vec<(&'static str, Vec<u8>)> {
    let [(_, calm), _, _, (_, huge), ..] = named();
    let [calm, wild, huge] = [calm, wild_1(), huge].map(shortened);
    vec![
        ("words.bin", words([&calm, &wild, &huge])),
        // No blend is made of words that are no finite numbers.
        ("blends.bin", all_blends([&calm, &huge])),
        ("walks.bin", walks::rows(&calm.month)),
        ("records.bin", records::rows(&calm)),
        ("indexes.bin", indexes::rows()),
        ("tables.bin", [&calm, &wild].map(tables::rows).concat()),
        ("calm.daw", calm.daw),
        ("calm.month", calm.month),
        ("wild.daw", wild.daw),
        ("wild.month", wild.month),
        ("huge.daw", huge.daw),
        ("huge.month", huge.month),
    ]
}

/// The record that the vectors are about and the month file of `calm.month`.
pub fn calm() -> [Vec<u8>; 2] {
    let [(_, calm), ..] = named();
    let Pair { daw, month } = shortened(calm);
    [daw[daw.len() - F2_RECORD_BYTES..].to_vec(), month]
}

/// Two months are enough to be kept.
fn shortened(mut pair: Pair) -> Pair {
    pair.daw.truncate(MONTH as usize * F2_RECORD_BYTES);
    pair
}

fn words(pairs: [&Pair; 3]) -> Vec<u8> {
    let mut bytes = Vec::new();
    for pair in pairs {
        push_words(&mut bytes, &table_words(&pair.daw, MONTH, &pair.month));
    }
    bytes
}

fn all_blends(pairs: [&Pair; 2]) -> Vec<u8> {
    let mut bytes = Vec::new();
    for pair in pairs {
        put(&pair.daw, &pair.month, MONTH);
        for ssn in SUNSPOTS {
            let (cofion, hmym) = blends(MONTH, ssn);
            push_words(&mut bytes, &[ssn.to_bits()]);
            push_words(&mut bytes, &answers(&cofion));
            push_words(&mut bytes, &answers(&hmym));
        }
    }
    bytes
}

/// Every NaN as one word.
fn answers(values: &[f32]) -> Vec<u32> {
    values.iter().map(|v| v.to_word() as u32).collect()
}

/// Each case once, where it first comes.
fn distinct<T: Copy + Eq + Hash>(mut cases: Vec<T>) -> Vec<T> {
    let mut seen = HashSet::new();
    cases.retain(|case| seen.insert(*case));
    cases
}

#[cfg(test)]
mod tests {
    use super::{all, all_blends, named, shortened, wild_1, MONTH};
    use crate::reference::files::table_words;

    #[test]
    fn vectors_are_small_and_the_same_each_time() {
        let first = all();
        let total: usize = first.iter().map(|(_, bytes)| bytes.len()).sum();
        assert!(total < 1_700_000, "{total} bytes");
        assert!(first == all());
    }

    /// The wild pair has words that are no finite numbers, the huge one only such
    /// as blend to infinities and NaNs.
    #[test]
    fn huge_words_are_finite_and_their_blends_are_not() {
        let [_, _, _, (_, huge), ..] = named();
        let [huge, wild] = [huge, wild_1()].map(shortened);
        let count = |words: &[u32], is_such: fn(f32) -> bool| {
            let numbers = words.iter().map(|word| f32::from_bits(*word));
            numbers.filter(|v| is_such(*v)).count()
        };
        let kinds: [fn(f32) -> bool; 3] = [f32::is_nan, f32::is_infinite, f32::is_subnormal];
        let of = |words: &[u32]| kinds.map(|kind| count(words, kind));
        let words = table_words(&wild.daw, MONTH, &wild.month);
        assert!(of(&words).iter().all(|count| *count > 500));
        let words = table_words(&huge.daw, MONTH, &huge.month);
        let [nans, infinities, subnormals] = of(&words);
        assert!([nans, infinities] == [0, 0] && subnormals > 500);
        let blends = all_blends([&huge; 2]);
        let word = |four: &[u8]| u32::from_le_bytes(four.try_into().expect("four bytes"));
        let blends: Vec<u32> = blends.chunks(4).map(word).collect();
        assert!(of(&blends).iter().all(|count| *count > 500));
    }
}
