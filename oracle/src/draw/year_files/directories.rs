//! Damages of a year file's directory: each rule of each pair kept and broken by
//! one, sums that a word does not hold, and files that are cut.

use super::FILLER;
use crate::draw::generator::Generator;
use crate::model::year::{DIRECTORY, PARTS};
use std::array::from_fn;

/// Offset and length of each part, and the file's length.
struct Directory {
    pairs: [[u32; 2]; PARTS],
    file: usize,
}

impl Directory {
    fn of(file: &[u8]) -> Self {
        let word = |at: usize| u32::from_le_bytes(file[at..at + 4].try_into().expect("four bytes"));
        Self {
            pairs: from_fn(|k| [word(8 * k), word(8 * k + 4)]),
            file: file.len(),
        }
    }

    /// The file with this directory and of this length. What of the directory is
    /// cut off is not written.
    fn put_into(&self, file: &[u8]) -> Vec<u8> {
        let directory = self.pairs.as_flattened().iter();
        let directory: Vec<u8> = directory.flat_map(|word| word.to_le_bytes()).collect();
        let mut bytes = [&directory[..], &file[DIRECTORY..]].concat();
        bytes.resize(self.file, FILLER);
        bytes
    }

    fn end(&self, k: usize) -> u32 {
        let [offset, length] = self.pairs[k];
        offset.wrapping_add(length)
    }

    /// Where a part may start at the earliest.
    fn earliest(&self, k: usize) -> u32 {
        match k {
            0 => DIRECTORY as u32,
            _ => self.end(k - 1),
        }
    }

    /// Where a part may end at the latest.
    fn latest(&self, k: usize) -> u32 {
        match self.pairs.get(k + 1) {
            Some([offset, _]) => *offset,
            None => self.file as u32,
        }
    }

    /// The length with which a part ends there, beyond a word's end if need be.
    fn reach(&mut self, k: usize, end: u32) {
        let [offset, length] = &mut self.pairs[k];
        *length = end.wrapping_sub(*offset);
    }
}

/// What is done to a good directory at a pair, counted from 0.
type Kind = (&'static str, fn(&mut Generator, &mut Directory, usize));

/// Some of them leave the directory good.
const DAMAGES: [Kind; 23] = [
    ("nothing", |_, _, _| {}),
    ("offset at the earliest", |_, d, k| {
        d.pairs[k][0] = d.earliest(k);
    }),
    ("offset one short of it", |_, d, k| {
        d.pairs[k][0] = d.earliest(k).wrapping_sub(1);
    }),
    ("offset anywhere before", |random, d, k| {
        d.pairs[k][0] = random.below(d.earliest(k).into()) as u32;
    }),
    ("offset one further", |_, d, k| {
        d.pairs[k][0] = d.pairs[k][0].wrapping_add(1);
    }),
    ("end at the latest", |_, d, k| d.reach(k, d.latest(k))),
    ("end one beyond it", |_, d, k| {
        d.reach(k, d.latest(k).wrapping_add(1));
    }),
    ("end beyond the file", |random, d, k| {
        let beyond = 1 + random.below(300) as u32;
        d.reach(k, d.file as u32 + beyond);
    }),
    ("empty, at the earliest", |_, d, k| {
        d.pairs[k] = [d.earliest(k), 0];
    }),
    ("empty, one short of it", |_, d, k| {
        d.pairs[k] = [d.earliest(k).wrapping_sub(1), 0];
    }),
    ("offset near 2^32", |random, d, k| {
        d.pairs[k][0] = near_the_end(random);
    }),
    ("length near 2^32", |random, d, k| {
        d.pairs[k][1] = near_the_end(random);
    }),
    ("both near 2^32", |random, d, k| {
        d.pairs[k] = [near_the_end(random), near_the_end(random)];
    }),
    // As a word the end is 0 or a little more, which a next part is after.
    ("sum just beyond 2^32", |random, d, k| {
        let end = random.below(d.earliest(k).into()) as u32;
        d.reach(k, end);
    }),
    ("sum of exactly 2^32", |_, d, k| d.reach(k, 0)),
    ("empty at the highest offset", |_, d, k| {
        d.pairs[k] = [u32::MAX, 0];
    }),
    ("the next pair too", |_, d, k| {
        let other = (k + 1) % PARTS;
        d.pairs[other] = d.pairs[k];
    }),
    ("exchanged with the next", |_, d, k| {
        d.pairs.swap(k, (k + 1) % PARTS);
    }),
    // Each is after the one before, and only the last breaks a rule.
    ("all from here beyond the file", |_, d, k| {
        for [offset, _] in &mut d.pairs[k..] {
            *offset = offset.wrapping_add(d.file as u32);
        }
    }),
    ("any two words", |random, d, k| {
        d.pairs[k] = [random.any_word(), random.any_word()];
    }),
    ("file cut at the last end", |_, d, _| {
        d.file = d.file.min(d.end(PARTS - 1) as usize);
    }),
    ("file cut one short of it", |_, d, _| {
        d.file = d.file.min(d.end(PARTS - 1) as usize).saturating_sub(1);
    }),
    ("file cut in the directory", |random, d, k| {
        d.file = 8 * k + random.below(8) as usize;
    }),
];

fn near_the_end(random: &mut Generator) -> u32 {
    u32::MAX - random.below(300) as u32
}

/// A file with a whole directory, and a damage by its number done to it at a pair.
fn damaged(random: &mut Generator, file: &[u8], kind: usize, pair: usize) -> Vec<u8> {
    let mut directory = Directory::of(file);
    let (_, damage) = DAMAGES[kind];
    damage(random, &mut directory, pair);
    directory.put_into(file)
}

/// A damage of any kind at any pair; now and then another one on top.
pub fn damaged_somewhere(random: &mut Generator, file: &[u8]) -> Vec<u8> {
    let kind = random.below(DAMAGES.len() as u64) as usize;
    let pair = random.below(PARTS as u64) as usize;
    let file = damaged(random, file, kind, pair);
    match random.below(8) {
        0 if file.len() >= DIRECTORY => damaged_somewhere(random, &file),
        _ => file,
    }
}

/// Bytes that nobody packed, of up to three directories.
#[cfg(any(linked, test))]
pub fn any_bytes(random: &mut Generator) -> Vec<u8> {
    let length = random.below(3 * DIRECTORY as u64 + 1);
    (0..length).map(|_| random.next() as u8).collect()
}

#[cfg(test)]
mod tests {
    use super::{damaged, DAMAGES};
    use crate::draw::generator::Generator;
    use crate::draw::year_files::small_year;
    use crate::model::year::{places, PARTS};

    /// The pair that each damage at each pair must be refused by, if it can be
    /// told without looking: 0 for none.
    fn wanted(name: &str, pair: u32) -> Option<u32> {
        let next = (pair + 1).min(14);
        match name {
            "nothing" | "offset at the earliest" | "end at the latest" => Some(0),
            "empty, at the earliest" | "file cut at the last end" => Some(0),
            "offset one short of it" | "offset anywhere before" => Some(pair),
            "empty, one short of it" | "file cut in the directory" => Some(pair),
            "end one beyond it" | "end beyond the file" => Some(next),
            "offset near 2^32" | "both near 2^32" | "empty at the highest offset" => Some(next),
            "length near 2^32" => Some(next),
            "sum just beyond 2^32" | "sum of exactly 2^32" => Some(next),
            "file cut one short of it" | "all from here beyond the file" => Some(14),
            _ => None,
        }
    }

    #[test]
    fn damages_are_what_they_shall_be() {
        let mut random = Generator::new(1);
        let mut named = [0; PARTS + 1];
        for case in 0..40_000 {
            let file = small_year(&mut random);
            let (kind, pair) = (case % DAMAGES.len(), case / DAMAGES.len() % PARTS);
            let spoiled = damaged(&mut random, &file, kind, pair);
            let place = places(&spoiled).err().map_or(0, |refusal| refusal.place);
            named[place as usize] += 1;
            let (name, _) = DAMAGES[kind];
            if let Some(wanted) = wanted(name, pair as u32 + 1) {
                assert_eq!(place, wanted, "{name} at pair {}", pair + 1);
            }
        }
        assert!(named.iter().all(|count| *count >= 400), "{named:?}");
    }
}
