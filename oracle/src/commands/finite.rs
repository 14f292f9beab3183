//! `finite FILE`: the vectors of words that are no finite numbers. Rows of 14
//! little-endian u32: how many changes there are, three changes of file, place and
//! bits, number and place by which the record and the month file are refused, and
//! those of the month file alone.

use super::files::calm;
use super::write_file;
use crate::draw::generator::Generator;
use crate::draw::sheet_kinds::one_of;
use crate::model::desks::Refusal;
use crate::month_file::{markers, push_words, tables_at};
use crate::reference::sheets::{file_check, files_check, number_and_place};
use crate::reference::voacap::coefficients::F2_RECORD_BYTES;
use std::collections::{BTreeMap, HashSet};

/// Both infinities, NaNs of both sorts and signs, the least and the largest.
const BAD: [u32; 8] = [
    0x7f80_0000,
    0xff80_0000,
    0x7f80_0001,
    0xff80_0001,
    0x7fc0_0000,
    0xffc0_0000,
    0x7fff_ffff,
    0xffff_ffff,
];
/// The largest numbers, subnormals, a zero with a sign, the smallest normal.
const NEAR_MISSES: [u32; 7] = [
    0x7f7f_ffff,
    0xff7f_ffff,
    0x7f00_0000,
    0x0000_0001,
    0x8000_0001,
    0x8000_0000,
    0x0080_0000,
];
/// Words anywhere in the record, and in the month file's tables.
const ANYWHERE: [usize; 2] = [50, 100];
/// Rows for each sort of changes together.
const TOGETHER: usize = 16;

const RECORD: u32 = 0;
const MONTH: u32 = 1;

/// A word of one of both files and what it becomes.
#[derive(Clone, Copy, PartialEq, Eq, Hash)]
struct Change {
    file: u32,
    place: u32,
    bits: u32,
}

impl Change {
    fn of(file: u32, place: usize, bits: u32) -> Self {
        let place = place as u32;
        Self { file, place, bits }
    }
}

type Changes = Vec<Change>;

/// What the files are refused by, in the order in which it is looked for.
const KINDS: [&str; 5] = [
    "refused by 10",
    "refused by 23, record",
    "refused by 23, month file",
    "refused by 11",
    "accepted",
];

fn kind_of(check: &Result<(), Refusal>) -> &'static str {
    let kind = match check {
        Err(why) if why.number == 10 => 0,
        Err(why) if why.number == 23 && why.of_record => 1,
        Err(why) if why.number == 23 => 2,
        Err(_) => 3,
        Ok(()) => 4,
    };
    KINDS[kind]
}

/// How many rows there are of each kind, by the number of changes.
type Counts = BTreeMap<(usize, &'static str), u64>;

pub fn run(file: &str) -> Result<(), String> {
    let (bytes, counts) = vectors();
    for ((changes, kind), count) in &counts {
        println!("{count:>5} rows  {changes} changes, {kind}");
    }
    println!("{:>5} rows  in all", counts.values().sum::<u64>());
    check(&counts)?;
    write_file(file, &bytes)
}

/// Every kind must come from one change, from two and from three.
fn check(counts: &Counts) -> Result<(), String> {
    for changes in 1..=3 {
        for kind in KINDS {
            if !counts.contains_key(&(changes, kind)) {
                return Err(format!("no {changes} changes are {kind}"));
            }
        }
    }
    Ok(())
}

fn vectors() -> (Vec<u8>, Counts) {
    let good = calm();
    let mut bytes = Vec::new();
    let mut counts = Counts::new();
    for changes in cases() {
        let [record, month] = changed(good.clone(), &changes);
        let both = files_check(&record, &month);
        push_words(&mut bytes, &row(&changes, both, file_check(&month)));
        *counts.entry((changes.len(), kind_of(&both))).or_insert(0) += 1;
    }
    (bytes, counts)
}

fn changed(mut files: [Vec<u8>; 2], changes: &[Change]) -> [Vec<u8>; 2] {
    for Change { file, place, bits } in changes {
        let word = files[*file as usize].iter_mut().skip(*place as usize);
        for (byte, new) in word.zip(bits.to_le_bytes()) {
            *byte = new;
        }
    }
    files
}

fn row(changes: &[Change], both: Result<(), Refusal>, month: Result<(), Refusal>) -> [u32; 14] {
    let mut row = [0; 14];
    row[0] = changes.len() as u32;
    for (part, change) in row[1..10].chunks_mut(3).zip(changes) {
        part.copy_from_slice(&[change.file, change.place, change.bits]);
    }
    for (part, check) in row[10..].chunks_mut(2).zip([both, month]) {
        let (number, place) = number_and_place(check);
        part.copy_from_slice(&[number, place]);
    }
    row
}

/// The files as they are, then one word changed, then several. Each case once.
fn cases() -> Vec<Changes> {
    let mut random = Generator::new(1101);
    let mut cases = vec![Vec::new()];
    let single = ends_of_tables().into_iter().flat_map(|(file, at)| {
        let words = BAD.into_iter().chain(NEAR_MISSES);
        words.map(move |bits| Change::of(file, at, bits))
    });
    cases.extend(single.map(|change| vec![change]));
    for (file, count) in [RECORD, MONTH].into_iter().zip(ANYWHERE) {
        cases.extend((0..count).map(|_| vec![bad(&mut random, file)]));
    }
    cases.extend(index_tables().map(|change| vec![change]));
    cases.extend(markers().into_iter().map(|at| vec![wrong_marker(at)]));
    for kinds in SEVERAL {
        for _ in 0..TOGETHER {
            cases.push(kinds.iter().map(|draw| draw(&mut random)).collect());
        }
    }
    cases.extend(side_by_side());
    let mut seen = HashSet::new();
    cases.retain(|changes| seen.insert(changes.clone()));
    cases
}

/// The first, the second and the last word of each table, and of both planes of a
/// record.
fn ends_of_tables() -> Vec<(u32, usize)> {
    let plane = F2_RECORD_BYTES / 2;
    let planes = [0..plane, plane..F2_RECORD_BYTES].map(|plane| (RECORD, plane));
    let tables = tables_at().into_iter().skip(1).map(|table| (MONTH, table));
    let ends = planes.into_iter().chain(tables).flat_map(|(file, table)| {
        let places = [table.start, table.start + 4, table.end - 4];
        places.map(|at| (file, at))
    });
    let mut seen = HashSet::new();
    ends.filter(|place| seen.insert(*place)).collect()
}

/// Each word of `ikim` as it would be no finite number: a whole number there.
fn index_tables() -> impl Iterator<Item = Change> {
    let [ikim, ..] = tables_at();
    let places = ikim.step_by(4).enumerate();
    places.flat_map(|(i, at)| [0, 3].map(|k| Change::of(MONTH, at, BAD[(i + k) % BAD.len()])))
}

fn wrong_marker(at: usize) -> Change {
    Change::of(MONTH, at, BAD[at / 4 % BAD.len()])
}

/// A word of a file's f32 tables.
fn place(random: &mut Generator, file: u32) -> usize {
    let words: Vec<usize> = match file {
        RECORD => (0..F2_RECORD_BYTES).step_by(4).collect(),
        _ => {
            let tables = tables_at().into_iter().skip(1);
            tables.flat_map(|table| table.step_by(4)).collect()
        }
    };
    one_of(random, &words)
}

fn bad(random: &mut Generator, file: u32) -> Change {
    Change::of(file, place(random, file), one_of(random, &BAD))
}

fn near_miss(random: &mut Generator) -> Change {
    let file = one_of(random, &[RECORD, MONTH]);
    Change::of(file, place(random, file), one_of(random, &NEAR_MISSES))
}

/// Word 9 of one of the six maps is below 0.
fn bad_map(random: &mut Generator) -> Change {
    let map = random.below(6) as usize;
    Change::of(MONTH, 4 + 40 * map + 4 * 9, u32::MAX)
}

fn marker(random: &mut Generator) -> Change {
    wrong_marker(one_of(random, &markers()))
}

fn of_record(random: &mut Generator) -> Change {
    bad(random, RECORD)
}

fn of_month(random: &mut Generator) -> Change {
    bad(random, MONTH)
}

type Draw = fn(&mut Generator) -> Change;

/// What stands together, so that the order shows: a wrong marker before any word, the
/// record before the month file, the lower place first, words before index tables.
const SEVERAL: [&[Draw]; 16] = [
    &[of_record, of_month],
    &[of_month, of_record],
    &[of_record, of_record],
    &[of_month, of_month],
    &[of_record, marker],
    &[of_month, marker],
    &[of_record, bad_map],
    &[of_month, bad_map],
    &[near_miss, bad_map],
    &[near_miss, near_miss],
    &[of_record, of_month, marker],
    &[of_month, of_record, bad_map],
    &[of_month, of_month, of_month],
    &[near_miss, of_month, bad_map],
    &[near_miss, near_miss, bad_map],
    &[near_miss, near_miss, near_miss],
];

/// Bad words that touch across a marker, or a table's end and the next one's start.
fn side_by_side() -> Vec<Changes> {
    let tables = tables_at();
    let pairs = tables[1..]
        .windows(2)
        .map(|two| [two[0].end - 4, two[1].start]);
    let change = |at: usize| Change::of(MONTH, at, BAD[at / 4 % BAD.len()]);
    pairs.map(|places| places.map(change).to_vec()).collect()
}

#[cfg(test)]
mod tests {
    use super::{cases, changed, check, vectors, Change, BAD, MONTH};
    use crate::commands::files::calm;
    use crate::reference::sheets::{files_check, number_and_place};

    #[test]
    fn rows_show_every_kind_and_are_the_same_each_time() {
        let (bytes, counts) = vectors();
        assert_eq!(check(&counts), Ok(()), "{counts:?}");
        let rows = bytes.len() / 56;
        assert!((1000..=1500).contains(&rows), "{rows} rows");
        assert_eq!(rows, cases().len());
        assert!(vectors().0 == bytes);
    }

    /// 23 for one word of a table alone, never for one of the index table, of which
    /// some are accepted.
    #[test]
    fn one_word_is_named_where_it_stands() {
        let good = calm();
        let mut of_index_tables = [0; 2];
        for changes in cases().into_iter().filter(|changes| changes.len() == 1) {
            let [record, month] = changed(good.clone(), &changes);
            let (number, place) = number_and_place(files_check(&record, &month));
            let Change {
                file,
                place: at,
                bits,
            } = changes[0];
            let is_bad = BAD.contains(&bits);
            if file == MONTH && (4..244).contains(&at) {
                assert!(number == 0 || number == 11);
                of_index_tables[usize::from(number == 11)] += 1;
            } else if number != 10 {
                assert_eq!((number, place), if is_bad { (23, at) } else { (0, 0) });
            }
        }
        assert!(
            of_index_tables.iter().all(|count| *count >= 10),
            "{of_index_tables:?}"
        );
    }
}
