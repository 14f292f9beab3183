//! Data files from a seed: plausible ones and wild ones, these with finite words
//! only or with any. Each pair is an F2 file and a month file whose index table
//! passes.

mod calm;
pub mod ladders;
pub mod sizes;
mod wild;

use crate::draw::generator::Generator;
use crate::model::index_check::IndexTable;
use crate::month_file::{push_words, tables, to_bytes, words, Tables};
use ladders::{AT_ONCE, BEYOND, LEAST, LONG, LONGEST, SHORT, USUAL};
use wild::{bad_word, finite_word, roughen, wild_word};

pub const YEAR: usize = 12;

#[derive(Clone)]
pub struct Pair {
    /// The F2 records, as a `.daw` file holds them.
    pub daw: Vec<u8>,
    pub month: Vec<u8>,
}

/// Places among the 20 tables.
const XFM3CF: usize = 6;
const BNEW: usize = 10;
const BCHI: usize = 12;
const FAKMAP: usize = 13;
const ABMAP: usize = 14;
const XESMCF: usize = 15;
const XPMAP: usize = 16;
const XESLCF: usize = 17;
const XESUCF: usize = 18;
const XERCOF: usize = 19;

/// The pair's words before they become bytes.
struct Parts {
    records: Vec<Vec<u32>>,
    tables: Tables,
}

impl Parts {
    fn pair(&self) -> Pair {
        let mut daw = Vec::new();
        for record in &self.records {
            push_words(&mut daw, record);
        }
        let month = to_bytes(&self.tables);
        Pair { daw, month }
    }
}

fn calm_parts(random: &mut Generator, ikim: &IndexTable, months: usize) -> Parts {
    let tables = tables(&calm::month(random, ikim));
    let records = (0..months).map(|_| words(&calm::f2_planes(random, ikim)));
    Parts {
        records: records.collect(),
        tables,
    }
}

/// Numbers of plausible size.
pub fn calm(random: &mut Generator, ikim: &IndexTable, months: usize) -> Pair {
    calm_parts(random, ikim, months).pair()
}

/// Any bits in one word in `one_in`, the index table left alone. Nearly every such
/// pair is refused for a word that is no finite number.
pub fn wild(random: &mut Generator, ikim: &IndexTable, months: usize, one_in: u64) -> Pair {
    rough_parts(random, ikim, months, one_in, wild_word).pair()
}

/// Any finite number in one word in `one_in`.
pub fn huge(random: &mut Generator, ikim: &IndexTable, months: usize, one_in: u64) -> Pair {
    huge_parts(random, ikim, months, one_in).pair()
}

fn huge_parts(random: &mut Generator, ikim: &IndexTable, months: usize, one_in: u64) -> Parts {
    rough_parts(random, ikim, months, one_in, finite_word)
}

fn rough_parts(
    random: &mut Generator,
    ikim: &IndexTable,
    months: usize,
    one_in: u64,
    draw: wild::Draw,
) -> Parts {
    let mut parts = calm_parts(random, ikim, months);
    for words in parts.records.iter_mut().chain(&mut parts.tables[1..]) {
        roughen(random, words, one_in, draw);
    }
    parts
}

/// For what compares in bulk: calm, wild in one word of up to 4096, and of these a
/// quarter with what is no finite number.
pub fn any(random: &mut Generator, ikim: &IndexTable, months: usize) -> Pair {
    let one_in = 1 << random.below(13);
    match random.below(6) {
        0 | 1 => calm(random, ikim, months),
        2..=4 => huge(random, ikim, months, one_in),
        _ => bad(random, ikim, months, one_in),
    }
}

/// With one word that is no finite number in a record or in the month file, with some
/// in the month file alone, since a record's comes before them, or with some anywhere.
fn bad(random: &mut Generator, ikim: &IndexTable, months: usize, one_in: u64) -> Pair {
    let mut parts = huge_parts(random, ikim, months, one_in);
    match random.below(4) {
        0 => prick(random, &mut parts.records),
        1 => prick(random, &mut parts.tables[1..]),
        2 => {
            for words in &mut parts.tables[1..] {
                roughen(random, words, one_in, wild_word);
            }
        }
        _ => return wild(random, ikim, months, one_in),
    }
    parts.pair()
}

/// One word of all these becomes one that is no finite number.
fn prick(random: &mut Generator, tables: &mut [Vec<u32>]) {
    let count: usize = tables.iter().map(Vec::len).sum();
    let at = random.below(count as u64) as usize;
    let word = tables.iter_mut().flatten().nth(at);
    *word.expect("a word") = bad_word(random);
}

/// Of the huge ones the first has hardly a figure that is a number; the third has
/// only a few such words.
pub fn named() -> [(&'static str, Pair); 6] {
    let calm = |seed, ikim| calm(&mut Generator::new(seed), ikim, YEAR);
    let huge = |seed, one_in| {
        let mut random = Generator::new(seed);
        let ikim = ladders::good(&mut random);
        huge(&mut random, &ikim, YEAR, one_in)
    };
    [
        ("calm-1", calm(101, &USUAL)),
        ("calm-2", calm(102, &LONG)),
        ("calm-3", calm(103, &SHORT)),
        ("huge-1", huge(201, 1)),
        ("huge-2", huge(202, 8)),
        ("huge-3", huge(203, 500)),
    ]
}

/// Every word of any sort, NaN and infinite ones too: no sheet can be made of it.
pub fn wild_1() -> Pair {
    let mut random = Generator::new(201);
    let ikim = ladders::good(&mut random);
    wild(&mut random, &ikim, YEAR, 1)
}

/// Pairs of one month whose ladders are as short and as long as they can be,
/// and whose words reach what others do not.
pub fn extreme() -> [(&'static str, Pair); 6] {
    let parts = |seed, ikim| calm_parts(&mut Generator::new(seed), ikim, 1);
    [
        ("at once", high_f2(parts(301, &AT_ONCE)).pair()),
        ("longest", parts(302, &LONGEST).pair()),
        ("beyond", infinite_beyond(parts(303, &BEYOND)).pair()),
        ("least", no_ground(parts(304, &LEAST)).pair()),
        ("pricked-1", no_numbers(parts(305, &USUAL)).pair()),
        ("pricked-2", infinities(parts(306, &LONG)).pair()),
    ]
}

/// M(3000) is about -12 million, which takes all 16 characters of a page.
pub fn far_below_zero() -> Pair {
    let mut parts = calm_parts(&mut Generator::new(307), &USUAL, 1);
    set_m3000(&mut parts, -1.2e7);
    parts.pair()
}

/// Each coefficient of the six maps is its own place among the 2,604, in both
/// planes alike, and so it is when they are blended at a whole sunspot number.
pub fn counting(ikim: &IndexTable) -> Pair {
    let Parts {
        mut records,
        mut tables,
    } = calm_parts(&mut Generator::new(308), ikim, 1);
    let mut next = 0;
    for table in [XESLCF, XESMCF, XESUCF] {
        next = count_on(&mut tables[table], next);
    }
    next = count_on(&mut records[0], next);
    for table in [XFM3CF, XERCOF] {
        next = count_on(&mut tables[table], next);
    }
    Parts { records, tables }.pair()
}

/// The places from `first` on in each of two planes; the next place.
fn count_on(words: &mut [u32], first: usize) -> usize {
    let width = words.len() / 2;
    for plane in words.chunks_mut(width) {
        for (word, place) in plane.iter_mut().zip(first..) {
            *word = (place as f32).to_bits();
        }
    }
    first + width
}

/// A thin F2 at about 570 km: a height ratio of 30 and M(3000) of 2.
fn high_f2(mut parts: Parts) -> Parts {
    parts.tables[ABMAP][2] = 30f32.to_bits();
    set_m3000(&mut parts, 2.0);
    parts
}

/// The first word of both planes.
fn set_m3000(parts: &mut Parts, v: f32) {
    for plane in parts.tables[XFM3CF].chunks_mut(9 * 49) {
        plane[0] = v.to_bits();
    }
}

/// Row 40 of a map whose ladder ends at 16: what is read there meets a zero, and
/// between the ends of the weights it is infinite.
fn infinite_beyond(mut parts: Parts) -> Parts {
    set_planes(&mut parts.tables[XESMCF], 7 * 40, [f32::MAX; 2]);
    parts
}

/// The word of this place in both planes. Two of the largest blend to an infinity
/// between the ends of the weights and to a NaN outside, one of them with the other
/// sign to a NaN between the ends.
fn set_planes(table: &mut [u32], place: usize, words: [f32; 2]) {
    let width = table.len() / 2;
    for (plane, word) in table.chunks_mut(width).zip(words) {
        plane[place] = word.to_bits();
    }
}

/// The land-mass map is 0 everywhere, which is land.
fn no_ground(mut parts: Parts) -> Parts {
    parts.tables[FAKMAP].fill(0);
    parts.tables[ABMAP][..2].fill(0);
    parts
}

/// F1, the ground and the height ratio come out as NaN at most places and sunspot
/// numbers, where one infinity is taken from another; the other figures do not.
fn no_numbers(mut parts: Parts) -> Parts {
    let largest = [f32::MAX, -f32::MAX];
    parts.tables[BNEW][..2].copy_from_slice(&largest.map(f32::to_bits));
    // The first longitude series is infinite, and what is added to the map is so
    // with the other sign.
    for series in [0, 15] {
        parts.tables[FAKMAP][29 * series] = f32::MAX.to_bits();
    }
    parts.tables[ABMAP][1] = (-f32::MAX).to_bits();
    set_planes(&mut parts.tables[XPMAP], 29 * 15, largest);
    parts
}

/// The largest zenith angle and M(3000) come out as infinite at most sunspot
/// numbers.
fn infinities(mut parts: Parts) -> Parts {
    parts.tables[BCHI][0] = f32::MAX.to_bits();
    set_planes(&mut parts.tables[XFM3CF], 0, [f32::MAX; 2]);
    parts
}

#[cfg(test)]
mod tests {
    use super::{any, extreme, named, wild_1, USUAL};
    use crate::draw::generator::Generator;
    use crate::reference::sheets::{file_check, files_check};

    #[test]
    fn pairs_with_names_can_be_shown_but_for_the_wild_one() {
        for (name, pair) in named().iter().chain(&extreme()) {
            let records = pair.daw.chunks(7904);
            for record in records {
                assert_eq!(files_check(record, &pair.month), Ok(()), "{name}");
            }
        }
        let wild = wild_1();
        assert!(files_check(&wild.daw, &wild.month).is_err_and(|why| why.of_record));
        assert!(file_check(&wild.month).is_err_and(|why| why.number == 23));
    }

    /// Most pairs are finite, and both files of the others are named.
    #[test]
    fn pairs_of_all_kinds_come() {
        let mut random = Generator::new(5);
        let [mut shown, mut of_record, mut of_month] = [0; 3];
        for _ in 0..600 {
            let pair = any(&mut random, &USUAL, 1);
            match files_check(&pair.daw, &pair.month) {
                Ok(()) => shown += 1,
                Err(why) if why.of_record => of_record += 1,
                Err(_) => of_month += 1,
            }
        }
        assert!((450..570).contains(&shown), "{shown} shown");
        assert!(
            of_record >= 25 && of_month >= 25,
            "{of_record} and {of_month}"
        );
    }
}
