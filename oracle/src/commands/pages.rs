//! `pages FILE`: what `sheet page` prints for some sheets. Three pairs of files,
//! then for each sheet the number of its pair, its inputs and the page.

mod by_hand;

use super::write_file;
use crate::draw::data_files::{far_below_zero, named, Pair};
use crate::draw::generator::Generator;
use crate::draw::journal_kinds::bad_inputs;
use crate::draw::sheet_kinds;
use crate::model::desks::fields::{Inputs, SHEET_FIELDS};
use crate::model::desks::lent::Lent;
use crate::model::desks::page::{page_text, printed};
use crate::month_file::push_words;
use crate::reference::sheets::{FIGURES, ROW};
use crate::reference::voacap::coefficients::F2_RECORD_BYTES;

/// At most so much; the file is kept.
const MOST: usize = 400_000;
/// Random sheets of each number of points, on the calm pair and the huge one.
const RANDOM: [usize; 2] = [3, 2];
/// Sheets for each kind that is searched for.
const SEARCHED: usize = 2;
/// The least number of pages with a number of each kind.
const LEAST: usize = 2;
/// Beyond so many sheets a kind is taken to be nowhere.
const FAR: usize = 20_000;

const PAIRS: usize = 3;
const CALM: usize = 0;
const HUGE: usize = 1;
const DEEP: usize = 2;

/// Each with one record. Some words of the second are huge, and what is made of them
/// is infinite or NaN.
fn pairs() -> [Pair; PAIRS] {
    let [(_, calm_1), .., (_, huge_3)] = named();
    [calm_1, huge_3, far_below_zero()].map(|mut pair| {
        pair.daw.truncate(F2_RECORD_BYTES);
        pair
    })
}

/// A kind of numbers on a page.
type Kind = (&'static str, fn(f32) -> bool);

/// From here on a number is printed as a whole one.
const LARGE: f32 = 16_777_216.0;

/// Kinds that are searched for, with the pair on which they are found.
const SEARCHED_FOR: [(usize, Kind); 5] = [
    (CALM, ("large", |v| v.is_finite() && v >= LARGE)),
    (
        HUGE,
        ("large, below zero", |v| v.is_finite() && v <= -LARGE),
    ),
    (
        CALM,
        ("eight digits before the point", |v| {
            (1.0e7..LARGE).contains(&v)
        }),
    ),
    (
        DEEP,
        ("eight digits, below zero", |v| (1.0e7..LARGE).contains(&-v)),
    ),
    (
        CALM,
        ("too small, as a figure", |v| v > 0.0 && rounds_to_zero(v)),
    ),
];

/// Kinds that random figures or fields by hand have.
const AT_HAND: [Kind; 10] = [
    ("nan", f32::is_nan),
    ("infinite", |v| v == f32::INFINITY),
    ("infinite, below zero", |v| v == f32::NEG_INFINITY),
    ("zero", |v| v.to_bits() == 0),
    ("zero with a sign", |v| v.to_bits() == 1 << 31),
    ("too small", |v| v > 0.0 && rounds_to_zero(v)),
    ("too small, below zero", |v| v < 0.0 && rounds_to_zero(v)),
    ("half way, odd before", |v| is_half_way(v, 1)),
    ("half way, even before", |v| is_half_way(v, 0)),
    ("half way, below zero", |v| {
        v < 0.0 && (is_half_way(v, 0) || is_half_way(v, 1))
    }),
];

/// The size in millionths, which an f64 holds.
fn millionths(v: f32) -> f64 {
    (f64::from(v) * 1.0e6).abs()
}

fn rounds_to_zero(v: f32) -> bool {
    millionths(v) < 0.5
}

/// Half way between two numbers of millionths, the lower one odd or even.
fn is_half_way(v: f32, low_bit: u64) -> bool {
    let millionths = millionths(v);
    millionths.fract() == 0.5 && millionths as u64 & 1 == low_bit
}

struct Case {
    pair: usize,
    inputs: Inputs,
}

pub fn run(file: &str) -> Result<(), String> {
    let (bytes, counts) = vectors();
    for (name, count) in &counts {
        println!("{count:>4} pages  {name}");
    }
    check(&counts)?;
    if bytes.len() > MOST {
        return Err(format!("{} bytes are too many", bytes.len()));
    }
    write_file(file, &bytes)
}

/// How many pages show what.
type Counts = Vec<(&'static str, usize)>;

fn check(counts: &Counts) -> Result<(), String> {
    match counts.iter().find(|(_, count)| *count < LEAST) {
        Some((name, _)) => Err(format!("{name} is too rare")),
        None => Ok(()),
    }
}

fn cases(lent: &[Lent; PAIRS]) -> Vec<Case> {
    let mut random = Generator::new(801);
    let calm = |inputs| Case { pair: CALM, inputs };
    let mut cases: Vec<Case> = by_hand::inputs().into_iter().map(calm).collect();
    for (pair, count) in RANDOM.into_iter().enumerate() {
        for points in [1, 3, 5] {
            let wanted = |numbers: &[u32]| of_points(numbers.len()) == points;
            cases.extend(search(&mut random, lent, pair, count, wanted));
        }
    }
    for (pair, (_, is_such)) in SEARCHED_FOR {
        let wanted = |numbers: &[u32]| {
            let mut figures = numbers.iter().skip(FIELDS_PRINTED);
            figures.any(|word| is_such(f32::from_bits(*word)))
        };
        cases.extend(search(&mut random, lent, pair, SEARCHED, wanted));
    }
    for field in [1, 8] {
        cases.push(calm(bad_inputs(&mut random, field)));
    }
    cases
}

/// All fields but month and flag.
const FIELDS_PRINTED: usize = 12;

/// The number of points of a page with so many numbers; those of the path are
/// fewer than those of a point.
fn of_points(numbers: usize) -> usize {
    (numbers - FIELDS_PRINTED) / ROW
}

/// So many random sheets on whose pages the numbers are as wanted.
fn search(
    random: &mut Generator,
    lent: &[Lent; PAIRS],
    pair: usize,
    count: usize,
    wanted: impl Fn(&[u32]) -> bool,
) -> Vec<Case> {
    let drawn = (0..FAR).map(|_| sheet_kinds::inputs(random));
    let found = drawn.filter(|inputs| wanted(&numbers(&lent[pair], inputs)));
    let cases: Vec<Case> = found
        .take(count)
        .map(|inputs| Case { pair, inputs })
        .collect();
    assert_eq!(cases.len(), count, "no such sheets");
    cases
}

/// The bits of each number on a page, fields first.
fn numbers(lent: &Lent, inputs: &Inputs) -> Vec<u32> {
    let shown = lent.figures(inputs, FIGURES).expect("good files");
    printed(inputs, &shown)
}

/// The file's bytes, and what its pages show.
fn vectors() -> (Vec<u8>, Counts) {
    let pairs = pairs();
    let lent = pairs.each_ref();
    let lent = lent.map(|pair| Lent::pair(&pair.daw, &pair.month));
    let cases = cases(&lent);
    let mut bytes = Vec::new();
    push_words(&mut bytes, &[pairs.len() as u32]);
    for pair in &pairs {
        bytes.extend(&pair.daw);
        bytes.extend(&pair.month);
    }
    push_words(&mut bytes, &[cases.len() as u32]);
    let mut pages = Vec::new();
    for Case { pair, inputs } in &cases {
        let mut input = Vec::new();
        push_words(&mut input, &inputs[..SHEET_FIELDS]);
        input.extend(&pairs[*pair].daw);
        input.extend(&pairs[*pair].month);
        let text = page_text(&input);
        push_words(&mut bytes, &[*pair as u32]);
        push_words(&mut bytes, &inputs[..SHEET_FIELDS]);
        push_words(&mut bytes, &[text.len() as u32]);
        bytes.extend(text.as_bytes());
        pages.push(text);
    }
    (bytes, counts(&pages))
}

fn counts(pages: &[String]) -> Counts {
    let with = |wanted: &dyn Fn(&str) -> bool| {
        let pages = pages.iter();
        pages.filter(|page| page.lines().any(wanted)).count()
    };
    let mut counts = vec![
        ("refused", with(&|line| line.starts_with("refused "))),
        ("the long way round", with(&|line| line.starts_with("the "))),
    ];
    for (name, points) in [("one point", 1), ("three points", 3), ("five points", 5)] {
        let lines = |page: &&String| page.lines().filter(|l| l.starts_with("point ")).count();
        let pages = pages.iter().filter(|page| lines(page) == points);
        counts.push((name, pages.count()));
    }
    let searched = SEARCHED_FOR.map(|(_, kind)| kind);
    for (name, is_such) in searched.into_iter().chain(AT_HAND) {
        let holds = |line: &str| bits(line).is_some_and(|word| is_such(f32::from_bits(word)));
        counts.push((name, with(&holds)));
    }
    counts.push(("in all", pages.len()));
    counts
}

/// The bits on a line, before its unit.
fn bits(line: &str) -> Option<u32> {
    let words = line.split_whitespace();
    let eight = words.filter(|word| word.len() == 8);
    eight.flat_map(|word| u32::from_str_radix(word, 16)).next()
}

#[cfg(test)]
mod tests {
    use super::{check, vectors, MOST};

    #[test]
    fn pages_show_everything_and_are_the_same_each_time() {
        let (bytes, counts) = vectors();
        assert_eq!(check(&counts), Ok(()), "{counts:?}");
        assert!(bytes.len() <= MOST, "{} bytes", bytes.len());
        assert!(bytes == vectors().0);
    }
}
