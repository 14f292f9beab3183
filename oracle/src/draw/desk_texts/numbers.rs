//! Numbers as texts: near a given one, near the middle of two f32, near the end of a
//! range, in many spellings; and what is no number.

use crate::draw::generator::Generator;
use crate::draw::sheet_kinds::one_of;
use crate::model::desks::fields::{range, Range};
use crate::model::desks::text::number::{Decimal, MOST};

/// What looks like a number and is none.
pub const NO_NUMBERS: [&str; 34] = [
    ".",
    "+",
    "-",
    "+.",
    "-.",
    "--1",
    "+-1",
    "1-",
    "1+",
    "1..5",
    "1.5.",
    ".1.",
    "1e1",
    "1e-1",
    "1E1",
    "1,5",
    "0x10",
    "nan",
    "inf",
    "-inf",
    "infinity",
    "1_0",
    "1234567890123456789",
    "12.34567890123456789",
    "100000000000000000.0",
    "0.1234567890123456789",
    "0.0000000000000000000",
    ".0000000000000000001",
    "299.99999999999999999",
    "1/2",
    "(1)",
    "1f",
    "\u{661}",
    "\u{ff11}",
];

/// Numbers that are not whole, or not below 2^32.
pub const NO_WHOLES: [&str; 11] = [
    "-0",
    "-1",
    "1.0",
    "0.0",
    ".0",
    "1.5",
    "4294967296",
    "4294967297",
    "8589934593",
    "18446744073709551617",
    "999999999999999999",
];

const ZEROS: [&str; 8] = [
    "0",
    "-0",
    "+0",
    "-0.",
    "-.0",
    "00",
    "0.000000000000000000",
    "-0.0",
];

/// Zeros and nines more often, which make neighbours of powers of ten.
const DIGITS: [char; 14] = [
    '0', '0', '0', '1', '2', '3', '4', '5', '6', '7', '8', '9', '9', '9',
];

/// A decimal at or near the f32 with these bits. What is no number, or too large
/// for 18 digits, becomes the largest that there is.
pub fn near(random: &mut Generator, word: u32) -> String {
    let v = f32::from_bits(word);
    if v.is_nan() || v.abs() >= 1.0e17 {
        let sign = one_of(random, &["", "-"]);
        return format!("{sign}999999999999999999");
    }
    let text = match random.below(8) {
        0 => format!("{v:.0}"),
        1 => format!("{v:.2}"),
        2 => format!("{v:.6}"),
        3 => with_18_digits(v.into()),
        _ => format!("{v}"),
    };
    let text = match Decimal::read(text.as_bytes()) {
        Some(_) => text,
        None if v.abs() < 1.0 => format!("{v:.18}"),
        None => format!("{v:.0}"),
    };
    dressed(random, &text)
}

/// With as many digits as a number may have.
pub fn with_18_digits(v: f64) -> String {
    let whole = v.abs().trunc();
    let before = match whole {
        0.0 => 0,
        _ => format!("{whole:.0}").len(),
    };
    format!("{v:.*}", MOST - before)
}

/// As close to the middle between an f32 and the next above as 18 digits can be, or
/// one or two of the last away from it.
pub fn near_middle(random: &mut Generator, v: f32) -> String {
    let middle = (f64::from(v) + f64::from(v.next_up())) / 2.0;
    let text = with_18_digits(middle);
    let away = random.between(-2, 2);
    nudged(&text, away)
}

/// The number so many of its last digits further from 0.
fn nudged(text: &str, by: i64) -> String {
    let (sign, size) = match text.strip_prefix('-') {
        Some(size) => ("-", size),
        None => ("", text),
    };
    let (before, after) = size.split_once('.').unwrap_or((size, ""));
    let digits: i64 = format!("{before}{after}").parse().expect("18 digits");
    let digits = format!("{:0>1$}", (digits + by).max(0), after.len() + 1);
    let (before, after) = digits.split_at(digits.len() - after.len());
    let point = if after.is_empty() { "" } else { "." };
    format!("{sign}{before}{point}{after}")
}

/// At an end of a field's range, or a little inside or outside.
pub fn near_an_end(random: &mut Generator, field: usize) -> String {
    let Range::Number(low, high) = range(field) else {
        panic!("field {field} is a whole number");
    };
    let end = one_of(random, &[low, high]);
    let below = match end {
        0.0 => -f32::MIN_POSITIVE,
        _ => end.next_down(),
    };
    // The lower of the end and the next one outside, and of the end and the next one
    // inside.
    let (outside, inside) = match end == high {
        true => (end, below),
        false => (below, end),
    };
    let text = match random.below(10) {
        0 => format!("{end}"),
        1 => one_of(random, &["-0", "-0.0", "0", "-.0", "300.0000001"]).into(),
        2 => {
            let away = random.between(-3, 3);
            nudged(&with_18_digits(end.into()), away)
        }
        3 => with_18_digits(below.into()),
        4 => with_18_digits(end.next_up().into()),
        5 => near_middle(random, inside),
        _ => near_middle(random, outside),
    };
    dressed(random, &text)
}

/// Another spelling of the same number, or the same.
pub fn dressed(random: &mut Generator, text: &str) -> String {
    if random.below(3) > 0 {
        return String::from(text);
    }
    let (sign, size) = match text.strip_prefix('-') {
        Some(size) => ("-", size),
        None => (one_of(random, &["", "", "+"]), text),
    };
    let (before, after) = size.split_once('.').unwrap_or((size, ""));
    let before = match random.below(4) {
        0 => "0".repeat(1 + random.below(25) as usize) + before,
        1 if !after.is_empty() => String::from(before.trim_start_matches('0')),
        _ => String::from(before),
    };
    let zeros = random.below(8).saturating_sub(3) as usize;
    let after = format!("{after}{}", "0".repeat(zeros));
    let point = match random.below(4) {
        0 => ".",
        _ if after.is_empty() => "",
        _ => ".",
    };
    let other = format!("{sign}{before}{point}{after}");
    match Decimal::read(other.as_bytes()) {
        Some(_) => other,
        None => String::from(text),
    }
}

/// A number of any size: near an f32 or near the middle of two, at the middle where 18
/// digits can say it, or of any digits; now and then what is none.
pub fn any_number(random: &mut Generator) -> String {
    let v = (random.sign() * random.scaled(-60, 58)) as f32;
    let text = match random.below(16) {
        0 => return one_of(random, &NO_NUMBERS).into(),
        1 => one_of(random, &ZEROS).into(),
        2..=5 => any_digits(random),
        6 => any_whole(random),
        7 | 8 => near(random, v.to_bits()),
        9 | 10 => {
            let field = one_of(random, &[2, 3, 4, 5, 9, 13]);
            near_an_end(random, field)
        }
        _ => near_middle(random, v),
    };
    dressed(random, &text)
}

/// Up to 20 digits with a sign and a point or none, so that some are too many.
fn any_digits(random: &mut Generator) -> String {
    let count = match random.below(4) {
        0 => 1 + random.below(20),
        1 => 17 + random.below(3),
        _ => 18,
    };
    let digits: String = (0..count).map(|_| one_of(random, &DIGITS)).collect();
    let (before, after) = digits.split_at(random.below(count + 1) as usize);
    let sign = one_of(random, &["", "", "-", "+"]);
    let point = match after.is_empty() {
        true => one_of(random, &["", "."]),
        false => ".",
    };
    format!("{sign}{before}{point}{after}")
}

/// A desk or a month, mostly: at the ends of their ranges and of a word, in many
/// spellings; now and then one that is none.
pub fn any_whole(random: &mut Generator) -> String {
    match random.below(12) {
        0 => one_of(random, &NO_WHOLES).into(),
        1 => whole(random, u32::MAX),
        2 => {
            let n = random.any_word();
            whole(random, n)
        }
        _ => {
            let n = random.below(14) as u32;
            whole(random, n)
        }
    }
}

/// A whole number, mostly just its digits.
pub fn whole(random: &mut Generator, n: u32) -> String {
    match random.below(24) {
        0 => format!("0{n}"),
        1 => format!("+{n}"),
        2 => format!("{n}."),
        3 => format!("+{}{n}.", "0".repeat(30)),
        _ => n.to_string(),
    }
}

#[cfg(test)]
mod tests {
    use super::{dressed, near, near_an_end, near_middle, whole, NO_NUMBERS};
    use crate::draw::generator::Generator;
    use crate::model::desks::fields::check;
    use crate::model::desks::text::number::Decimal;

    fn read(text: &str) -> Option<u32> {
        Decimal::read(text.as_bytes()).map(Decimal::bits)
    }

    #[test]
    fn what_looks_like_a_number_is_none() {
        assert!(NO_NUMBERS.iter().all(|text| read(text).is_none()));
    }

    #[test]
    fn spellings_are_of_the_same_number() {
        let mut random = Generator::new(1);
        for text in ["0", "-0", "12.5", "0.125", "-0.000000000000000001", "300"] {
            for _ in 0..200 {
                let other = dressed(&mut random, text);
                assert_eq!(read(&other), read(text), "{other}");
            }
        }
        for _ in 0..1000 {
            let n = random.any_word();
            let text = whole(&mut random, n);
            let number = Decimal::read(text.as_bytes());
            assert_eq!(number.and_then(Decimal::whole), Some(n), "{text}");
        }
    }

    #[test]
    fn all_that_is_drawn_is_a_number() {
        let mut random = Generator::new(2);
        for _ in 0..100_000 {
            let word = random.any_word();
            let text = near(&mut random, word);
            assert!(read(&text).is_some(), "{text}");
        }
    }

    /// Near a middle both neighbours come, near an end both answers.
    #[test]
    fn both_sides_come() {
        let mut random = Generator::new(3);
        let mut sides = [0; 2];
        for _ in 0..1000 {
            let v = random.uniform(8.0, 300.0) as f32;
            let text = near_middle(&mut random, v);
            match read(&text).map(f32::from_bits) {
                Some(read) if read == v => sides[0] += 1,
                Some(read) if read == v.next_up() => sides[1] += 1,
                other => panic!("{text} is {other:?}, near {v}"),
            }
        }
        assert!(sides.iter().all(|count| *count > 300), "{sides:?}");
        for field in (2..=7).chain(9..=14) {
            let drawn = (0..1000).map(|_| near_an_end(&mut random, field));
            let inside = drawn.filter(|text| check(field, &[read(text).expect("one")]).is_ok());
            let inside = inside.count();
            assert!((100..900).contains(&inside), "field {field}: {inside}");
        }
    }
}
