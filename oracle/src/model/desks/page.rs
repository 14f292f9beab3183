//! What the program `sheet page` prints: a line for each field and each figure,
//! with its name, its decimals, its bits and its unit.

use super::fields::{Inputs, SHEET_FIELDS};
use super::lent::Shown;
use super::programs::{sheet, sheet_inputs, sheet_text};
use crate::reference::sheets::{FIGURES, ROW};
use std::fmt::Write;

/// A name of at most 12 characters and a unit; empty where there is none.
pub type Named = (&'static str, &'static str);

/// Fields 2 to 7, before the line for the long way round.
const BEFORE_FLAG: [Named; 6] = [
    ("ssn", ""),
    ("gmt", "hours"),
    ("tlat", "degrees"),
    ("tlong", "degrees"),
    ("rlat", "degrees"),
    ("rlong", "degrees"),
];

/// Fields 9 to 14.
const AFTER_FLAG: [Named; 6] = [
    ("psc e", ""),
    ("psc f1", ""),
    ("psc f2", ""),
    ("psc es", ""),
    ("pole lat", "degrees"),
    ("pole lon", "degrees"),
];

/// The figures of the path.
pub const PATH: [Named; 6] = [
    ("gcd", "radians"),
    ("gcd_km", "km"),
    ("btr", "radians"),
    ("brt", "radians"),
    ("rlatd", "degrees"),
    ("alatd", "degrees"),
];

/// The figures of a point.
pub const POINT: [Named; ROW] = [
    ("rd", "radians"),
    ("lat", "radians"),
    ("lon", "radians"),
    ("gmlat", "radians"),
    ("gyz", "MHz"),
    ("gmdip", "radians"),
    ("east_lon", "radians"),
    ("fi[0]", "MHz"),
    ("fi[1]", "MHz"),
    ("fi[2]", "MHz"),
    ("yi[0]", "km"),
    ("yi[1]", "km"),
    ("yi[2]", "km"),
    ("hi[0]", "km"),
    ("hi[1]", "km"),
    ("hi[2]", "km"),
    ("f2m3", ""),
    ("hpf2", "km"),
    ("rat", ""),
    ("abiy", ""),
    ("clck", "hours"),
    ("zenang", "degrees"),
    ("zenmax", "degrees"),
    ("fs[0]", "MHz"),
    ("fs[1]", "MHz"),
    ("fs[2]", "MHz"),
    ("hs", "km"),
    ("sigma", "mhos/m"),
    ("epsilon", ""),
];

/// What `sheet page` prints for its input.
pub fn page_text(input: &[u8]) -> String {
    match sheet(input) {
        Ok(shown) => page(&sheet_inputs(input), &shown),
        refused => sheet_text(&refused),
    }
}

/// The bits of the numbers on a page in their order: fields, path, points.
pub fn printed(inputs: &Inputs, shown: &Shown) -> Vec<u32> {
    let figures = FIGURES - (5 - shown.points as usize) * ROW;
    let (before, after) = numbers(inputs);
    [before, after, &shown.words[..figures]].concat()
}

/// The fields that are numbers, those before the flag and those after it. A sheet
/// over a pair of files has no model.
fn numbers(inputs: &Inputs) -> (&[u32], &[u32]) {
    (&inputs[1..7], &inputs[8..SHEET_FIELDS])
}

fn page(inputs: &Inputs, shown: &Shown) -> String {
    let mut text = format!("{:<12}{}\n", "month", inputs[0]);
    let (before, after) = numbers(inputs);
    rows(&mut text, &BEFORE_FLAG, before);
    if inputs[7] != 0 {
        text += "the long way round\n";
    }
    rows(&mut text, &AFTER_FLAG, after);
    let (path, points) = shown.words.split_at(FIGURES - 5 * ROW);
    rows(&mut text, &PATH, path);
    for (number, point) in (1..=shown.points).zip(points.chunks(ROW)) {
        writeln!(text, "point {number}").expect("a string takes everything");
        rows(&mut text, &POINT, point);
    }
    text
}

fn rows(text: &mut String, names: &[Named], words: &[u32]) {
    assert_eq!(names.len(), words.len());
    for ((name, unit), word) in names.iter().zip(words) {
        let blanks = if unit.is_empty() { "" } else { "  " };
        let decimals = decimals(*word);
        writeln!(text, "{name:<12}{decimals}  {word:08x}{blanks}{unit}")
            .expect("a string takes everything");
    }
}

/// The f32 with these bits in 16 characters, six decimals; the bits times a
/// power of two from 2^24 on, in as many as it takes.
pub fn decimals(word: u32) -> String {
    let exponent = word >> 23 & 0xff;
    let fraction = word & 0x7f_ffff;
    let sign = if word >> 31 == 1 { "-" } else { "" };
    let text = match exponent {
        255 if fraction != 0 => String::from("nan"),
        255 => format!("{sign}inf"),
        151.. => return format!("{sign}{}*2^{}", 1 << 23 | fraction, exponent - 150),
        0 => format!("{sign}{}", with_point(millionths(fraction, 149))),
        _ => {
            let n = millionths(1 << 23 | fraction, 150 - exponent);
            format!("{sign}{}", with_point(n))
        }
    };
    format!("{text:>16}")
}

/// The whole number nearest `n` / 2^`halvings` millionths, half way up. With
/// more than 64 halvings not even a half is left.
fn millionths(n: u32, halvings: u32) -> u128 {
    let half_millionths = u128::from(n) * 2_000_000;
    let one = 1 << halvings.min(64);
    (half_millionths + one) / (2 * one)
}

fn with_point(millionths: u128) -> String {
    format!("{}.{:06}", millionths / 1_000_000, millionths % 1_000_000)
}

#[cfg(test)]
mod tests {
    use super::{decimals, page_text, AFTER_FLAG, BEFORE_FLAG, PATH, POINT};
    use crate::draw::data_files::named;
    use crate::draw::generator::Generator;
    use crate::draw::sheet_kinds::in_range;
    use crate::month_file::push_words;

    fn of(v: f32) -> String {
        decimals(v.to_bits())
    }

    #[test]
    fn numbers_stand_at_the_end_of_16_characters() {
        assert_eq!(of(0.0), "        0.000000");
        assert_eq!(of(-0.0), "       -0.000000");
        assert_eq!(of(-1.0e-40), "       -0.000000");
        assert_eq!(of(1.5), "        1.500000");
        assert_eq!(of(-16_777_215.0), "-16777215.000000");
        assert_eq!(of(0.1), "        0.100000");
        assert_eq!(of(f32::INFINITY), "             inf");
        assert_eq!(of(f32::NEG_INFINITY), "            -inf");
        assert_eq!(of(f32::NAN), "             nan");
        assert_eq!(decimals(0xffc0_0001), "             nan");
    }

    #[test]
    fn numbers_of_2_to_the_24_and_more_are_whole() {
        assert_eq!(of(16_777_216.0), "8388608*2^1");
        assert_eq!(of(-f32::MAX), "-16777215*2^104");
        assert_eq!(of(1.0e9), "15625000*2^6");
    }

    #[test]
    fn half_way_goes_up() {
        // 7,812.5 and 23,437.5 millionths, and a half of one.
        assert_eq!(of(0.007_812_5), "        0.007813");
        assert_eq!(of(-0.007_812_5), "       -0.007813");
        assert_eq!(of(0.023_437_5), "        0.023438");
        let half = 5.0e-7f32;
        assert_eq!(of(half.next_down()), "        0.000000");
        assert_eq!(of(half.next_up()), "        0.000001");
    }

    /// The library rounds half to even, which is another number only where a
    /// decimal of six places and a 5 is exact.
    #[test]
    fn decimals_are_the_librarys_but_half_way() {
        let mut random = Generator::new(9);
        let mut compared = 0;
        while compared < 20_000 {
            let drawn = match random.below(2) {
                0 => random.any_word(),
                _ => (random.scaled(-30, 23) as f32).to_bits(),
            };
            let v = f32::from_bits(drawn);
            if v.is_nan() || v.abs() >= 16_777_216.0 || is_half_way(v) {
                continue;
            }
            assert_eq!(of(v), format!("{:>16}", format!("{v:.6}")), "{drawn:08x}");
            compared += 1;
        }
    }

    /// An f64 holds all of these products.
    fn is_half_way(v: f32) -> bool {
        (f64::from(v) * 1.0e6).abs().fract() == 0.5
    }

    #[test]
    fn names_fit() {
        let all = [&BEFORE_FLAG[..], &AFTER_FLAG, &PATH, &POINT].concat();
        assert!(all.iter().all(|(name, _)| name.len() < 12));
    }

    #[test]
    fn a_page_has_all_lines_of_its_points() {
        let [(_, pair), ..] = named();
        let mut random = Generator::new(10);
        let mut seen = [0; 6];
        for _ in 0..40 {
            let sheet = in_range(&mut random);
            let mut input = Vec::new();
            push_words(&mut input, &sheet.words());
            input.extend(&pair.daw[..7904]);
            input.extend(&pair.month);
            let text = page_text(&input);
            let points = text.lines().filter(|l| l.starts_with("point ")).count();
            let long = text.lines().filter(|l| *l == "the long way round").count();
            assert_eq!(long, usize::from(sheet.route.long));
            assert_eq!(text.lines().count(), 13 + long + 6 + 30 * points);
            seen[points] += 1;
            input[28] = 2;
            assert_eq!(page_text(&input), "refused 7 8\n");
        }
        assert!([1, 3, 5].iter().all(|points| seen[*points] > 0));
    }
}
