//! Random arguments inside the range where a function has something to do.

use crate::bits::{pair, Format, Kind, F32, F64};
use crate::draw::generator::Generator;
use crate::functions::Function;
use std::f64::consts::{FRAC_PI_4, LN_2};

pub fn inside(function: &Function, random: &mut Generator) -> u64 {
    let format = if function.kind == Kind::F64 { F64 } else { F32 };
    match (function.kind, function.stem()) {
        (Kind::Pair, "sign") => pair(random.any(Kind::F32), beside_zero(random)),
        (Kind::Pair, _) => {
            let exponent = random.below(256);
            random.pair_near(exponent)
        }
        (Kind::I32, _) => {
            let bits = random.below(32);
            random.with_length(bits)
        }
        (_, "narrow") => around_f32(random),
        (_, stem) => number(format, stem, random),
    }
}

fn number(format: Format, stem: &str, random: &mut Generator) -> u64 {
    let value = match stem {
        "sin" | "cos" => return angle(format, random),
        "exp" => return exponent(format, random),
        "acos" => return cosine(format, random),
        "atan" => random.sign() * random.scaled(-10, 10),
        "ln" => return positive(format, random),
        "sqrt" => return square(format, random),
        "to_i32" => random.sign() * random.scaled(-2, 32),
        "to_u64" => random.sign() * random.scaled(-2, 65),
        _ => random.sign() * random.scaled(-20, 20),
    };
    format.word(value)
}

/// A word at most a few steps away.
fn beside(word: u64, random: &mut Generator) -> u64 {
    word.wrapping_add_signed(random.between(-3, 3))
}

/// A zero of either sign, or at most three steps from one.
fn beside_zero(random: &mut Generator) -> u64 {
    let sign = random.below(2) * F32.sign();
    sign | random.below(4)
}

/// At most 1000 in size; a quarter of them near a multiple of pi/4.
fn angle(format: Format, random: &mut Generator) -> u64 {
    match random.below(4) {
        0 => {
            let turns = random.sign() * random.between(1, 1273) as f64;
            beside(format.word(turns * FRAC_PI_4), random)
        }
        1 => format.word(random.sign() * random.scaled(-30, 8)),
        2 => format.word(random.uniform(-7.0, 7.0)),
        _ => format.word(random.uniform(-1000.0, 1000.0)),
    }
}

/// At most 1 in size; half of them close to 1.
fn cosine(format: Format, random: &mut Generator) -> u64 {
    let bits = i64::from(format.fraction_bits);
    let value = match random.below(4) {
        0 => 1.0 - random.scaled(-bits, -2),
        1 => 1.0 - random.scaled(-bits / 2, -2),
        2 => random.scaled(-30, -1),
        _ => random.unit(),
    };
    format.word(random.sign() * value)
}

/// At most 700 in size; some where n changes, some where an f32 answer is
/// subnormal or infinite.
fn exponent(format: Format, random: &mut Generator) -> u64 {
    match random.below(5) {
        0 => {
            let n = random.between(-1009, 1009) as f64;
            beside(format.word((n + 0.5) * LN_2), random)
        }
        1 => format.word(random.sign() * random.scaled(-30, 4)),
        2 => format.word(random.uniform(-105.0, -86.0)),
        3 => format.word(random.uniform(-100.0, 90.0)),
        _ => format.word(random.uniform(-700.0, 700.0)),
    }
}

fn positive(format: Format, random: &mut Generator) -> u64 {
    match random.below(4) {
        0 => random.below(format.infinity()),
        1 => random.below(format.smallest_normal() << 1),
        2 => format.word(random.scaled(-3, 10)),
        _ => format.word(random.uniform(0.9, 1.1)),
    }
}

/// Half of them beside an exact square.
fn square(format: Format, random: &mut Generator) -> u64 {
    if random.below(2) == 0 {
        return random.below(format.infinity());
    }
    let limit = 1 << (format.fraction_bits / 2 + 1);
    let root = 2 + random.below(limit - 2);
    beside(format.word((root * root) as f64), random)
}

/// An f64 that an f32 can nearly hold; half of them beside a tie.
fn around_f32(random: &mut Generator) -> u64 {
    let exponent = random.between(-152, 128) + 1023;
    let word = random.with_exponent(F64, exponent as u64);
    if random.below(2) == 0 {
        return word;
    }
    // Below 2^-126 the step of an f32 no longer shrinks with the number.
    let lost = (29 + (897 - exponent).max(0)).min(52);
    let tie = word >> lost << lost | 1 << (lost - 1);
    beside(tie, random)
}
