//! Arguments chosen by hand: ends of ranges, places where a branch turns,
//! and their neighbours.

use crate::bits::{pair, Format, Kind, F32, F64};
use crate::functions::Function;
use crate::reference::steps::power_of_two;
use crate::reference::voacap::con::{PI, PI2, PIO2};
use std::f64::consts::{FRAC_PI_4, LN_2, SQRT_2};

pub fn specials(function: &Function) -> Vec<u64> {
    match function.kind {
        Kind::Pair if function.name == "sign" => all_pairs(&sign_operands()),
        Kind::Pair => all_pairs(&compared()),
        Kind::I32 => integers(),
        Kind::F32 => floats(function, F32),
        Kind::F64 => floats(function, F64),
    }
}

fn floats(function: &Function, format: Format) -> Vec<u64> {
    let own = match function.stem() {
        "sin" | "cos" => quarter_turns(format),
        "atan" => around_one_and_powers(format),
        "acos" => towards_one(format),
        "exp" => exponents(format),
        "ln" => powers_of_two(format),
        "sqrt" => squares(format),
        "narrow" => half_way(),
        "to_i32" => whole_numbers(format, 33),
        "to_u64" => whole_numbers(format, 66),
        _ => Vec::new(),
    };
    let mut words = common(format);
    words.extend(format.both_signs(own));
    words
}

/// Zero, infinity, NaNs of both sorts and the ends of the format.
fn edges(format: Format) -> [u64; 10] {
    let infinity = format.infinity();
    let quiet = 1 << (format.fraction_bits - 1);
    [
        0,
        infinity,
        infinity | quiet,
        format.sign() - 1,
        infinity | 1,
        infinity | quiet >> 1,
        1,
        format.smallest_normal() - 1,
        format.smallest_normal(),
        infinity - 1,
    ]
}

/// What every function over floats is tried on.
fn common(format: Format) -> Vec<u64> {
    let mut words = edges(format).to_vec();
    for v in [1.0, 0.5, 2.0, 1000.0, 700.0, 24.0, 180.0, 360.0] {
        words.extend(format.around(v));
    }
    for k in (1..=10).chain(1270..=1274) {
        words.extend(format.around(f64::from(k) * FRAC_PI_4));
    }
    format.both_signs(words)
}

/// Multiples of pi/4 over the whole range: at the odd ones the quarter
/// changes, at the even ones sine or cosine is nearly 0.
fn quarter_turns(format: Format) -> Vec<u64> {
    let turns = (11..1270).step_by(25);
    turns
        .flat_map(|k| format.around(f64::from(k) * FRAC_PI_4))
        .collect()
}

fn around_one_and_powers(format: Format) -> Vec<u64> {
    let one = format.word(1.0);
    let powers = (-80..=80).map(|k| format.word(power_of_two(k)));
    (one - 8..=one + 8).chain(powers).collect()
}

fn towards_one(format: Format) -> Vec<u64> {
    let one = format.word(1.0);
    let bits = i64::from(format.fraction_bits);
    let steps = (1..=bits + 2).map(|k| format.word(1.0 - power_of_two(-k)));
    (one - 16..=one + 2).chain(steps).collect()
}

/// Where n changes, and for f32 where the answer becomes subnormal, zero
/// or infinite.
fn exponents(format: Format) -> Vec<u64> {
    let near_zero = (0..=6).chain(120..=152);
    let far = (160..=1000).step_by(70).chain(1007..=1009);
    let mut words = Vec::new();
    for n in near_zero.chain(far) {
        words.extend(format.around((f64::from(n) + 0.5) * LN_2));
    }
    for n in [1, 2, 10, 24, 126, 127, 128, 149, 150, 1000, 1009] {
        words.extend(format.around(f64::from(n) * LN_2));
    }
    words.extend(format.around(f64::from(f32::MAX).ln()));
    words
}

fn powers_of_two(format: Format) -> Vec<u64> {
    let one = format.word(1.0);
    let (low, high, step) = if format == F32 {
        (-149, 127, 3)
    } else {
        (-1074, 1023, 19)
    };
    let ends = [low + 1, low + 2, high - 1, high];
    let mut words: Vec<u64> = (one - 8..=one + 8).collect();
    for k in (low..=high).step_by(step).chain(ends) {
        words.extend(format.around(power_of_two(k)));
    }
    words.extend(format.around(SQRT_2));
    words
}

/// Exact squares and their neighbours, where the root's rounding is tight.
fn squares(format: Format) -> Vec<u64> {
    let half = format.fraction_bits / 2;
    let top = 1u64 << half;
    let roots = (2..=12).chain((0..40).map(|i| top + 7919 * i * i % top));
    let mut words = Vec::new();
    for root in roots.chain([top + 1, 2 * top - 1]) {
        words.extend(format.around((root * root) as f64));
    }
    for k in (0..format.fraction_bits).step_by(3) {
        words.extend([1 << k, (1 << k) + 1]);
    }
    words
}

/// Between two neighbouring f32: half-way, and one f64 step each side.
fn half_way() -> Vec<u64> {
    let mut lower = vec![0, 1, 2, 3, 4, 5, 0x007f_fffd, 0x007f_fffe, 0x007f_ffff];
    lower.extend([
        0x0080_0000,
        0x0080_0001,
        0x0040_0000,
        0x0012_3456,
        0x0012_3457,
    ]);
    lower.extend([
        0x3f80_0000,
        0x3f80_0001,
        0x3fff_ffff,
        0x3f7f_ffff,
        0x3f7f_fffe,
    ]);
    lower.extend([
        0x447a_0000,
        0x447a_0001,
        0x4b7f_ffff,
        0x7f7f_fffe,
        0x7f00_0000,
    ]);
    let mut words = Vec::new();
    for pattern in lower {
        let a = f64::from(f32::from_bits(pattern));
        let b = f64::from(f32::from_bits(pattern + 1));
        words.extend(F64.around((a + b) / 2.0));
        words.extend(F64.around(b));
    }
    // Half-way between the largest f32 and what would follow it.
    words.extend(F64.around(f64::from_bits(0x47ef_ffff_f000_0000)));
    words.extend(F64.around(power_of_two(128)));
    words.extend((-160..-120).map(|k| F64.word(power_of_two(k))));
    words
}

/// Powers of two up to past the range's end and whole numbers with what is
/// just beside them.
fn whole_numbers(format: Format, powers: i64) -> Vec<u64> {
    let mut words = Vec::new();
    for k in 0..=powers {
        words.extend(format.around(power_of_two(k)));
    }
    for v in [
        3.0,
        5.0,
        23.0,
        25.0,
        100.0,
        359.0,
        999_999.0,
        8_388_607.0,
        16_777_215.0,
    ] {
        words.extend(format.around(v));
    }
    for v in [0.25, 0.75, 1.5, 2.5, 23.5, 99.9, 8_388_607.5] {
        words.push(format.word(v));
    }
    words
}

/// What `sign` is tried on in either place: zero, infinity, NaNs and the
/// ends of the format, and plain sizes.
fn sign_operands() -> Vec<u64> {
    let mut sizes = edges(F32).to_vec();
    sizes.extend([1.0, PI, PI2, PIO2].map(|v| F32.word(v.into())));
    F32.both_signs(sizes)
}

fn all_pairs(list: &[u64]) -> Vec<u64> {
    let rows = list
        .iter()
        .flat_map(|a| list.iter().map(move |b| pair(*a, *b)));
    rows.collect()
}

/// Numbers that meet NaNs, zeros and each other.
fn compared() -> Vec<u64> {
    let one = F32.word(1.0);
    let quiet = F32.infinity() | 1 << 22;
    let sizes = [
        0,
        1,
        one,
        one + 1,
        F32.infinity() - 1,
        F32.infinity(),
        quiet,
    ];
    let mut list = F32.both_signs(sizes.to_vec());
    list.extend([F32.infinity() | 1, F32.sign() | F32.infinity() | 5]);
    list.extend([F32.word(0.2), F32.word(1.1)]);
    list
}

/// The ends, and ties between two f32 with both neighbours.
fn integers() -> Vec<u64> {
    let mut sizes: Vec<i64> = (0..=16).chain([24, 180, 360, 1000]).collect();
    for bits in 24..31 {
        let half = 1i64 << (bits - 24);
        let low = 1i64 << bits;
        for tie in [
            low,
            low + half,
            low + 3 * half,
            2 * low - half,
            2 * low - 3 * half,
        ] {
            sizes.extend([tie - 1, tie, tie + 1]);
        }
    }
    sizes.extend([i64::from(i32::MAX) - 1, i64::from(i32::MAX)]);
    let negative = sizes.iter().map(|size| -size).chain([i64::from(i32::MIN)]);
    let all = sizes.iter().copied().chain(negative);
    all.map(|value| u64::from(value as u32)).collect()
}
