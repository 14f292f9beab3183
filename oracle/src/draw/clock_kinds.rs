//! Hours, times and longitudes at which clocks turn over, and random ones.

use crate::draw::generator::Generator;
use crate::draw::sheet_kinds::one_of;
use std::iter::successors;

/// Each is followed by its negative.
fn both_signs(values: &[f32]) -> Vec<f32> {
    values.iter().flat_map(|v| [*v, -*v]).collect()
}

/// `v` and so many steps below and above it.
fn around(v: f32, steps: usize) -> Vec<f32> {
    let below = successors(Some(v), |v| Some(v.next_down()));
    let above = successors(Some(v), |v| Some(v.next_up()));
    let mut all: Vec<f32> = below.skip(1).take(steps).collect();
    all.reverse();
    all.extend(above.take(steps + 1));
    all
}

/// The longitudes at which local time is a whole hour away.
fn multiples() -> impl Iterator<Item = f32> {
    (-12..=12).map(|k| 15.0 * k as f32)
}

/// No longitude is much smaller; half a step of 360 and its neighbours, where
/// 360 less the longitude begins to differ from 360.
fn tiny() -> Vec<f32> {
    let half_a_step = 1.0 / 65_536.0;
    let mut sizes = vec![f32::MIN_POSITIVE, 1.0e-40, 1.0e-30, 1.0e-8, 1.0e-6, 1.0e-4];
    sizes.extend(around(half_a_step, 1));
    both_signs(&sizes)
}

const PLAIN: [f32; 8] = [0.5, 1.0, 7.5, 8.1, 21.9, 69.0, 137.31, 179.99];
const FAR: [f32; 5] = [181.0, 360.0, 1.0e10, f32::MAX, f32::INFINITY];
const NANS: [u32; 3] = [0x7fc0_0000, 0xffc0_0001, 0x7f80_0001];

fn nans() -> impl Iterator<Item = f32> {
    NANS.into_iter().map(f32::from_bits)
}

/// All that the vectors have.
pub fn longitudes() -> Vec<f32> {
    let mut all: Vec<f32> = multiples().flat_map(|lon| around(lon, 3)).collect();
    all.push(-0.0);
    all.extend(tiny());
    all.extend(both_signs(&PLAIN));
    all.extend(both_signs(&FAR));
    all.extend(nans());
    all
}

/// Those among them that meet every time.
pub fn few_longitudes() -> Vec<f32> {
    let mut all: Vec<f32> = multiples().flat_map(|lon| around(lon, 1)).collect();
    all.extend([-0.0, f32::MIN_POSITIVE, -1.0e-6, 8.1, -21.9]);
    all.extend([f32::NAN, f32::INFINITY, -181.0]);
    all
}

/// Document 01's hours.
pub fn hours() -> impl Iterator<Item = u32> {
    0..=24
}

pub const NO_HOURS: [u32; 8] = [25, 26, 48, 255, 256, 1 << 24, 1 << 31, u32::MAX];

/// Times that are no whole hour, or none from 0 to 24.
pub fn other_times() -> Vec<f32> {
    let beside = hours().flat_map(|hour| [(hour as f32).next_down(), (hour as f32).next_up()]);
    let mut all: Vec<f32> = beside.collect();
    all.extend((0..24).map(|hour| hour as f32 + 0.5));
    all.extend([-0.0, f32::MIN_POSITIVE, 1.0e-30, 1.0e-8, 1.0e-6, 23.1]);
    all.extend([-1.0, 25.0, 48.0, -1.0e10, f32::MAX]);
    all.extend([f32::INFINITY, f32::NEG_INFINITY]);
    all.extend(nans());
    all
}

/// In range as a rule, near a turn of the clock more often than by chance.
pub fn any_longitude(random: &mut Generator) -> f32 {
    match random.below(16) {
        0 => one_of(random, &longitudes()),
        1 => random.any_number(),
        2 => (random.sign() * random.scaled(-30, 7)) as f32,
        3..=6 => beside(random, 15.0, -12, 12),
        7..=8 => random_whole(random, -180, 180),
        _ => random.uniform(-180.0, 180.0) as f32,
    }
}

pub fn any_time(random: &mut Generator) -> f32 {
    match random.below(16) {
        0 => one_of(random, &other_times()),
        1 => random.any_number(),
        2 => random.scaled(-30, 4) as f32,
        3..=4 => beside(random, 1.0, 0, 24),
        5..=8 => random_whole(random, 0, 24),
        _ => random.uniform(0.0, 24.0) as f32,
    }
}

pub fn any_hour(random: &mut Generator) -> u32 {
    match random.below(16) {
        0 => one_of(random, &NO_HOURS),
        1 => random.any_word(),
        _ => random.between(0, 24) as u32,
    }
}

fn random_whole(random: &mut Generator, low: i64, high: i64) -> f32 {
    random.between(low, high) as f32
}

/// At most four steps away from a multiple of `unit`.
fn beside(random: &mut Generator, unit: f32, low: i64, high: i64) -> f32 {
    let all = around(unit * random_whole(random, low, high), 4);
    one_of(random, &all)
}
