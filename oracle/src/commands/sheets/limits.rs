//! Sheets at a limit and on both sides of it. The inputs do not show these
//! limits: one number of a sheet is changed until a figure comes to them.

use super::by_hand::with;
use super::drawn::along;
use super::{set_of, trail, Group};
use crate::draw::generator::Generator;
use crate::draw::route_kinds::between;
use crate::reference::branches::{Side, BRANCHES};
use crate::reference::routes::end;
use crate::reference::sheets::{showing, Sheet};
use crate::reference::steps::Step;
use crate::reference::voacap::con::D2R;
use crate::reference::voacap::ionosphere::{cofion, versy, virtim, DELZ, SUN};

const SEED: u64 = 0x6c69_6d69;
const TRIES: usize = 400;
/// How many words are tried on each side of the word at which it turns.
const REACH: u32 = 20;

// Places among the twelve numbers.
const SSN: usize = 0;
const GMT: usize = 1;
const TLAT: usize = 2;
const F1_FACTOR: usize = 7;
const F2_FACTOR: usize = 8;
const POLE_LAT: usize = 10;

/// What is looked for: a number that is changed within two limits above 0, what
/// comes to 0 then, and whether it comes to 0 exactly.
struct Search {
    number: usize,
    within: [f32; 2],
    key: fn(&Sheet) -> f32,
    exact: bool,
}

/// From the files that are put.
pub fn groups() -> Vec<Group> {
    vec![
        ("F1 ends", found(1, 2, &F1_ENDS, any)),
        ("twilight begins", found(2, 2, &TWILIGHT_BEGINS, any)),
        ("bad E map", found(3, 1, &BAD_E_MAP, any)),
        ("F1 near F2", found(4, 1, &F1_NEAR_F2, merging)),
        ("F1 level with F2", found(5, 2, &F1_LEVEL_WITH_F2, low_f2)),
        ("sun's middle", found(6, 1, &SUN_MIDDLE, below_the_sun)),
        ("F2 at 0.2", found(7, 1, &F2_AT_0_2, minus_zero)),
    ]
}

/// Where twilight begins both sides of the condition come to the same, unless F2
/// lies so far above F1 that their difference is rounded.
pub fn high_f2() -> Group {
    (
        "twilight below a high F2",
        found(8, 4, &TWILIGHT_BEGINS, f2_is_high),
    )
}

/// All over twilight, with F1 below, near and at F2. Random sheets seldom come
/// there, and the roundings of every step shall show.
pub fn twilight() -> Group {
    let mut random = Generator::new(SEED);
    let mut sheets = Vec::new();
    while sheets.len() < 40 {
        let mut sheet = one_point(&mut random);
        sheet.psc[1] = random.uniform(1.0, 3.0) as f32;
        let degrees = random.uniform(0.0, DELZ.into()) as f32;
        if before_f1_ends(&mut sheet, degrees) && is_merging(&sheet) {
            sheets.push(sheet);
        }
    }
    ("twilight", sheets)
}

/// Half a day, so that the sun rises or sets at most places.
const HALF_A_DAY: [f32; 2] = [1.0, 13.0];

const F1_ENDS: Search = Search {
    number: GMT,
    within: HALF_A_DAY,
    key: |sheet| {
        let row = row(sheet);
        row[22] - row[21]
    },
    exact: true,
};

const TWILIGHT_BEGINS: Search = Search {
    number: GMT,
    within: HALF_A_DAY,
    key: |sheet| {
        let row = row(sheet);
        row[22] - DELZ - row[21]
    },
    exact: true,
};

const BAD_E_MAP: Search = Search {
    number: SSN,
    within: [0.0, 300.0],
    key: |sheet| e_map(sheet) - 0.36,
    exact: true,
};

const F1_NEAR_F2: Search = Search {
    number: F1_FACTOR,
    within: [0.125, 8.0],
    key: |sheet| {
        let row = row(sheet);
        row[8] - 0.834 * row[9]
    },
    exact: true,
};

/// The pole moves the height ratio and nothing else of what decides.
const F1_LEVEL_WITH_F2: Search = Search {
    number: POLE_LAT,
    within: [1.0, 90.0],
    key: |sheet| f1_below_f2(&row(sheet)),
    exact: false,
};

/// The latitudes of points are too coarse for the middle itself.
const SUN_MIDDLE: Search = Search {
    number: TLAT,
    within: [1.0, 33.0],
    key: |sheet| {
        let [first, second] = SUN[sheet.month as usize - 1].map(|degrees| degrees * D2R);
        let lat = row(sheet)[1];
        (lat - first).abs() - (lat - second).abs()
    },
    exact: false,
};

/// Below the least factor of document 01.
const F2_AT_0_2: Search = Search {
    number: F2_FACTOR,
    within: [0.01, 0.125],
    key: |sheet| row(sheet)[9] - 0.2,
    exact: true,
};

/// The numbers of the first point.
fn row(sheet: &Sheet) -> [f32; 29] {
    let figures = showing(sheet);
    figures.values[6..35].try_into().expect("29 numbers")
}

/// What the E map gives before a bad value is replaced.
fn e_map(sheet: &Sheet) -> f32 {
    let row = row(sheet);
    let set = set_of(sheet);
    let ab = virtim(&cofion(&set), &set.ikim, sheet.gmt);
    versy(&ab, &set.ikim, 6, row[1], row[6], row[1].step_cos())
}

/// How far the bottom of F1 lies below that of F2 where twilight begins. The
/// thickness of F1 is a quarter of its height.
fn f1_below_f2(row: &[f32; 29]) -> f32 {
    let ratio = (0.834 * row[9] / row[7]).step_max(1.1);
    let retardation = (ratio * ((ratio + 1.0) / (ratio - 1.0)).step_ln() - 2.0) * row[10];
    let height = row[17] - retardation;
    let f1_height = 165.0 + 0.6428 * (row[22] - DELZ);
    (height - height / row[18]) - (f1_height - f1_height * 0.25)
}

fn any(_: &mut Sheet) -> bool {
    true
}

/// Sets the hour in the middle of twilight.
fn in_twilight(sheet: &mut Sheet) -> bool {
    before_f1_ends(sheet, 0.5 * DELZ)
}

/// Sets the hour at which the sun is so many degrees above where F1 ends.
fn before_f1_ends(sheet: &mut Sheet, degrees: f32) -> bool {
    let key = |bits: u32| {
        let row = row(&with(*sheet, GMT, f32::from_bits(bits)));
        row[22] - degrees - row[21]
    };
    match turn(HALF_A_DAY.map(f32::to_bits), &key) {
        Some(bits) => {
            sheet.gmt = f32::from_bits(bits);
            true
        }
        None => false,
    }
}

/// In twilight, with F2 as low as E can make it.
fn low_f2(sheet: &mut Sheet) -> bool {
    sheet.psc[0] = 8.0;
    in_twilight(sheet)
}

fn f2_is_high(sheet: &mut Sheet) -> bool {
    in_twilight(sheet) && f1_below_f2(&row(sheet)) > 256.0
}

/// In twilight, where F1 is pushed up into F2 and its frequency is asked.
fn merging(sheet: &mut Sheet) -> bool {
    in_twilight(sheet) && is_merging(sheet)
}

fn is_merging(sheet: &Sheet) -> bool {
    let asked = |side: &Side| BRANCHES[side.0].condition == "fc1 - fc > 0.0";
    trail(sheet, &set_of(sheet)).0.iter().any(asked)
}

/// The receiver stands between both ends of the month's sun, so that the
/// transmitter can move the middle of the path over what lies between.
fn below_the_sun(sheet: &mut Sheet) -> bool {
    let [first, second] = SUN[sheet.month as usize - 1];
    sheet.route.to = end((first + second) / 2.0, sheet.route.from.lon);
    first > 0.0 && second > 0.0
}

/// F1 comes out as -0.0, which is as low as F2 less 0.2.
fn minus_zero(sheet: &mut Sheet) -> bool {
    sheet.psc[1] = -0.0;
    let row = row(sheet);
    row[21] < row[22] - DELZ
}

fn one_point(random: &mut Generator) -> Sheet {
    let route = between(random, 100.0, 1900.0);
    let psc = [1.0; 4];
    Sheet {
        psc,
        ..along(random, route)
    }
}

/// From the first random sheets of one point that `prepare` takes and that come
/// to the limit.
fn found(seed: u64, count: usize, search: &Search, prepare: fn(&mut Sheet) -> bool) -> Vec<Sheet> {
    let mut random = Generator::new(SEED + seed);
    let draws = (0..TRIES).map(|_| one_point(&mut random));
    let found = draws.filter_map(|mut sheet| match prepare(&mut sheet) {
        true => around_zero(sheet, search),
        false => None,
    });
    let found: Vec<Vec<Sheet>> = found.take(count).collect();
    assert_eq!(found.len(), count, "search {seed}");
    found.concat()
}

/// Nearest to 0 on both sides and, if the key comes to it, at 0.
fn around_zero(sheet: Sheet, search: &Search) -> Option<Vec<Sheet>> {
    let changed = |bits: u32| with(sheet, search.number, f32::from_bits(bits));
    let key = |bits: u32| (search.key)(&changed(bits));
    let turn = turn(search.within.map(f32::to_bits), &key)?;
    let keys: Vec<(u32, f32)> = (turn - REACH..=turn + REACH)
        .map(|bits| (bits, key(bits)))
        .collect();
    let nearest = |wanted: fn(f32) -> bool| {
        let fitting = keys.iter().filter(|(_, key)| wanted(*key));
        fitting.min_by(|(_, a), (_, b)| a.abs().total_cmp(&b.abs()))
    };
    let mut words = vec![nearest(|v| v < 0.0)?, nearest(|v| v > 0.0)?];
    if search.exact {
        words.push(nearest(|v| v == 0.0)?);
    }
    Some(words.iter().map(|(bits, _)| changed(*bits)).collect())
}

/// The word from which on the key has the other sign, if it has.
fn turn([mut low, mut high]: [u32; 2], key: &impl Fn(u32) -> f32) -> Option<u32> {
    let negative = |bits: u32| key(bits) < 0.0;
    let first = negative(low);
    if negative(high) == first {
        return None;
    }
    while high - low > 1 {
        let middle = low + (high - low) / 2;
        if negative(middle) == first {
            low = middle;
        } else {
            high = middle;
        }
    }
    Some(high)
}

#[cfg(test)]
mod tests {
    use crate::draw::generator::Generator;
    use crate::draw::route_kinds::of_any_kind;
    use crate::reference::routes::plain;
    use crate::reference::voacap::con::D2R;
    use crate::reference::voacap::ionosphere::SUN;

    /// Latitudes of the tropics are multiples of 2^-23, and the sum of both ends
    /// of the sun is none of 2^-22. Both differences from a latitude are exact.
    #[test]
    fn no_point_is_in_the_suns_middle() {
        let unit = f64::from(1 << 23);
        let mut random = Generator::new(1);
        for _ in 0..5000 {
            let path = plain(&of_any_kind(&mut random));
            for row in path.rows().filter(|row| row[1].abs() < 0.5) {
                assert_eq!((f64::from(row[1]) * unit).fract(), 0.0);
            }
        }
        for ends in SUN {
            let [first, second] = ends.map(|degrees| f64::from(degrees * D2R));
            assert_ne!(((first + second) * unit / 2.0).fract(), 0.0);
        }
    }
}
