//! Random sheets of every section.

use super::Group;
use crate::draw::generator::Generator;
use crate::draw::route_kinds::{between, ONE_POINT, THREE_POINTS};
use crate::draw::sheet_kinds::{any_bits, in_range, outside};
use crate::reference::routes::Route;
use crate::reference::sheets::Sheet;

const SEED: u64 = 0x7368_6565;
const HALF_ROUND: f64 = 20_000.0;

pub fn groups(section: u64) -> Vec<Group> {
    let mut random = Generator::new(SEED + section);
    vec![
        ("by distance", by_distance(&mut random)),
        ("in range", several(&mut random, 6, in_range)),
        ("outside", several(&mut random, 5, outside)),
        ("any bits", several(&mut random, 3, any_bits)),
    ]
}

fn several(random: &mut Generator, count: usize, draw: fn(&mut Generator) -> Sheet) -> Vec<Sheet> {
    (0..count).map(|_| draw(random)).collect()
}

/// One point, three, five, and five the long way.
fn by_distance(random: &mut Generator) -> Vec<Sheet> {
    let (one, three) = (f64::from(ONE_POINT), f64::from(THREE_POINTS));
    let lengths = [(50.0, one), (one, three), (three, HALF_ROUND)];
    let mut sheets = Vec::new();
    for (low, high) in lengths {
        for _ in 0..2 {
            let route = between(random, low, high);
            sheets.push(along(random, route));
        }
        let route = between(random, low, high).long_way();
        sheets.push(along(random, route));
    }
    sheets
}

pub fn along(random: &mut Generator, route: Route) -> Sheet {
    Sheet {
        route,
        ..in_range(random)
    }
}
