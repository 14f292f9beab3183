//! Random routes over the world.

use super::Group;
use crate::draw::generator::Generator;
use crate::draw::route_kinds::{between, of_kind, ONE_POINT, THREE_POINTS};
use crate::reference::routes::Route;

const SEED: u64 = 0x726f_7574;
const HALF_ROUND: f64 = 20_000.0;

/// Each group has a seed of its own, so that a further one leaves the others
/// as they are.
pub fn groups() -> Vec<Group> {
    let (one, three) = (f64::from(ONE_POINT), f64::from(THREE_POINTS));
    vec![
        ("one point", by_distance(1, 36, 50.0, one)),
        ("three points", by_distance(2, 36, one, three)),
        ("five points", by_distance(3, 44, three, HALF_ROUND)),
        ("the long way round", long_way(4, 44)),
        ("whole degrees", several(5, 20, "whole degrees")),
        ("close ends", several(6, 20, "close ends")),
        ("near antipodes", several(7, 20, "near antipodes")),
        ("near poles", several(8, 24, "near poles")),
        ("one great meridian", several(9, 20, "one great meridian")),
    ]
}

fn by_distance(seed: u64, count: usize, low: f64, high: f64) -> Vec<Route> {
    let mut random = Generator::new(SEED + seed);
    (0..count)
        .map(|_| between(&mut random, low, high))
        .collect()
}

/// Half of them short the short way, where the long way passes an antipode.
fn long_way(seed: u64, count: usize) -> Vec<Route> {
    let mut routes = by_distance(seed, count / 2, 50.0, f64::from(THREE_POINTS));
    routes.extend(by_distance(seed, count / 2, 50.0, HALF_ROUND));
    routes.into_iter().map(Route::long_way).collect()
}

fn several(seed: u64, count: usize, kind: &str) -> Vec<Route> {
    let mut random = Generator::new(SEED + seed);
    (0..count).map(|_| of_kind(kind, &mut random)).collect()
}
