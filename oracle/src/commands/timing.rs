//! What the commands share that time sheets: usual sheets, and the best of
//! many runs in which the sides take turns.

use crate::draw::generator::Generator;
use crate::draw::route_kinds::between;
use crate::reference::sheets::Sheet;
use std::hint::black_box;
use std::time::Instant;

/// Routes of each number of points on each pair.
pub const ROUTES: usize = 8;
const ROUNDS: usize = 20;
pub const REPEATS: usize = 60;

/// Number of points, shortest and longest route in kilometres.
pub const LENGTHS: [(u32, f64, f64); 3] = [
    (1, 100.0, 1990.0),
    (3, 2010.0, 3990.0),
    (5, 4010.0, 19_000.0),
];

/// A name and a time for each row of the table.
pub type Column = Vec<(&'static str, f64)>;

/// Usual sheets; the whole day and the whole year.
pub fn sheets((points, low, high): (u32, f64, f64)) -> Vec<Sheet> {
    let mut random = Generator::new(points.into());
    let sheet = |random: &mut Generator| Sheet {
        month: random.between(1, 12) as u32,
        ssn: random.between(0, 200) as f32,
        gmt: random.between(0, 24) as f32,
        route: between(random, low, high),
        psc: [1.0; 4],
    };
    let sheets: Vec<Sheet> = (0..ROUTES).map(|_| sheet(&mut random)).collect();
    let right = |sheet: &Sheet| sheet.path().points.len() == points as usize;
    assert!(sheets.iter().all(right));
    sheets
}

/// One run of one side over all cases, in microseconds for a case.
#[inline(never)]
fn microseconds<T>(cases: &[T], work: &dyn Fn(&T)) -> f64 {
    let start = Instant::now();
    for _ in 0..ROUNDS {
        for case in cases {
            work(black_box(case));
        }
    }
    start.elapsed().as_secs_f64() * 1.0e6 / (ROUNDS * cases.len()) as f64
}

pub type Work<'a, T> = (&'static str, &'a dyn Fn(&T));

/// The best time of each, taken in turn so that a slow moment of the machine
/// meets all.
pub fn best<T>(cases: &[T], works: &[Work<T>]) -> Column {
    let mut column: Column = works
        .iter()
        .map(|(name, _)| (*name, f64::INFINITY))
        .collect();
    for _ in 0..REPEATS {
        for ((_, best), (_, work)) in column.iter_mut().zip(works) {
            *best = best.min(microseconds(cases, work));
        }
    }
    column
}
