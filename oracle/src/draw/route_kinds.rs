//! Random routes of several kinds, with numbers in document 01's ranges
//! unless said otherwise. Angles are worked with the steps, so that the
//! routes are the same on every machine.

use crate::draw::generator::Generator;
use crate::reference::routes::{end, End, Route};
use crate::reference::steps::{acos, cos, sin, HALF_PI};
use crate::reference::voacap::con::RZ;

/// Distances at which the number of points changes.
pub const ONE_POINT: f32 = 2000.01;
pub const THREE_POINTS: f32 = 4000.0;

const DEGREE: f64 = HALF_PI / 90.0;

pub type Draw = fn(&mut Generator) -> Route;

pub const KINDS: [(&str, Draw); 8] = [
    ("anywhere", anywhere),
    ("close ends", close),
    ("near antipodes", near_antipodes),
    ("near poles", near_poles),
    ("whole degrees", whole_degrees),
    ("one great meridian", one_meridian),
    ("around 2000.01 km", |random| around(random, ONE_POINT)),
    ("around 4000 km", |random| around(random, THREE_POINTS)),
];

pub fn of_any_kind(random: &mut Generator) -> Route {
    let (_, draw) = KINDS[random.below(KINDS.len() as u64) as usize];
    draw(random)
}

/// A route of the kind of this name.
pub fn of_kind(name: &str, random: &mut Generator) -> Route {
    let kind = KINDS.iter().find(|(kind, _)| *kind == name);
    let (_, draw) = kind.unwrap_or_else(|| panic!("no kind of route {name}"));
    draw(random)
}

/// One or more of the six numbers of a route replaced by any bits.
pub fn any_bits(random: &mut Generator) -> Route {
    let mut route = of_any_kind(random);
    let chosen = 1 + random.below(63);
    for (i, number) in route.numbers().into_iter().enumerate() {
        if chosen >> i & 1 == 1 {
            *number = random.any_number();
        }
    }
    route
}

pub fn any_end(random: &mut Generator) -> End {
    let lat = random.uniform(-90.0, 90.0);
    near_end(lat, random.uniform(-180.0, 180.0))
}

/// The end nearest these degrees, inside the ranges.
fn near_end(lat: f64, lon: f64) -> End {
    end(
        lat.clamp(-90.0, 90.0) as f32,
        lon.clamp(-180.0, 180.0) as f32,
    )
}

/// Both ways round, half of them with the built-in pole.
fn finished(random: &mut Generator, from: End, to: End) -> Route {
    let route = Route::new(from, to);
    let route = match random.below(8) {
        0 => route.with_pole(end(90.0, 0.0)),
        1 => route.with_pole(end(-90.0, 0.0)),
        2 | 3 => route.with_pole(any_end(random)),
        _ => route,
    };
    match random.below(3) {
        0 => route.long_way(),
        _ => route,
    }
}

fn anywhere(random: &mut Generator) -> Route {
    let (from, to) = (any_end(random), any_end(random));
    finished(random, from, to)
}

/// Either number of the second end may stay the same.
fn close(random: &mut Generator) -> Route {
    let from = match random.below(3) {
        0 => whole_end(random),
        _ => any_end(random),
    };
    let to = beside(random, from);
    finished(random, from, to)
}

/// At most a degree off, often by much less.
fn beside(random: &mut Generator, end: End) -> End {
    let lat = f64::from(end.lat) + moved(random);
    near_end(lat, f64::from(end.lon) + moved(random))
}

fn moved(random: &mut Generator) -> f64 {
    match random.below(4) {
        0 => 0.0,
        // Around the least distance that the Rust keeps ends apart.
        1 => random.sign() * 0.03,
        _ => random.sign() * random.scaled(-20, -1),
    }
}

fn near_antipodes(random: &mut Generator) -> Route {
    let from = match random.below(3) {
        0 => whole_end(random),
        _ => any_end(random),
    };
    let to = beside(random, opposite(from));
    finished(random, from, to)
}

pub fn opposite(from: End) -> End {
    let turn = if from.lon > 0.0 { -180.0 } else { 180.0 };
    end(-from.lat, from.lon + turn)
}

/// One end or both, from many degrees down to the pole itself.
fn near_poles(random: &mut Generator) -> Route {
    let near = polar_end(random);
    let other = match random.below(3) {
        0 => any_end(random),
        1 => polar_end(random),
        _ => end(near.lat, any_end(random).lon),
    };
    match random.below(2) {
        0 => finished(random, near, other),
        _ => finished(random, other, near),
    }
}

fn polar_end(random: &mut Generator) -> End {
    let off = match random.below(4) {
        0 => 0.0,
        1 => random.between(0, 4) as f64 * 7.63e-6,
        2 => 0.1 + random.between(-2, 2) as f64 * 7.63e-6,
        _ => random.scaled(-18, 4),
    };
    near_end(
        random.sign() * (90.0 - off),
        random.uniform(-180.0, 180.0).round(),
    )
}

fn whole_degrees(random: &mut Generator) -> Route {
    let (from, to) = (whole_end(random), whole_end(random));
    finished(random, from, to)
}

fn whole_end(random: &mut Generator) -> End {
    let lat = whole_number(random, 2);
    end(lat, whole_number(random, 4))
}

/// At most so many times 45 in size, one in four a multiple of 45; 0 comes
/// with either sign.
fn whole_number(random: &mut Generator, most: i64) -> f32 {
    let size = match random.below(4) {
        0 => 45 * random.between(0, most),
        _ => random.between(0, 45 * most),
    };
    random.sign() as f32 * size as f32
}

/// Equal or opposite longitudes, so that cosines come near 1 and points
/// near poles.
fn one_meridian(random: &mut Generator) -> Route {
    let from = match random.below(2) {
        0 => whole_end(random),
        _ => any_end(random),
    };
    let lat = match random.below(3) {
        0 => from.lat,
        1 => whole_end(random).lat,
        _ => any_end(random).lat,
    };
    let lon = match random.below(2) {
        0 => from.lon,
        _ => opposite(from).lon,
    };
    finished(random, from, end(lat, lon))
}

/// A few metres around a distance.
fn around(random: &mut Generator, kilometres: f32) -> Route {
    let from = any_end(random);
    let off = random.sign() * random.scaled(-12, -7);
    let to = away(random, from, f64::from(kilometres) + off);
    finished(random, from, to)
}

/// Between two distances, the short way.
pub fn between(random: &mut Generator, low: f64, high: f64) -> Route {
    let from = any_end(random);
    let kilometres = random.uniform(low, high);
    Route::new(from, away(random, from, kilometres))
}

/// The end at this distance, in any direction.
fn away(random: &mut Generator, from: End, kilometres: f64) -> End {
    let angle = kilometres / f64::from(RZ);
    let lat = f64::from(from.lat) * DEGREE;
    let sine =
        sin(lat) * cos(angle) + cos(lat) * sin(angle) * cos(random.uniform(0.0, 2.0 * HALF_PI));
    let far = HALF_PI - acos(sine.clamp(-1.0, 1.0));
    let turn = (cos(angle) - sin(lat) * sine) / (cos(lat) * cos(far));
    let lon = f64::from(from.lon) + random.sign() * acos(turn.clamp(-1.0, 1.0)) / DEGREE;
    near_end(far / DEGREE, within_half_turn(lon))
}

fn within_half_turn(lon: f64) -> f64 {
    match lon {
        180.0.. => lon - 360.0,
        ..-180.0 => lon + 360.0,
        _ => lon,
    }
}

#[cfg(test)]
mod tests {
    use super::{of_any_kind, KINDS};
    use crate::draw::generator::Generator;
    use crate::reference::routes::{plain, End, Route};

    fn in_range(End { lat, lon }: End) -> bool {
        lat.abs() <= 90.0 && lon.abs() <= 180.0
    }

    #[test]
    fn every_kind_stays_in_the_ranges() {
        let mut random = Generator::new(1);
        for (name, draw) in KINDS {
            for _ in 0..1000 {
                let Route { from, to, pole, .. } = draw(&mut random);
                let fine = in_range(from) && in_range(to) && in_range(pole);
                assert!(fine, "{name}: {from:?} {to:?} {pole:?}");
            }
        }
    }

    #[test]
    fn routes_in_the_ranges_give_no_nan() {
        let mut random = Generator::new(2);
        for _ in 0..10_000 {
            let route = of_any_kind(&mut random);
            let path = plain(&route);
            assert!(path.figures.iter().all(|v| v.is_finite()), "{route:?}");
        }
    }
}
