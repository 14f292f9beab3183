//! Routes looked for among many: those nearest to a limit that the inputs do
//! not show, and those that take a branch which others seldom take.

use super::Group;
use crate::draw::generator::Generator;
use crate::draw::route_kinds::{between, of_any_kind, opposite, ONE_POINT, THREE_POINTS};
use crate::reference::branches::Side;
use crate::reference::routes::{end, plain, trail, End, Path, Route};
use crate::reference::voacap::con::{PI, PIO2, R2D, RZ};
use crate::reference::voacap::magnetic::RD;
use std::collections::{HashMap, HashSet};

const SEED: u64 = 0x6e65_6172;
const DRAWS: usize = 3000;
/// How many routes are taken from each side of a limit, and at it.
const EACH: usize = 7;
/// How many routes shall take each two sides in turn.
const ENOUGH: usize = 4;

pub fn groups() -> Vec<Group> {
    vec![
        ("both sides of 2000.01 km", around_distance(1, ONE_POINT)),
        ("both sides of 4000 km", around_distance(2, THREE_POINTS)),
        ("point 5 half round the world", around_half(3, 5)),
        ("point 4 half round the world", around_half(4, 4)),
        ("points at and near a pole", polar_points(5)),
        ("points both sides of 89.9", polar_cap_points(6)),
        ("points at the date line", date_line_points(7)),
        ("points at a pole of the field", field_pole_points(8)),
    ]
}

/// The routes whose `key` is nearest below, at and nearest above the limit.
fn nearest(limit: f32, routes: Vec<Route>, key: impl Fn(&Path) -> f32) -> Vec<Route> {
    let off = |route: &Route| key(&plain(route)) - limit;
    let mut sides = [Vec::new(), Vec::new(), Vec::new()];
    for route in routes {
        let off = off(&route);
        let side = usize::from(off >= 0.0) + usize::from(off > 0.0);
        sides[side].push((off.abs(), route));
    }
    for side in &mut sides {
        side.sort_by(|(a, _), (b, _)| a.total_cmp(b));
        side.truncate(EACH);
    }
    sides.concat().into_iter().map(|(_, route)| route).collect()
}

fn many(seed: u64, draw: impl Fn(&mut Generator) -> Route) -> Vec<Route> {
    let mut random = Generator::new(SEED + seed);
    (0..DRAWS).map(|_| draw(&mut random)).collect()
}

fn around_distance(seed: u64, kilometres: f32) -> Vec<Route> {
    let middle = f64::from(kilometres);
    let draw = |random: &mut Generator| between(random, middle - 0.02, middle + 0.02);
    nearest(kilometres, many(seed, draw), |path| path.figures[1])
}

/// The long way, where this point comes to lie at the Rust's pi from the
/// transmitter: 1000 km before the receiver, or 2000.
fn around_half(seed: u64, point: usize) -> Vec<Route> {
    let before = f64::from(RZ) * f64::from(PI) - 1000.0 * (6 - point) as f64;
    let draw = |random: &mut Generator| between(random, before - 0.02, before + 0.02).long_way();
    nearest(PI, many(seed, draw), |path| {
        path.figures[6 + 7 * (point - 1)]
    })
}

/// The latitude nearest to a pole, of whatever point.
fn most_polar(path: &Path) -> f32 {
    let sizes = path.rows().map(|row| row[1].abs());
    sizes.fold(0.0, f32::max)
}

/// Nothing is above PIO2, and nothing between it and the next answer of acos.
fn polar_points(seed: u64) -> Vec<Route> {
    nearest(PIO2, many(seed, over_a_pole), most_polar)
}

/// The midpoint at the pole, or the point 1000 or 2000 km from the start.
fn over_a_pole(random: &mut Generator) -> Route {
    let sign = random.sign() as f32;
    let lat = match random.below(3) {
        0 => random.uniform(40.0, 89.0),
        points => {
            let turn = 1000.0 * points as f64 / f64::from(RZ) * f64::from(R2D);
            90.0 - turn + random.uniform(-0.03, 0.03)
        }
    };
    let lat = lat as f32;
    let to = match random.below(2) {
        0 => lat,
        _ => random.uniform(-30.0, 60.0) as f32,
    };
    let lon = random.between(0, 180) as f32;
    Route::new(end(sign * lat, lon), end(sign * to, lon - 180.0))
}

/// Where the field is no longer taken at the point itself. From the pole the
/// points lie closer together, so those routes would be all of the nearest.
fn polar_cap_points(seed: u64) -> Vec<Route> {
    let around = many(seed, |random| beside_a_pole(random, false));
    let away = many(seed, |random| beside_a_pole(random, true));
    let mut routes = nearest(RD, around, most_polar);
    routes.extend(nearest(RD, away, most_polar));
    routes
}

/// The midpoint at 89.9 degrees: from the pole to 89.8, or between two places
/// at 89.8 that lie a third of a turn apart.
fn beside_a_pole(random: &mut Generator, from_the_pole: bool) -> Route {
    let sign = random.sign();
    let lat = (sign * random.uniform(89.795, 89.805)) as f32;
    let lon = random.between(-60, 180) as f32;
    let from = match from_the_pole {
        true => end(90.0 * sign as f32, 0.0),
        false => end(lat, lon - 120.0),
    };
    Route::new(from, end(lat, lon))
}

/// No longitude in degrees comes to the Rust's pi: 180 is above it, the one
/// before is below.
fn date_line_points(seed: u64) -> Vec<Route> {
    let most = |path: &Path| path.rows().map(|row| row[2].abs()).fold(0.0, f32::max);
    nearest(PI, many(seed, across_the_date_line), most)
}

/// The midpoint at the date line.
fn across_the_date_line(random: &mut Generator) -> Route {
    let lat = random.uniform(-80.0, 80.0) as f32;
    let lon = (random.sign() * random.uniform(140.0, 179.9)) as f32;
    Route::new(end(lat, lon), end(lat, -lon))
}

fn field_pole_points(seed: u64) -> Vec<Route> {
    let mut random = Generator::new(SEED + seed);
    (0..2 * EACH).map(|_| at_field_pole(&mut random)).collect()
}

/// A pole of the field at a point of the route, as near as degrees come.
fn at_field_pole(random: &mut Generator) -> Route {
    let route = of_any_kind(random);
    let path = plain(&route);
    let point = random.below(path.points.into()) as usize;
    let pole = path.rows().nth(point).map(degrees);
    match (pole, random.below(2)) {
        (Some(pole), 0) => route.with_pole(pole),
        (Some(pole), _) => route.with_pole(opposite(pole)),
        (None, _) => route,
    }
}

fn degrees(row: &[f32]) -> End {
    let in_range = |v: f32, most: f32| (v * R2D).clamp(-most, most);
    end(in_range(row[1], 90.0), in_range(row[2], 180.0))
}

/// Routes for what too few of the groups do: two sides of conditions taken one
/// after the other. What follows a clamp is the sign of what is clamped, so
/// both signs of each clamp are among them.
pub fn rare(groups: &[Group]) -> Vec<Route> {
    let mut tally = HashMap::new();
    for route in groups.iter().flat_map(|(_, routes)| routes) {
        helps(&mut tally, route);
    }
    let mut random = Generator::new(SEED);
    let mut routes = Vec::new();
    for _ in 0..DRAWS {
        for draw in [of_any_kind, over_a_pole, at_field_pole, side_by_side] {
            let route = draw(&mut random);
            if helps(&mut tally, &route) {
                routes.push(route);
            }
        }
    }
    routes
}

/// Just too far apart in longitude to be moved, where that is hardly a
/// distance. Elsewhere its cosine hardly ever comes out above 1.
fn side_by_side(random: &mut Generator) -> Route {
    let lat = (random.sign() * random.uniform(70.0, 90.0)) as f32;
    let lon = random.between(-180, 179) as f32;
    Route::new(end(lat, lon), end(lat, lon + 0.031))
}

/// Whether the route does something that too few have done; if so, it counts.
fn helps(tally: &mut HashMap<(Side, Side), usize>, route: &Route) -> bool {
    let sides = trail(route);
    let pairs: HashSet<(Side, Side)> = sides.windows(2).map(|pair| (pair[0], pair[1])).collect();
    let few = |pair| tally.get(pair).is_none_or(|count| *count < ENOUGH);
    let helps = pairs.iter().any(few);
    if helps {
        for pair in pairs {
            *tally.entry(pair).or_default() += 1;
        }
    }
    helps
}

#[cfg(test)]
mod tests {
    use super::{around_distance, ONE_POINT, THREE_POINTS};
    use crate::reference::routes::plain;
    use crate::reference::steps::Step;
    use crate::reference::voacap::con::RZ;

    /// Above 0.75 lie all cosines of distances up to 4600 km, and acos falls.
    #[test]
    fn no_distance_comes_to_a_limit() {
        for bits in 0.75f32.to_bits()..=1f32.to_bits() {
            let kilometres = f32::from_bits(bits).step_acos() * RZ;
            assert!(kilometres != ONE_POINT && kilometres != THREE_POINTS);
        }
    }

    #[test]
    fn distances_nearest_to_a_limit_are_found() {
        for (limit, below, above) in [
            (ONE_POINT, 0x44fa_004b, 0x44fa_0056),
            (THREE_POINTS, 0x4579_fffe, 0x457a_0001),
        ] {
            let routes = around_distance(0, limit);
            let found: Vec<u32> = routes.iter().map(|r| plain(r).words()[1]).collect();
            assert!(found.contains(&below) && found.contains(&above));
        }
    }
}
