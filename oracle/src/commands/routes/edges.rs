//! Routes chosen by hand: ends, places and differences at which the Rust
//! turns to another branch, and their neighbours.

use super::Group;
use crate::draw::route_kinds::opposite;
use crate::reference::routes::{end, End, Route};

pub fn groups() -> Vec<Group> {
    vec![
        ("ends at the poles", poles()),
        ("both sides of 89.9 degrees", polar_caps()),
        ("steps from a pole", steps_from_a_pole()),
        ("both ends at a pole", one_pole()),
        ("ends on one another", coincident()),
        ("both sides of 0.03 in latitude", least_latitude()),
        ("both sides of 0.03 in longitude", least_longitude()),
        ("antipodes", antipodes()),
        ("date line", date_line()),
        ("half a turn of longitude", half_turn()),
        ("one meridian", meridians()),
        ("equator", equator()),
        ("Greenwich", greenwich()),
        ("poles of the field", field_poles()),
    ]
}

fn both_ways(routes: Vec<Route>) -> Vec<Route> {
    let both = |route: Route| [route, route.long_way()];
    routes.into_iter().flat_map(both).collect()
}

fn there_and_back(a: End, b: End) -> [Route; 2] {
    [Route::new(a, b), Route::new(b, a)]
}

/// A number and its neighbours, for a number other than 0.
fn steps_around(v: f32) -> [f32; 3] {
    [v.next_down(), v, v.next_up()]
}

/// One, three and five points, the other pole, the pole itself.
fn poles() -> Vec<Route> {
    let mut routes = Vec::new();
    for (sign, lon) in [(1.0, -120.0), (-1.0, 77.5)] {
        let others = [
            end(90.0 * sign, 33.0),
            end(-90.0 * sign, 180.0),
            end(89.95 * sign, 10.0),
            end(81.5 * sign, 12.25),
            end(65.0 * sign, -70.5),
            end(-20.0 * sign, 100.0),
        ];
        for other in others {
            routes.extend(there_and_back(end(90.0 * sign, lon), other));
        }
    }
    both_ways(routes)
}

/// Above 89.9 degrees longitude is taken as 0.
fn polar_caps() -> Vec<Route> {
    let mut routes = Vec::new();
    for lat in steps_around(89.9) {
        for lat in [lat, -lat] {
            routes.extend(there_and_back(end(lat, -150.0), end(50.0, 100.0)));
        }
    }
    both_ways(routes)
}

/// Where the cosine of the latitude passes 1e-7.
fn steps_from_a_pole() -> Vec<Route> {
    let mut routes = Vec::new();
    let mut lat: f32 = 90.0;
    for _ in 0..4 {
        for lat in [lat, -lat] {
            routes.extend(there_and_back(end(lat, 20.0), end(60.0, -45.0)));
        }
        lat = lat.next_down();
    }
    both_ways(routes)
}

/// Too far apart in longitude to be moved, and still less than the least
/// distance from each other.
fn one_pole() -> Vec<Route> {
    let lats = [
        (90.0, 90.0),
        (-90.0, -90.0),
        (90.0, 90f32.next_down()),
        (-90f32.next_down(), -90.0),
        (90f32.next_down(), 90f32.next_down()),
    ];
    let route = |(a, b)| Route::new(end(a, 10.0), end(b, 20.0));
    both_ways(lats.map(route).to_vec())
}

/// The receiver is moved towards the side that its own sign decides.
fn coincident() -> Vec<Route> {
    let places = [
        end(0.0, 0.0),
        end(-0.0, -0.0),
        end(45.5, 100.25),
        end(-45.5, -100.25),
        end(90.0, 0.0),
        end(-90.0, 0.0),
        // 0.03 degrees off the edge of the polar caps.
        end(89.93, 20.0),
        end(-89.92, 20.0),
        end(12.3, 180.0),
        end(-12.3, -180.0),
    ];
    let mut routes: Vec<Route> = places.map(|place| Route::new(place, place)).to_vec();
    for (a, b) in [(0.0, -0.0), (0.01, -0.01), (0.02, -1.0e-40), (1.0, 1.02)] {
        routes.extend(there_and_back(end(a, 5.0), end(b, 5.02)));
    }
    both_ways(routes)
}

fn least_latitude() -> Vec<Route> {
    let mut routes = Vec::new();
    for start in [0.0, 0.015, 45.0, -45.0] {
        for off in [0.03, -0.03] {
            for lat in steps_around(start + off) {
                routes.push(Route::new(end(start, 20.0), end(lat, 20.0)));
            }
        }
    }
    routes
}

/// With equal latitudes, and with latitudes as far apart as they may be.
fn least_longitude() -> Vec<Route> {
    let mut routes = Vec::new();
    for start in [0.0, 100.0, -179.97] {
        for lon in [steps_around(start + 0.03), steps_around(start - 0.03)].concat() {
            routes.push(Route::new(end(30.0, start), end(30.0, lon)));
        }
    }
    for lon in steps_around(0.03) {
        routes.push(Route::new(end(0.0, 0.0), end(0.03, lon)));
        routes.push(Route::new(end(0.0, 0.0), end(-0.03, -lon)).long_way());
    }
    routes
}

fn antipodes() -> Vec<Route> {
    let places = [
        end(0.0, 0.0),
        end(0.0, 90.0),
        end(45.0, 45.0),
        end(-45.5, -100.25),
        end(89.9, 10.0),
        end(89.95, -10.0),
        end(30.0, -180.0),
        end(30.0, 180.0),
        end(-12.3456, 65.4321),
        end(78.5, -69.0),
    ];
    both_ways(
        places
            .map(|place| Route::new(place, opposite(place)))
            .to_vec(),
    )
}

fn date_line() -> Vec<Route> {
    let longitudes = [
        (180.0, -180.0),
        (180.0, 170.0),
        (-180.0, 170.0),
        (179.99, -179.99),
        (150.0, -90.0),
        (120.0, -160.0),
    ];
    let mut routes = Vec::new();
    for (a, b) in longitudes {
        routes.extend(there_and_back(end(50.5, a), end(35.25, b)));
        routes.push(Route::new(end(-10.0, -a), end(20.0, -b)));
    }
    both_ways(routes)
}

/// Differences of longitude next to the Rust's own pi.
fn half_turn() -> Vec<Route> {
    let mut routes = Vec::new();
    for lon in steps_around(90.0) {
        routes.push(Route::new(end(40.0, 90.0), end(-30.0, -lon)));
        routes.push(Route::new(end(40.0, -lon), end(-30.0, 90.0)));
        routes.push(Route::new(end(0.0, lon), end(0.0, -90.0)));
    }
    for lon in [180.0, 180f32.next_down(), -180.0, -180f32.next_down()] {
        routes.extend(there_and_back(end(25.0, 0.0), end(10.0, lon)));
    }
    both_ways(routes)
}

/// (-0) - 0 is -0, which counts as going west as little as 0 does.
fn meridians() -> Vec<Route> {
    let longitudes = [
        (0.0, 0.0),
        (-0.0, 0.0),
        (0.0, -0.0),
        (-0.0, -0.0),
        (77.7, 77.7),
        (-77.7, -77.7),
        (180.0, 180.0),
        (-180.0, -180.0),
        // Just below the Rust's own pi; 180 degrees are just above it.
        (180f32.next_down(), 180f32.next_down()),
        (-180f32.next_down(), -180f32.next_down()),
    ];
    let mut routes = Vec::new();
    for (a, b) in longitudes {
        routes.push(Route::new(end(10.0, a), end(40.0, b)));
        routes.push(Route::new(end(20.0, a), end(-60.0, b)));
    }
    both_ways(routes)
}

fn equator() -> Vec<Route> {
    let latitudes = [(0.0, 0.0), (0.0, -0.0), (-0.0, 0.0), (-0.0, 33.0)];
    let longitudes = [(10.0, 20.0), (20.0, -10.0), (-150.0, 100.0)];
    let mut routes = Vec::new();
    for (a, b) in latitudes {
        routes.extend(longitudes.map(|(c, d)| Route::new(end(a, c), end(b, d))));
    }
    both_ways(routes)
}

/// Where the east longitude jumps: lon below 0 has a turn added.
fn greenwich() -> Vec<Route> {
    let longitudes = [
        (-3.0, 3.0),
        (3.0, -3.5),
        (-20.0, 25.0),
        (40.0, -30.0),
        (-1.0e-6, -1.0e-6),
        (-1.0e-38, -1.0e-38),
        (1.0e-6, 1.0e-6),
    ];
    let route = |(a, b)| Route::new(end(50.0, a), end(48.0, b));
    both_ways(longitudes.map(route).to_vec())
}

fn field_poles() -> Vec<Route> {
    let poles = [
        end(90.0, 0.0),
        end(90.0, 180.0),
        end(-90.0, 0.0),
        end(-90.0, -69.0),
        end(0.0, 0.0),
        end(-0.0, -180.0),
        end(0.0, 180.0),
        end(-78.5, 111.0),
        end(45.0, 45.0),
        end(-33.3, -123.4),
    ];
    let mut routes = Vec::new();
    for pole in poles {
        routes.push(Route::new(end(51.5, 0.0), end(40.0, -74.0)).with_pole(pole));
        routes.push(Route::new(end(10.0, 20.0), end(-2.0, 35.0)).with_pole(pole));
        routes.push(
            Route::new(end(-60.0, -170.0), end(-70.0, 100.0))
                .with_pole(pole)
                .long_way(),
        );
    }
    routes
}
