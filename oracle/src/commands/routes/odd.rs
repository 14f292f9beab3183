//! Numbers outside document 01's ranges, and what is no number. No figures
//! are asked for there, but the functions are defined and both sides must
//! agree.

use super::Group;
use crate::draw::generator::Generator;
use crate::draw::route_kinds;
use crate::reference::routes::{end, Route};

pub fn groups() -> Vec<Group> {
    vec![
        ("outside the ranges", outside()),
        ("no numbers", no_numbers()),
        ("any bits", any_bits()),
    ]
}

/// Five points, three points, and one point that goes the long way round.
fn bases() -> [Route; 3] {
    [
        Route::new(end(51.5, -0.1), end(40.7, -74.0)),
        Route::new(end(48.2, 16.4), end(30.0, 31.2)),
        Route::new(end(-33.9, 151.2), end(-37.8, 145.0)).long_way(),
    ]
}

fn with(mut route: Route, field: usize, number: f32) -> Route {
    *route.numbers()[field] = number;
    route
}

/// Each number in each field; a field meets each of the bases.
fn in_each_field(numbers: &[f32]) -> Vec<Route> {
    let bases = bases();
    let mut routes = Vec::new();
    for (i, number) in numbers.iter().enumerate() {
        routes.extend((0..6).map(|field| with(bases[(i + field) % 3], field, *number)));
    }
    routes
}

/// The sines end at 1000 radians, near 57,295.78 degrees.
fn outside() -> Vec<Route> {
    let mut routes = in_each_field(&[
        90f32.next_up(),
        -135.0,
        180f32.next_up(),
        -270.0,
        57_295.0,
        -57_296.5,
        1.0e30,
    ]);
    // Cosines on both sides of 1e-7, which in the ranges are the poles'.
    for lat in [270.0, -270.0, 450.0] {
        routes.extend([0, 2].map(|field| with(bases()[0], field, lat)));
    }
    // The pole is passed, and by the moved receiver too.
    routes.push(Route::new(end(100.0, 20.0), end(100.0, 20.0)));
    routes.push(Route::new(end(-90.02, 20.0), end(-90.01, 20.0)));
    routes.push(Route::new(end(180.0, 540.0), end(-180.0, -540.0)).long_way());
    routes
}

fn no_numbers() -> Vec<Route> {
    let mut routes = in_each_field(&[
        f32::NAN,
        f32::INFINITY,
        f32::NEG_INFINITY,
        f32::MAX,
        -f32::from_bits(1),
    ]);
    // A signalling and a negative NaN.
    routes.push(with(bases()[0], 0, f32::from_bits(0x7f80_0001)));
    routes.push(with(bases()[1], 3, f32::from_bits(0xffc0_0000)));
    let nowhere = end(f32::NAN, f32::NAN);
    routes.push(Route::new(nowhere, nowhere));
    routes.push(Route::new(nowhere, nowhere).long_way());
    routes
}

fn any_bits() -> Vec<Route> {
    let mut random = Generator::new(0x6f64_6421);
    (0..20)
        .map(|_| route_kinds::any_bits(&mut random))
        .collect()
}
