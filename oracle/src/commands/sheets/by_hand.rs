//! Sheets chosen by hand: ends of the ranges, clocks, poles, midnight, and
//! fields that are no numbers.

use super::Group;
use crate::reference::routes::{end, End, Route};
use crate::reference::sheets::Sheet;

pub fn groups() -> Vec<Group> {
    vec![
        ("ends of the ranges", ends()),
        ("clocks", clocks()),
        ("poles", poles()),
        ("sun straight below", antisolar()),
    ]
}

fn sheet(month: u32, gmt: f32, from: End, to: End) -> Sheet {
    Sheet {
        month,
        ssn: 100.0,
        gmt,
        route: Route::new(from, to),
        psc: [1.0; 4],
    }
}

/// Every month, both ends of the other fields.
fn ends() -> Vec<Sheet> {
    let choose = |bit: u32, values: [f32; 2]| values[usize::from(bit & 1 == 1)];
    let ends = |n: u32| {
        let factor = choose(n >> 2, [0.125, 8.0]);
        let lat = choose(n >> 3, [-90.0, 90.0]);
        let lon = choose(n, [-180.0, 180.0]);
        let route = Route::new(end(51.5, lon), end(lat, -lon));
        Sheet {
            month: n % 12 + 1,
            ssn: choose(n, [0.0, 300.0]),
            gmt: choose(n >> 1, [0.0, 24.0]),
            route: route.with_pole(end(-lat, lon)),
            // One factor at the other end.
            psc: std::array::from_fn(|i| {
                if i as u32 == n % 4 {
                    1.0 / factor
                } else {
                    factor
                }
            }),
        }
    };
    (0..24).map(ends).collect()
}

/// A transmitter at the pole puts its points at the receiver's longitude, so
/// that clocks of 0, 12 and 24 come out as they are.
fn clocks() -> Vec<Sheet> {
    let mut sheets = Vec::new();
    for (gmt, lon) in [
        (0.0, 0.0),
        (0.0, -0.0),
        (12.0, 0.0),
        (24.0, 0.0),
        (0.0, 180.0),
        (0.0, -180.0),
        (12.0, 180.0),
        (12.0, -180.0),
        (24.0, 180.0),
        (24.0, -180.0),
        (6.0, -90.0),
        (6.0, 90.0),
        (18.0, 90.0),
    ] {
        sheets.push(sheet(9, gmt, end(90.0, 0.0), end(78.0, lon)));
    }
    sheets.push(sheet(2, 12.0, end(10.0, 0.0), end(-3.0, 0.0)));
    sheets
}

fn poles() -> Vec<Sheet> {
    let north = end(90.0, 0.0);
    let south = end(-90.0, 0.0);
    let mut sheets = vec![
        sheet(6, 3.0, north, south),
        sheet(12, 3.0, south, north),
        sheet(6, 15.0, north, end(45.0, -100.0)),
        sheet(12, 15.0, end(-45.0, 100.0), south),
        sheet(3, 9.0, north, north),
        sheet(3, 9.0, end(80.0, 10.0), end(80.0, -170.0)),
    ];
    let long = |sheet: &Sheet| Sheet {
        route: sheet.route.long_way(),
        ..*sheet
    };
    let others: Vec<Sheet> = sheets[..3].iter().map(long).collect();
    sheets.extend(others);
    // East longitudes below 0, which only come from outside the ranges.
    sheets.push(sheet(3, 9.0, north, end(10.0, -540.0)));
    sheets.push(sheet(3, 9.0, south, end(10.0, -1000.0)));
    sheets
}

/// Midnight with the sun straight below. In March and April the cosine comes
/// out below -1, so that the zenith angle is NaN with every field in range.
fn antisolar() -> Vec<Sheet> {
    let mut sheets = Vec::new();
    for (month, from, to) in [
        (3, 0.8715151, -9.303634),
        (3, -2.6437414, -5.7900305),
        (4, -11.0781765, -18.56968),
        (4, -10.415522, -19.240395),
        (9, 14.2, -0.6),
        (12, 28.0, 18.9),
    ] {
        sheets.push(sheet(month, 0.0, end(from, 0.0), end(to, 0.0)));
    }
    sheets
}

/// Each of the twelve numbers, with one, three and five points in turn.
pub fn no_numbers() -> Group {
    let bases = [
        sheet(5, 14.5, end(51.5, -0.1), end(40.7, -74.0)),
        sheet(10, 4.0, end(48.2, 16.4), end(30.0, 31.2)),
        sheet(1, 21.0, end(-33.9, 151.2), end(-37.8, 145.0)),
    ];
    let values = [
        f32::NAN,
        f32::INFINITY,
        f32::NEG_INFINITY,
        -1.0e10,
        -0.0,
        // A signalling NaN.
        f32::from_bits(0x7f80_0001),
    ];
    let mut sheets = Vec::new();
    for (i, value) in values.into_iter().enumerate() {
        for number in 0..12 {
            sheets.push(with(bases[(i + number) % 3], number, value));
        }
    }
    ("no numbers", sheets)
}

pub fn with(mut sheet: Sheet, number: usize, value: f32) -> Sheet {
    *sheet.numbers()[number] = value;
    sheet
}
