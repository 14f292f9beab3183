//! Sheets whose fields are printed in every way that a field can be.

use crate::model::desks::fields::{self, Inputs};

/// Routes of one, three and five points.
const ONE: [f32; 4] = [52.0, 4.0, 62.0, -7.0];
const THREE: [f32; 4] = [52.0, 4.0, 62.0, -40.0];
const FIVE: [f32; 4] = [60.0, 5.0, -30.0, 15.0];

/// The f32 nearest half a millionth, which is a little less.
const HALF: f32 = 5.0e-7;
/// 2^-7, which is 7,812.5 millionths.
const STEP: f32 = 0.007_812_5;

/// June at noon.
fn usual(route: [f32; 4], long: bool) -> Inputs {
    let [tlat, tlon, rlat, rlon] = route;
    let numbers = [
        70.0, 12.0, tlat, tlon, rlat, rlon, 1.0, 1.0, 1.0, 0.7, 78.5, -68.0,
    ];
    fields::inputs(6, numbers, long)
}

pub fn inputs() -> Vec<Inputs> {
    let mut all = Vec::new();
    for route in [ONE, THREE, FIVE] {
        all.push(usual(route, false));
        all.push(usual(route, true));
    }
    let numbers = [
        // Zeros, which keep their sign.
        [0.0, 0.0, 0.0, 0.0, 0.0, 0.0, 1.0, 1.0, 1.0, 1.0, 0.0, 0.0],
        [
            -0.0, -0.0, -0.0, -0.0, -0.0, -0.0, 1.0, 1.0, 1.0, 1.0, -0.0, -0.0,
        ],
        // Both ends of each range.
        [
            0.0, 0.0, -90.0, -180.0, -90.0, -180.0, 0.125, 0.125, 0.125, 0.125, -90.0, -180.0,
        ],
        [
            300.0, 24.0, 90.0, 180.0, 90.0, 180.0, 8.0, 8.0, 8.0, 8.0, 90.0, 180.0,
        ],
        // Too small for a millionth, and just not.
        [
            1.0e-45,
            4.0e-7,
            -1.0e-45,
            -4.0e-7,
            -1.0e-20,
            HALF.next_down(),
            1.0,
            1.0,
            1.0,
            1.0,
            -HALF.next_down(),
            -HALF,
        ],
        [
            HALF,
            HALF.next_up(),
            -HALF,
            -HALF.next_up(),
            1.0e-6,
            -1.0e-6,
            f32::next_up(0.125),
            f32::next_down(8.0),
            1.0,
            1.0,
            f32::next_down(1.0),
            f32::next_down(-1.0),
        ],
        // Half way between two numbers of millionths.
        [
            STEP,
            24.0 - STEP,
            3.0 * STEP,
            -STEP,
            -3.0 * STEP,
            180.0 - STEP,
            0.125 + STEP,
            0.125 + 3.0 * STEP,
            8.0 - STEP,
            8.0 - 3.0 * STEP,
            -90.0 + STEP,
            -180.0 + 3.0 * STEP,
        ],
        [
            299.0 + STEP,
            1.0 + 5.0 * STEP,
            -45.0 - STEP,
            -100.0 - 7.0 * STEP,
            0.5 + STEP,
            -0.5 - STEP,
            1.0 + STEP,
            2.0 + 3.0 * STEP,
            3.0 + 5.0 * STEP,
            4.0 + 7.0 * STEP,
            9.0 * STEP,
            -9.0 * STEP,
        ],
        // Nines that are carried to the point.
        [
            f32::next_down(300.0),
            f32::next_down(24.0),
            0.999_999_94,
            9.999_999,
            -0.999_999_94,
            -9.999_999,
            0.999_999_94,
            0.999_999_5,
            0.999_999_4,
            1.999_999_9,
            -89.999_99,
            -179.999_98,
        ],
    ];
    let months = [1, 12, 2, 11, 3, 10, 4, 9, 5];
    all.extend(months.into_iter().zip(numbers).map(|(month, numbers)| {
        let long = month % 4 == 3;
        fields::inputs(month, numbers, long)
    }));
    all
}

#[cfg(test)]
mod tests {
    use super::inputs;
    use crate::model::desks::Worksheet;

    #[test]
    fn all_are_in_range() {
        let refused = |inputs| Worksheet::open(inputs).is_err();
        assert!(!inputs().into_iter().any(refused));
    }
}
