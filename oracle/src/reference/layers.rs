//! The Rust side of the parts of a sheet by themselves: a path, the six maps
//! at an hour, the layers at a place.

use crate::reference::sheets::Sheet;
use crate::reference::voacap::coefficients::CoefficientSet;
use crate::reference::voacap::geometry::PathGeometry;
use crate::reference::voacap::ionosphere::{
    alatd, cofion, layer_parameters_at, virtim, LayerInputs, LayerParams,
};

/// The coefficients of the six maps at an hour.
pub type HourMaps = [f32; 318];

/// Latitude and longitude in radians.
pub type Place = [f32; 2];

/// `gcd`, `gcd_km`, `btr`, `brt`, `rlatd`, `alatd`, both bearings in degrees,
/// and the number of points.
pub fn measured(sheet: &Sheet) -> ([f32; 8], u32) {
    let path = sheet.path();
    let (btr_deg, brt_deg) = (path.btr_deg(), path.brt_deg());
    let PathGeometry {
        gcd,
        gcd_km,
        btr,
        brt,
        rlatd,
        points,
    } = path;
    let alatd = alatd(&points);
    let numbers = [gcd, gcd_km, btr, brt, rlatd, alatd, btr_deg, brt_deg];
    (numbers, points.len() as u32)
}

pub fn hour_maps(set: &CoefficientSet, gmt: f32) -> HourMaps {
    virtim(&cofion(set), &set.ikim, gmt)
}

/// The 16 numbers of the layers at a place, as a row of figures has them.
pub fn layers_at(sheet: &Sheet, set: &CoefficientSet, ab: &HourMaps, place: Place) -> [f32; 16] {
    let pole = sheet.route.magnetic_pole();
    let inputs = LayerInputs {
        set,
        month: sheet.month,
        ssn: sheet.ssn,
        gmt: sheet.gmt,
        psc: &sheet.psc,
    };
    let [lat, lon] = place;
    numbers(layer_parameters_at(inputs, ab, pole, lat, lon))
}

fn numbers(layers: LayerParams) -> [f32; 16] {
    let LayerParams {
        fi,
        yi,
        hi,
        f2m3,
        hpf2,
        rat,
        abiy,
        clck,
        zenang,
        zenmax,
    } = layers;
    in_a_row([fi, yi, hi], [f2m3, hpf2, rat, abiy, clck, zenang, zenmax])
}

/// `fi`, `yi` and `hi`, then the seven others.
pub fn in_a_row(threes: [[f32; 3]; 3], others: [f32; 7]) -> [f32; 16] {
    let mut numbers = [0.0; 16];
    for (part, three) in numbers.chunks_mut(3).zip(threes) {
        part.copy_from_slice(&three);
    }
    numbers[9..].copy_from_slice(&others);
    numbers
}
