//! The parts of the port's sheets by themselves.

use crate::reference::layers::{in_a_row, HourMaps, Place};
use crate::reference::routes::Route;
use crate::reference::sheets::Sheet;
use jutetrowel::raw::{self, Answer, Layers, Measured};

/// A flag that is not 0 is the long way round; the route's own is not used.
pub fn path(route: &Route, flag: u32) -> ([f32; 8], u32) {
    let Route { from, to, pole, .. } = route;
    let Measured {
        gcd,
        gcd_km,
        btr,
        brt,
        rlatd,
        alatd,
        btr_deg,
        brt_deg,
        points,
    } = raw::jt_path(from.lat, from.lon, to.lat, to.lon, flag, pole.lat, pole.lon);
    let numbers = [gcd, gcd_km, btr, brt, rlatd, alatd, btr_deg, brt_deg];
    (numbers, points)
}

pub fn hour_maps(sheet: &Sheet, record: &[u8], file: &[u8], ab: &mut HourMaps) -> Answer {
    raw::hour_maps(record, file, sheet.ssn, sheet.gmt, ab)
}

/// The 16 numbers of the layers at a place, as a row of figures has them.
pub fn layers_at(sheet: &Sheet, ab: &HourMaps, file: &[u8], place: Place) -> (Answer, [f32; 16]) {
    let Sheet {
        month,
        ssn,
        gmt,
        route,
        psc: [e, f1, f2, es],
    } = *sheet;
    let [lat, lon] = place;
    let Layers {
        number,
        place,
        fi,
        yi,
        hi,
        f2m3,
        hpf2,
        rat,
        abiy,
        clck,
        zenang,
        zenmax,
    } = raw::layers_at(
        month,
        ssn,
        gmt,
        e,
        f1,
        f2,
        es,
        ab,
        file,
        route.pole.lat,
        route.pole.lon,
        lat,
        lon,
    );
    let others = [f2m3, hpf2, rat, abiy, clck, zenang, zenmax];
    let numbers = in_a_row([fi, yi, hi], others);
    (Answer { number, place }, numbers)
}
