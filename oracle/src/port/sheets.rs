//! The port's figures of a sheet from its fields, which nothing judges.

use crate::reference::sheets::Sheet;
use jutetrowel::raw::{self, Showing};

pub fn figures(sheet: &Sheet, record: &[u8], file: &[u8], out: &mut [f32]) -> Showing {
    figures_by(sheet.route.long.into(), sheet, record, file, out)
}

/// With this word as the flag; the route's own is not used.
pub fn figures_by(
    flag: u32,
    sheet: &Sheet,
    record: &[u8],
    file: &[u8],
    out: &mut [f32],
) -> Showing {
    let Sheet {
        month,
        ssn,
        gmt,
        route,
        psc: [e, f1, f2, es],
    } = *sheet;
    raw::figures(
        month,
        ssn,
        gmt,
        route.from.lat,
        route.from.lon,
        route.to.lat,
        route.to.lon,
        flag,
        e,
        f1,
        f2,
        es,
        route.pole.lat,
        route.pole.lon,
        record,
        file,
        out,
    )
}
