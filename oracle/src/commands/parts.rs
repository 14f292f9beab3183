//! One part of a sheet by one side, over what the other parts have made
//! before, for the commands that time it or count its instructions.

use super::sides::Sides;
use crate::draw::data_files::Pair;
use crate::port::{layers as port, ACCEPTED};
use crate::reference::files::read;
use crate::reference::layers::{hour_maps, layers_at, measured, HourMaps, Place};
use crate::reference::sheets::Sheet;
use crate::reference::voacap::coefficients::{parse_month_file, CoefficientSet};
use jutetrowel::raw;
use std::hint::black_box;

#[derive(Clone, Copy)]
pub enum Part {
    MonthFile,
    Blends,
    HourMaps,
    Path,
    Layers,
}

impl Part {
    pub const ALL: [(&'static str, Self); 5] = [
        ("month file", Self::MonthFile),
        ("blends", Self::Blends),
        ("maps at an hour", Self::HourMaps),
        ("path", Self::Path),
        ("layers at a place", Self::Layers),
    ];

    pub fn named(name: &str) -> Option<Self> {
        let found = Self::ALL.into_iter().find(|(other, _)| *other == name);
        found.map(|(_, part)| part)
    }
}

/// What a part starts from.
pub struct Prepared {
    sheet: Sheet,
    set: CoefficientSet,
    ab: HourMaps,
    place: Place,
}

pub struct Parts {
    pub cases: Vec<Prepared>,
    pair: Pair,
}

impl Parts {
    /// Also puts the files, from which the Rust reads.
    pub fn of(pair: Pair) -> Self {
        let sheets = Sides::whole(pair.clone(), 5).expect("five points").cases;
        let prepare = |sheet: Sheet| {
            let set = read(sheet.month, sheet.ssn).expect("both files are good");
            let ab = hour_maps(&set, sheet.gmt);
            let point = sheet.path().points[0];
            Prepared {
                sheet,
                set,
                ab,
                place: [point.lat, point.lon],
            }
        };
        Self {
            cases: sheets.iter().map(|case| prepare(case.sheet)).collect(),
            pair,
        }
    }

    pub fn port(&self, part: Part, case: &Prepared) {
        let Pair { daw, month } = &self.pair;
        let Prepared { sheet, .. } = case;
        match part {
            Part::MonthFile => assert_eq!(raw::file_check(black_box(month)), ACCEPTED),
            Part::Blends => {
                let (mut cof, mut hmym) = ([0.0; 2604], [0.0; 464]);
                assert_eq!(raw::cofion(daw, month, sheet.ssn, &mut cof), ACCEPTED);
                assert_eq!(raw::hmym(month, sheet.ssn, &mut hmym), ACCEPTED);
                black_box((cof, hmym));
            }
            Part::HourMaps => {
                let mut ab = [0.0; 318];
                assert_eq!(port::hour_maps(sheet, daw, month, &mut ab), ACCEPTED);
                black_box(ab);
            }
            Part::Path => {
                black_box(port::path(&sheet.route, sheet.route.long.into()));
            }
            Part::Layers => {
                let (answer, numbers) = port::layers_at(sheet, &case.ab, month, case.place);
                assert_eq!(answer, ACCEPTED);
                black_box(numbers);
            }
        }
    }

    pub fn rust(&self, part: Part, case: &Prepared) {
        let Prepared { sheet, set, ab, .. } = case;
        match part {
            Part::MonthFile => {
                black_box(parse_month_file(&self.pair.month, "month")).ok();
            }
            Part::Blends => {
                black_box(read(sheet.month, sheet.ssn)).ok();
            }
            Part::HourMaps => {
                let set = read(sheet.month, sheet.ssn).expect("both files are good");
                black_box(hour_maps(&set, sheet.gmt));
            }
            Part::Path => {
                black_box(measured(sheet));
            }
            Part::Layers => {
                black_box(layers_at(sheet, set, ab, case.place));
            }
        }
    }
}
