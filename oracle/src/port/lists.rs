//! The port's worksheet calls over 96 lent words.

use crate::model::desks::library::{Desks, Files, Told};
use crate::model::desks::words::Words;
use crate::model::desks::{Call, Edit};
use jutetrowel::raw::{self, Answer, Showing};

impl From<Answer> for Told {
    fn from(Answer { number, place }: Answer) -> Self {
        Self {
            points: 0,
            number,
            place,
        }
    }
}

impl From<Showing> for Told {
    fn from(showing: Showing) -> Self {
        let Showing {
            points,
            number,
            place,
        } = showing;
        Self {
            points,
            number,
            place,
        }
    }
}

pub struct Library;

impl Desks for Library {
    fn open(&self, inputs: &[u8], sheet: &mut Words) -> Told {
        raw::open(inputs, sheet).into()
    }

    fn call(&self, sheet: &mut Words, call: &Call, files: &Files, out: &mut [f32]) -> Told {
        match call {
            Call::Begin(desk) => raw::jt_begin(sheet, *desk).into(),
            Call::Change(desk, edit) => change(sheet, *desk, edit).into(),
            Call::Commit(desk) => raw::jt_commit(sheet, *desk).into(),
            Call::Cancel(desk) => raw::jt_cancel(sheet, *desk).into(),
            Call::TakeBack => raw::jt_take_back(sheet).into(),
            Call::Show(desk, _) => match files {
                Files::Pair(pair) => raw::show(sheet, *desk, &pair.daw, &pair.month, out).into(),
                Files::Year(year) => raw::show_year(sheet, *desk, year, out).into(),
            },
        }
    }
}

fn change(sheet: &mut Words, desk: u32, edit: &Edit) -> Answer {
    let four = |words: [u32; 4]| words.map(f32::from_bits);
    match *edit {
        Edit::Sunspots(ssn) => raw::jt_change_sunspot(sheet, desk, f32::from_bits(ssn)),
        Edit::Hour(gmt) => raw::jt_change_hour(sheet, desk, f32::from_bits(gmt)),
        Edit::Path { ends, flag } => {
            let [tlat, tlong, rlat, rlong] = four(ends);
            raw::jt_change_path(sheet, desk, tlat, tlong, rlat, rlong, flag)
        }
        Edit::Factors(factors) => {
            let [e, f1, f2, es] = four(factors);
            raw::jt_change_factors(sheet, desk, e, f1, f2, es)
        }
        Edit::Pole(pole) => {
            let [lat, lon] = pole.map(f32::from_bits);
            raw::jt_change_pole(sheet, desk, lat, lon)
        }
        Edit::Month(month) => raw::jt_change_month(sheet, desk, month),
        Edit::Model(model) => raw::jt_change_model(sheet, desk, model),
    }
}
