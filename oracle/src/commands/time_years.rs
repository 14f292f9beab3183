//! `time-years`: showings over a year file beside those over the pair of files of
//! the same month and model, in one run.

use super::timing::{best, sheets, LENGTHS, REPEATS, ROUTES};
use crate::draw::generator::Generator;
use crate::draw::year_files::{calm_year, packed, Parts, NO_GAPS};
use crate::model::desks::fields::{model, month, with_model, Inputs};
use crate::model::desks::lent::{Lent, Shown};
use crate::model::year::{of_model, of_month};
use crate::month_file::push_words;
use crate::port::ACCEPTED;
use crate::reference::sheets::{Figures, FIGURES};
use crate::reference::voacap::coefficients::F2_RECORD_BYTES;
use jutetrowel::raw::{self, Showing, WORKSHEET_WORDS};
use std::hint::black_box;

/// What a showing over a year may take of what one over a pair takes.
const LIMIT: f64 = 1.03;

pub fn run() -> Result<(), String> {
    let parts = calm_year(&mut Generator::new(905));
    let year = packed(&parts, &NO_GAPS);
    println!("microseconds for a showing, best of {REPEATS} runs over {ROUTES} routes");
    println!("{:<10}{:>9}{:>9}{:>8}", "points", "pair", "year", "ratio");
    for length in LENGTHS {
        let cases: Vec<Case> = (0..)
            .zip(sheets(length))
            .map(|(i, sheet)| Case::of(with_model(sheet.words(), i % 2), &parts))
            .collect();
        assert_alike(&cases, &year);
        let over_pair = |case: &Case| show(|out| case.over_pair(out));
        let over_year = |case: &Case| show(|out| case.over_year(&year, out));
        let column = best(&cases, &[("pair", &over_pair), ("year", &over_year)]);
        let [pair, year] = [column[0].1, column[1].1];
        let (points, ratio) = (length.0, year / pair);
        println!("{points:<10}{pair:>9.2}{year:>9.2}{ratio:>8.3}");
    }
    println!("{LIMIT} is the limit");
    Ok(())
}

/// An opened worksheet, and copies of its parts as a pair of files.
struct Case {
    inputs: Inputs,
    sheet: [u32; WORKSHEET_WORDS],
    record: Vec<u8>,
    file: Vec<u8>,
}

impl Case {
    fn of(inputs: Inputs, parts: &Parts) -> Self {
        let mut words = Vec::new();
        push_words(&mut words, &inputs);
        let mut sheet = [0; WORKSHEET_WORDS];
        assert_eq!(raw::open(&words, &mut sheet), ACCEPTED);
        let mut records = parts[of_model(model(&inputs))].chunks(F2_RECORD_BYTES);
        let record = records.nth(of_month(month(&inputs)));
        Self {
            inputs,
            sheet,
            record: record.expect("a whole year").to_vec(),
            file: parts[of_month(month(&inputs))].clone(),
        }
    }

    fn over_pair(&self, out: &mut [f32]) -> Showing {
        raw::show(&self.sheet, 0, &self.record, &self.file, out)
    }

    fn over_year(&self, year: &[u8], out: &mut [f32]) -> Showing {
        raw::show_year(&self.sheet, 0, year, out)
    }
}

fn show(showing: impl Fn(&mut [f32]) -> Showing) {
    let mut out = [0.0; FIGURES];
    black_box(showing(&mut out));
    black_box(out);
}

/// Times of wrong answers would be worth nothing.
fn assert_alike(cases: &[Case], year: &[u8]) {
    let lent = Lent::year(year);
    for case in cases {
        let wanted = lent.figures(&case.inputs, FIGURES).expect("a good year");
        assert_shown(&wanted, |out| case.over_pair(out));
        assert_shown(&wanted, |out| case.over_year(year, out));
    }
}

fn assert_shown(wanted: &Shown, showing: impl Fn(&mut [f32]) -> Showing) {
    let mut values = [0.0; FIGURES];
    let Showing { points, number, .. } = showing(&mut values);
    assert_eq!((points, number), (wanted.points, 0));
    assert!(Figures { points, values }.words() == wanted.words);
}
