//! `time-hours`: the six maps at an hour on both sides, with every term and
//! harmonic, without harmonics, and with one term of each map. The port's times
//! hold the files' check and the blends, which are the same for all three, and
//! the Rust's do not: only what two rows differ in, the hour step, is comparable.

use crate::bits::words;
use crate::commands::growth::with_table;
use crate::commands::timing::{best, sheets, LENGTHS, REPEATS, ROUTES};
use crate::draw::data_files::ladders::{flat, single, USUAL};
use crate::draw::data_files::{named, Pair};
use crate::model::index_check::IndexTable;
use crate::port::{layers as port, ACCEPTED};
use crate::reference::files::read;
use crate::reference::sheets::{put_all_months, Sheet};
use crate::reference::voacap::ionosphere::{cofion, virtim};
use std::hint::black_box;

pub const KINDS: [&str; 3] = ["every harmonic", "no harmonic", "one term"];

fn table(kind: &str) -> Option<IndexTable> {
    let tables = [USUAL, flat(), single()];
    let found = KINDS
        .into_iter()
        .zip(tables)
        .find(|(name, _)| *name == kind);
    found.map(|(_, table)| table)
}

/// Sunspot number and hour are the sheet's.
pub struct Case {
    sheet: Sheet,
    cof: Vec<f32>,
}

pub struct Hours {
    pub cases: Vec<Case>,
    pair: Pair,
    table: IndexTable,
}

impl Hours {
    pub fn of(kind: &str) -> Option<Self> {
        let table = table(kind)?;
        let [(_, pair), ..] = named();
        let pair = with_table(pair, &table);
        put_all_months(&pair.daw, &pair.month);
        let case = |sheet: Sheet| {
            let set = read(sheet.month, sheet.ssn).expect("both files are good");
            let cof = cofion(&set);
            Case { sheet, cof }
        };
        let hours = Self {
            cases: sheets(LENGTHS[0]).into_iter().map(case).collect(),
            pair,
            table,
        };
        hours.cases.iter().for_each(|case| hours.assert_alike(case));
        Some(hours)
    }

    pub fn port(&self, case: &Case) {
        black_box(self.by_port(case));
    }

    fn by_port(&self, case: &Case) -> [f32; 318] {
        let Pair { daw, month } = &self.pair;
        let mut ab = [0.0; 318];
        assert_eq!(port::hour_maps(&case.sheet, daw, month, &mut ab), ACCEPTED);
        ab
    }

    /// From coefficients that are blended already.
    pub fn rust(&self, case: &Case) {
        black_box(virtim(&case.cof, &self.table, case.sheet.gmt));
    }

    /// Times of wrong answers would be worth nothing.
    fn assert_alike(&self, case: &Case) {
        let wanted = virtim(&case.cof, &self.table, case.sheet.gmt);
        assert_eq!(words(self.by_port(case)), words(wanted));
    }
}

pub fn run() -> Result<(), String> {
    println!("microseconds for the maps at an hour, best of {REPEATS} runs over {ROUTES} hours");
    println!("{:<44}{:>9}{:>9}", "", "port", "Rust");
    let times = KINDS.map(|kind| {
        let hours = Hours::of(kind).expect("a kind of table");
        let port = |case: &Case| hours.port(case);
        let rust = |case: &Case| hours.rust(case);
        let column = best(&hours.cases, &[("port", &port), ("Rust", &rust)]);
        [column[0].1, column[1].1]
    });
    for (kind, [port, rust]) in KINDS.into_iter().zip(times) {
        println!("{kind:<44}{port:>9.3}{rust:>9.3}");
    }
    for (more, less) in [(0, 2), (1, 2), (0, 1)] {
        let name = format!("{} less {}", KINDS[more], KINDS[less]);
        let [port, rust] = [0, 1].map(|side| times[more][side] - times[less][side]);
        println!("{name:<44}{port:>9.3}{rust:>9.3}");
    }
    Ok(())
}
