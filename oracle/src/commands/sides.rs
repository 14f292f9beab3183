//! One sheet by one side, from the bytes of both files on, for the commands
//! that time it or count its instructions.

use super::timing::{sheets, LENGTHS};
use crate::draw::data_files::Pair;
use crate::month_file::{push_words, BYTES};
use crate::reference::files::{read, walk};
use crate::reference::sheets::{put_all_months, showing, Sheet, FIGURES};
use jutetrowel::raw::{self, Showing};
use std::hint::black_box;

/// A sheet, and its 14 words as the port takes them.
pub struct Case {
    pub sheet: Sheet,
    words: Vec<u8>,
}

impl Case {
    fn of(sheet: Sheet) -> Self {
        let mut words = Vec::new();
        push_words(&mut words, &sheet.words());
        Self { sheet, words }
    }
}

/// Usual sheets of one number of points on one pair of files.
pub struct Sides {
    pub cases: Vec<Case>,
    pair: Pair,
    refused: bool,
}

/// What is wrong with a month file.
#[derive(Clone, Copy)]
pub enum Wrong {
    /// The last marker, where all of the file has been read.
    Marker,
    /// It ends in the middle.
    Half,
}

impl Sides {
    /// The Rust finds the files that were put last: one of these at a time.
    pub fn whole(pair: Pair, points: u32) -> Option<Self> {
        let length = LENGTHS.into_iter().find(|length| length.0 == points)?;
        put_all_months(&pair.daw, &pair.month);
        Some(Self {
            cases: sheets(length).into_iter().map(Case::of).collect(),
            pair,
            refused: false,
        })
    }

    /// Five points, none of which is ever come to.
    pub fn refused(mut pair: Pair, wrong: Wrong) -> Option<Self> {
        match wrong {
            Wrong::Marker => pair.month[BYTES - 4] ^= 1,
            Wrong::Half => pair.month.truncate(BYTES / 2),
        }
        let whole = Self::whole(pair, 5)?;
        Some(Self {
            refused: true,
            ..whole
        })
    }

    pub fn port(&self, case: &Case) {
        let mut out = [0.0; FIGURES];
        black_box(self.port_showing(case, &mut out));
        black_box(out);
    }

    fn port_showing(&self, case: &Case, out: &mut [f32; FIGURES]) -> Showing {
        raw::sheet(&case.words, &self.pair.daw, &self.pair.month, out)
    }

    pub fn rust(&self, case: &Case) {
        if self.refused {
            black_box(read(case.sheet.month, case.sheet.ssn)).ok();
        } else {
            black_box(showing(&case.sheet));
        }
    }

    /// Times of wrong answers would be worth nothing.
    pub fn assert_alike(&self) {
        for case in &self.cases {
            let mut out = [0.0; FIGURES];
            let answer = self.port_showing(case, &mut out);
            let (number, place) = walk(&self.pair.month);
            assert_eq!((answer.number, answer.place), (number, place));
            assert_eq!(self.refused, number != 0);
            if !self.refused {
                let mut figures = showing(&case.sheet);
                assert_eq!(answer.points, figures.points);
                let wanted = figures.words();
                figures.values = out;
                assert!(figures.words() == wanted);
            }
        }
    }
}
