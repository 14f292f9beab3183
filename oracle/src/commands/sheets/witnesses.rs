//! What the vectors must show beside the branches: limits met exactly, NaNs
//! that stop or go on, both operands of a `min` or `max`.

use crate::draw::sheet_kinds::is_in_range;
use crate::reference::sheets::{Figures, Sheet};
use crate::reference::voacap::coefficients::CoefficientSet;
use crate::reference::voacap::con::R2D;
use crate::reference::voacap::ionosphere::{noisy, DELZ};

/// One point of a sheet.
struct Point<'a> {
    sheet: &'a Sheet,
    set: &'a CoefficientSet,
    points: u32,
    row: &'a [f32],
}

impl Point<'_> {
    fn lat(&self) -> f32 {
        self.row[1]
    }

    /// Critical frequencies of E, F1 and F2.
    fn fi(&self) -> [f32; 3] {
        [self.row[7], self.row[8], self.row[9]]
    }

    fn f2_height(&self) -> f32 {
        self.row[15]
    }

    fn rat(&self) -> f32 {
        self.row[18]
    }

    fn clock(&self) -> f32 {
        self.row[20]
    }

    /// The clock before it is corrected, in the Rust's digits.
    #[allow(clippy::excessive_precision)]
    fn plain_clock(&self) -> f32 {
        self.sheet.gmt + self.row[2] / 0.261799387
    }

    fn zenith(&self) -> f32 {
        self.row[21]
    }

    fn zenmax(&self) -> f32 {
        self.row[22]
    }

    fn has_f1(&self) -> bool {
        self.zenith() <= self.zenmax()
    }

    /// The land-mass map, which the ground pair does not show.
    fn land(&self) -> f32 {
        let east = self.row[6] * R2D;
        let east = if east < 0.0 { east + 360.0 } else { east };
        noisy(
            &self.set.fakmap,
            &self.set.abmap[0],
            false,
            self.lat() * R2D,
            east,
        )
    }

    /// What the retardation of E and that of F1 would take if no less than 1.1
    /// were taken.
    fn ratios(&self) -> [f32; 2] {
        let [e, f1, f2] = self.fi();
        [e, f1].map(|fi| 0.834 * f2 / fi)
    }
}

type Witness = (&'static str, fn(&Point) -> bool);

const WITNESSES: [Witness; 50] = [
    ("one point", |p| p.points == 1),
    ("three points", |p| p.points == 3),
    ("five points", |p| p.points == 5),
    ("the long way", |p| p.sheet.route.long),
    ("hour 0", |p| p.sheet.gmt == 0.0),
    ("hour 24", |p| p.sheet.gmt == 24.0),
    ("sunspot number 0", |p| p.sheet.ssn == 0.0),
    ("sunspot number 300", |p| p.sheet.ssn == 300.0),
    ("a factor of 0.125", |p| p.sheet.psc.contains(&0.125)),
    ("a factor of 8", |p| p.sheet.psc.contains(&8.0)),
    ("a sunspot number that is NaN", |p| p.sheet.ssn.is_nan()),
    ("an hour that is NaN", |p| p.sheet.gmt.is_nan()),
    ("a latitude that is NaN", |p| p.lat().is_nan()),
    ("an infinite factor", |p| {
        p.sheet.psc.iter().any(|factor| factor.is_infinite())
    }),
    ("clock 0 becomes 24", |p| {
        p.plain_clock() == 0.0 && p.clock() == 24.0
    }),
    ("clock 24 stays", |p| p.plain_clock() == 24.0),
    ("clock above 24", |p| p.plain_clock() > 24.0),
    ("clock below 0", |p| p.plain_clock() < 0.0),
    ("clock 12", |p| p.clock() == 12.0),
    ("E map exactly 0.36", |p| {
        p.sheet.psc[0] == 1.0 && p.fi()[0] == 0.36
    }),
    ("F1 at its largest zenith angle", |p| {
        p.zenith() == p.zenmax()
    }),
    ("twilight begins", |p| p.zenmax() - DELZ - p.zenith() == 0.0),
    ("F1 as the map gives it", |p| {
        p.has_f1() && p.fi()[1] < p.fi()[2] - 0.2
    }),
    ("F1 cut to F2 less 0.2", |p| {
        p.has_f1() && p.fi()[1] == p.fi()[2] - 0.2
    }),
    ("F1 at 0.834 of F2", |p| {
        p.has_f1() && p.fi()[1] == 0.834 * p.fi()[2]
    }),
    ("F1 absent and below 0", |p| !p.has_f1() && p.fi()[1] < 0.0),
    ("F1 of -0 beside F2 of 0.2", |p| {
        p.fi()[1].to_bits() == (-0.0f32).to_bits() && p.fi()[2] == 0.2
    }),
    ("F1 NaN, cut to a number", |p| {
        p.sheet.psc[1].is_nan() && p.has_f1() && p.fi()[1] == p.fi()[2] - 0.2
    }),
    ("F2 NaN, F1 a number", |p| {
        p.fi()[2].is_nan() && p.fi()[1] > 0.0
    }),
    ("E NaN, F2's height a number", |p| {
        p.fi()[0].is_nan() && p.f2_height().is_finite()
    }),
    ("E ratio below 1.1", |p| p.ratios()[0] < 1.1),
    ("E ratio above 1.1", |p| p.ratios()[0] > 1.1),
    ("E ratio NaN", |p| p.ratios()[0].is_nan()),
    ("E ratio infinite", |p| p.ratios()[0].is_infinite()),
    ("F1 ratio below 1.1", |p| p.has_f1() && p.ratios()[1] < 1.1),
    ("F1 ratio above 1.1", |p| p.has_f1() && p.ratios()[1] > 1.1),
    ("F1 ratio NaN", |p| p.has_f1() && p.ratios()[1].is_nan()),
    ("height ratio lifted to 2", |p| p.rat() == 2.0),
    ("height ratio above 2", |p| p.rat() > 2.0),
    ("height ratio NaN, F2's height a number", |p| {
        p.rat().is_nan() && p.f2_height().is_finite()
    }),
    ("zenith NaN, all fields in range", |p| {
        p.zenith().is_nan() && is_in_range(p.sheet)
    }),
    ("largest zenith angle infinite", |p| {
        p.zenmax() == f32::INFINITY
    }),
    ("largest zenith angle NaN", |p| p.zenmax().is_nan()),
    ("absorption infinite", |p| p.row[19] == f32::INFINITY),
    ("absorption at its least", |p| p.row[19] == -0.04),
    ("land", |p| p.land() > 0.0),
    ("sea", |p| p.land() < 0.0),
    ("ground exactly 0", |p| p.land() == 0.0),
    ("ground NaN", |p| p.land().is_nan()),
    ("Es NaN, the others numbers", |p| {
        p.row[24].is_nan() && p.row[7..24].iter().all(|v| v.is_finite())
    }),
];

/// How many points show each.
pub struct Witnesses {
    counts: [u64; WITNESSES.len()],
}

impl Witnesses {
    pub fn new() -> Self {
        Self {
            counts: [0; WITNESSES.len()],
        }
    }

    pub fn note(&mut self, sheet: &Sheet, set: &CoefficientSet, figures: &Figures) {
        for row in figures.rows() {
            let point = Point {
                sheet,
                set,
                points: figures.points,
                row,
            };
            for (count, (_, shows)) in self.counts.iter_mut().zip(WITNESSES) {
                *count += u64::from(shows(&point));
            }
        }
    }

    pub fn print(&self) {
        for ((name, _), count) in WITNESSES.iter().zip(self.counts) {
            println!("{name:<40} {count:>5} points");
        }
    }

    pub fn refuse_unseen(&self) -> Result<(), String> {
        match WITNESSES.iter().zip(self.counts).find(|(_, n)| *n == 0) {
            Some(((name, _), _)) => Err(format!("no sheet shows: {name}")),
            None => Ok(()),
        }
    }
}
