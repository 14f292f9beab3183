//! Sheets for what too few of the others do.

use super::{set_of, trail, Section};
use crate::draw::generator::Generator;
use crate::draw::sheet_kinds::in_range;
use crate::reference::branches::{Side, BRANCHES};
use crate::reference::sheets::Sheet;
use std::collections::{HashMap, HashSet};

const SEED: u64 = 0x7261_7265;
const DRAWS: usize = 150;
/// How many points shall decide each two conditions in each way.
const ENOUGH: usize = 3;

/// What a point does.
#[derive(Clone, Copy, PartialEq, Eq, Hash)]
enum Deed {
    /// Two conditions decided so for the same point.
    Both(Side, Side),
    /// The end of the month's sun that it took.
    Sun(u32, bool),
}

type Tally = HashMap<Deed, usize>;

/// Huge sections are left out: their NaNs decide alike.
pub fn fill_up(sections: &mut [Section]) {
    let mut tally = Tally::new();
    for section in sections.iter() {
        section.put();
        for sheet in section.sheets() {
            helps(&mut tally, sheet);
        }
    }
    let mut random = Generator::new(SEED);
    for section in sections.iter_mut().filter(|s| !s.name.starts_with("huge")) {
        section.put();
        let mut sheets: Vec<Sheet> = (0..DRAWS).map(|_| in_range(&mut random)).collect();
        sheets.retain(|sheet| helps(&mut tally, sheet));
        section.groups.push(("seldom", sheets));
    }
}

/// Whether a point does what too few have done; if so, the sheet counts.
fn helps(tally: &mut Tally, sheet: &Sheet) -> bool {
    let (trail, _) = trail(sheet, &set_of(sheet));
    let mut deeds = HashSet::new();
    for point in points(&trail) {
        add_deeds(&mut deeds, sheet.month, &point);
    }
    let few = |deed| tally.get(deed).is_none_or(|count| *count < ENOUGH);
    let helps = deeds.iter().any(few);
    if helps {
        for deed in deeds {
            *tally.entry(deed).or_default() += 1;
        }
    }
    helps
}

fn add_deeds(deeds: &mut HashSet<Deed>, month: u32, point: &[Side]) {
    for (i, second) in point.iter().enumerate() {
        deeds.extend(point[..i].iter().map(|first| Deed::Both(*first, *second)));
        if BRANCHES[second.0].condition == "cendog - cencat > 0.0" {
            deeds.insert(Deed::Sun(month, second.1));
        }
    }
}

/// What each point decides in `layer_parameters` and its clock. The first
/// condition of that function begins a point.
fn points(trail: &[Side]) -> Vec<Vec<Side>> {
    let mut points: Vec<Vec<Side>> = Vec::new();
    for side in trail {
        let function = BRANCHES[side.0].function;
        if BRANCHES[side.0].condition == "cenlg < 0.0" {
            points.push(Vec::new());
        }
        if let ("layer_parameters" | "timvar_clck", Some(point)) = (function, points.last_mut()) {
            point.push(*side);
        }
    }
    points
}
