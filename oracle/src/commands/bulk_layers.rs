//! `bulk-layers COUNT SEED`: the parts of the port's sheets by themselves
//! beside the Rust's, over random sheets, files and places.

use crate::bits::words;
use crate::commands::compare::{report, Tally};
use crate::commands::lent::{self, fields, Files};
use crate::commands::whole;
use crate::draw::generator::Generator;
use crate::draw::sheet_kinds::one_of;
use crate::model::desks::Refusal;
use crate::port::{layers as port, ACCEPTED};
use crate::reference::files::read;
use crate::reference::layers::{hour_maps, layers_at, measured, HourMaps, Place};
use crate::reference::sheets::{file_check, files_check, put_all_months, Sheet};
use crate::reference::voacap::coefficients::CoefficientSet;
use jutetrowel::raw::Answer;
use std::f64::consts::PI;

/// Sheets for each pair of files, which takes longer to make.
const SHEETS: u64 = 50;
/// Places for each sheet beside its control points.
const PLACES: usize = 3;
/// Each part, and its refusals by their number.
const NAMES: [&str; 14] = [
    "paths",
    "hour maps",
    "  refused by 8",
    "  refused by 9",
    "  refused by 10",
    "  refused by 11",
    "  by 23, record",
    "  by 23, month file",
    "layers at points",
    "  elsewhere",
    "  refused by 9",
    "  refused by 10",
    "  refused by 11",
    "  refused by 23",
];
/// The names of the maps, and those of the layers.
const MAPS: usize = 1;
const LAYERS: usize = 8;
/// At least one sheet in so many must have each answer.
const RARE: u64 = 5000;
const HOUR_MAPS: usize = 318;

pub fn run(count: &str, seed: &str) -> Result<(), String> {
    let count = whole(count)?;
    let seed = whole(seed)?;
    let mut tallies = NAMES.map(Tally::new);
    for case in 0..count.div_ceil(SHEETS) {
        let mut random = Generator::of_case(seed, case);
        let pair = lent::files(&mut random);
        for number in 0..SHEETS.min(count - case * SHEETS) {
            let sheet = lent::sheet(&mut random);
            let files = Files::of(&mut random, &pair);
            // A record that is cut is refused before the Rust reads it.
            put_all_months(&pair.daw, &files.file);
            let case = Case {
                sheet: &sheet,
                files: &files,
                number: (case, number),
            };
            case.compare(&mut random, &mut tallies);
        }
    }
    report(&tallies)?;
    tallies
        .iter()
        .try_for_each(|tally| tally.refuse_rare(count / RARE))
}

/// A refusal's name among those of the maps.
fn kind_of(why: &Refusal) -> usize {
    match why.number {
        23 => 6 - usize::from(why.of_record),
        number => number as usize - 7,
    }
}

struct Case<'a> {
    sheet: &'a Sheet,
    files: &'a Files<'a>,
    /// Of the pair of files, and of the sheet among its sheets.
    number: (u64, u64),
}

impl Case<'_> {
    fn note(&self, tally: &mut Tally, difference: Option<String>) {
        let (case, number) = self.number;
        let Self { sheet, files, .. } = self;
        let text = |text| {
            let fields = fields(sheet);
            format!("sheet {number}, {text}\n    {files}, fields {fields}")
        };
        tally.note(case, difference.map(text));
    }

    fn compare(&self, random: &mut Generator, tallies: &mut [Tally; 14]) {
        let check = files_check(self.files.record, &self.files.file);
        let kind = check.as_ref().err().map_or(0, kind_of);
        let wanted = check.err().map_or(ACCEPTED, Answer::from);
        self.note(&mut tallies[MAPS + kind], self.hour_maps(random, wanted));
        // The layers need no record.
        let layers = &mut tallies[LAYERS..];
        match file_check(&self.files.file) {
            Ok(()) => self.layers(random, layers),
            Err(why) => {
                // No record is looked at: 23 is the month file's.
                let tally = &mut layers[kind_of(&why).min(5)];
                self.refused_layers(random, tally, why.into());
            }
        }
        self.note(&mut tallies[0], self.path(random));
    }

    fn layers(&self, random: &mut Generator, tallies: &mut [Tally]) {
        let set = self.read();
        let ab = any_maps(random, &set, self.sheet.gmt);
        for (kind, place) in self.places(random) {
            let wanted = (ACCEPTED, layers_at(self.sheet, &set, &ab, place));
            self.note(&mut tallies[kind], self.layers_at(&ab, place, wanted));
        }
    }

    /// All numbers are +0.0.
    fn refused_layers(&self, random: &mut Generator, tally: &mut Tally, why: Answer) {
        let ab = [(); HOUR_MAPS].map(|()| random.any_number());
        for (_, place) in self.places(random) {
            let wanted = (why, [0.0; 16]);
            self.note(tally, self.layers_at(&ab, place, wanted));
        }
    }

    fn layers_at(&self, ab: &HourMaps, place: Place, wanted: Layers) -> Option<String> {
        let given = port::layers_at(self.sheet, ab, &self.files.file, place);
        let differs = given.0 != wanted.0 || words(given.1) != words(wanted.1);
        differs.then(|| format!("layers at {place:?}: port {given:?}, wanted {wanted:?}"))
    }

    fn read(&self) -> CoefficientSet {
        read(self.sheet.month, self.sheet.ssn).expect("both files are good")
    }

    fn path(&self, random: &mut Generator) -> Option<String> {
        let route = &self.sheet.route;
        let flag = lent::flag(random, route.long);
        let (given, given_points) = port::path(route, flag);
        let (wanted, points) = measured(self.sheet);
        let differs = words(given) != words(wanted) || given_points != points;
        differs.then(|| {
            format!("path: port {given:?} {given_points}, Rust {wanted:?} {points}, flag {flag}")
        })
    }

    fn hour_maps(&self, random: &mut Generator, wanted: Answer) -> Option<String> {
        let mut buffer = lent::buffer(random, HOUR_MAPS);
        let ab: &mut HourMaps = buffer.lent().try_into().expect("as many numbers");
        let Files { record, file } = self.files;
        let given = port::hour_maps(self.sheet, record, file, ab);
        if given != wanted {
            return Some(format!("hour maps: port {given:?}, wanted {wanted:?}"));
        }
        match wanted {
            ACCEPTED => {
                let maps = words(hour_maps(&self.read(), self.sheet.gmt));
                buffer.differs_from(&maps)
            }
            _ => buffer.changes(),
        }
    }

    /// The control points of the path as 0, some other places as 1.
    fn places(&self, random: &mut Generator) -> Vec<(usize, Place)> {
        let path = self.sheet.path();
        let points = path.points.iter().map(|p| (0, [p.lat, p.lon]));
        let others = [(); PLACES].map(|()| (1, any_place(random)));
        points.chain(others).collect()
    }
}

type Layers = (Answer, [f32; 16]);

/// Mostly those of the sheet's hour, some that no file gives.
fn any_maps(random: &mut Generator, set: &CoefficientSet, gmt: f32) -> HourMaps {
    let mut maps = hour_maps(set, gmt);
    match random.below(8) {
        0 => maps = maps.map(|_| random.uniform(-3.0, 3.0) as f32),
        1 => maps[random.below(HOUR_MAPS as u64) as usize] = random.any_number(),
        _ => (),
    }
    maps
}

/// On the globe, at its ends, beyond them, and any bits.
fn any_place(random: &mut Generator) -> Place {
    match random.below(8) {
        0 => [(); 2].map(|()| random.uniform(-20.0, 20.0) as f32),
        1 => [(); 2].map(|()| random.any_number()),
        2 => {
            let quarters = [-1.0, -0.5, -0.0, 0.0, 0.5, 1.0, 2.0];
            [(); 2].map(|()| (one_of(random, &quarters) * PI) as f32)
        }
        _ => {
            let lat = random.uniform(-PI / 2.0, PI / 2.0);
            let lon = random.uniform(-PI, PI);
            [lat as f32, lon as f32]
        }
    }
}
