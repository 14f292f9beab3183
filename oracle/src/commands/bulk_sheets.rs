//! `bulk-sheets COUNT SEED`: the port's figures beside the Rust's over random
//! sheets, files and buffers, refused ones included; by fields, which nothing
//! judges, and by the words of a whole sheet, which are judged.

use crate::commands::buffer::Buffer;
use crate::commands::compare::{report, Tally};
use crate::commands::lent::{self, fields, Files};
use crate::commands::whole;
use crate::draw::data_files::Pair;
use crate::draw::generator::Generator;
use crate::draw::sheet_kinds::one_of;
use crate::model::desks::fields::{with_model, CCIR};
use crate::model::desks::{Refusal, Worksheet};
use crate::port::sheets::figures_by;
use crate::reference::sheets::{put_all_months, showing, showing_check, Sheet, FIGURES};
use jutetrowel::raw::{self, Showing};

/// Sheets for each pair of files, which takes longer to make than a sheet.
const SHEETS: u64 = 50;

pub fn run(count: &str, seed: &str) -> Result<(), String> {
    let count = whole(count)?;
    let seed = whole(seed)?;
    let mut tallies = NAMES.map(Tally::new);
    for case in 0..count.div_ceil(SHEETS) {
        let mut random = Generator::of_case(seed, case);
        compare(&mut random, &mut tallies, case);
    }
    report(&tallies)?;
    tallies
        .iter()
        .try_for_each(|tally| tally.refuse_rare(count / RARE))
}

/// How a showing by its fields must be answered, and then those by words.
const NAMES: [&str; 5] = [
    "shown",
    "refused",
    "  by 23, record",
    "  by 23, month file",
    "by words",
];
const BY_WORDS: usize = 4;
/// At least one sheet in so many must have each answer.
const RARE: u64 = 5000;

fn kind_of(check: &Result<(), Refusal>) -> usize {
    match check {
        Ok(()) => 0,
        Err(Refusal {
            number: 23,
            of_record,
            ..
        }) => 3 - usize::from(*of_record),
        Err(_) => 1,
    }
}

fn compare(random: &mut Generator, tallies: &mut [Tally; 5], case: u64) {
    let pair = lent::files(random);
    put_all_months(&pair.daw, &pair.month);
    for number in 0..SHEETS {
        let lent = Lent::of(random, &pair);
        let (kind, difference) = lent.difference(random);
        let text = |text| format!("sheet {number}, {text}\n    {lent:?}");
        tallies[kind].note(case, difference.map(text));
        tallies[BY_WORDS].note(case, lent.difference_by_words(random).map(text));
        if lent.files.is_damaged() {
            put_all_months(&pair.daw, &pair.month);
        }
    }
}

/// What one showing is lent.
struct Lent<'a> {
    sheet: Sheet,
    files: Files<'a>,
    buffer: usize,
}

impl std::fmt::Debug for Lent<'_> {
    fn fmt(&self, f: &mut std::fmt::Formatter) -> std::fmt::Result {
        let Self {
            sheet,
            files,
            buffer,
        } = self;
        write!(f, "{files}, buffer {buffer}, fields {}", fields(sheet))
    }
}

impl<'a> Lent<'a> {
    /// Mostly such that there is nothing to refuse.
    fn of(random: &mut Generator, pair: &'a Pair) -> Self {
        let sheet = lent::sheet(random);
        let files = Files::of(random, pair);
        let buffer = match random.below(32) {
            0 => random.below(400) as usize,
            1 => one_of(random, &[0, 1, FIGURES - 1, FIGURES + 1]),
            _ => FIGURES,
        };
        Self {
            sheet,
            files,
            buffer,
        }
    }

    /// How the showing must be answered, and how the port differs.
    fn difference(&self, random: &mut Generator) -> (usize, Option<String>) {
        let Files { record, file } = &self.files;
        let mut buffer = lent::buffer(random, self.buffer);
        let flag = lent::flag(random, self.sheet.route.long);
        let answer = figures_by(flag, &self.sheet, record, file, buffer.lent());
        let check = showing_check(record, file, self.buffer);
        let difference = match check {
            Ok(()) => self.shown(answer, &buffer),
            Err(why) => refused(why, answer, &buffer),
        };
        (kind_of(&check), difference)
    }

    /// A bad field is refused before buffer and files; a 15th word is not read.
    fn difference_by_words(&self, random: &mut Generator) -> Option<String> {
        let Files { record, file } = &self.files;
        let mut words = self.sheet.words();
        let mut further = Vec::new();
        match random.below(32) {
            0 => words[0] = one_of(random, &[0, 13, u32::MAX]),
            1 => words[7] = one_of(random, &[2, 256, u32::MAX]),
            2 => further.push(1),
            3 => further.push(u32::MAX),
            _ => {}
        }
        let all = words.into_iter().chain(further);
        let bytes: Vec<u8> = all.flat_map(u32::to_le_bytes).collect();
        let mut buffer = lent::buffer(random, self.buffer);
        let answer = raw::sheet(&bytes, record, file, buffer.lent());
        let opened = Worksheet::open(with_model(words, CCIR));
        match opened.and_then(|_| showing_check(record, file, self.buffer)) {
            Ok(()) => self.shown(answer, &buffer),
            Err(why) => refused(why, answer, &buffer),
        }
    }

    fn shown(&self, answer: Showing, buffer: &Buffer) -> Option<String> {
        if self.files.is_damaged() {
            put_all_months(self.files.record, &self.files.file);
        }
        let figures = showing(&self.sheet);
        let points = Showing {
            points: figures.points,
            number: 0,
            place: 0,
        };
        differing_answer(answer, points).or_else(|| buffer.differs_from(&figures.words()))
    }
}

/// A refusal leaves the buffer as it was.
fn refused(why: Refusal, answer: Showing, buffer: &Buffer) -> Option<String> {
    let Refusal { number, place, .. } = why;
    let wanted = Showing {
        points: 0,
        number,
        place,
    };
    differing_answer(answer, wanted).or_else(|| buffer.changes())
}

fn differing_answer(ours: Showing, wanted: Showing) -> Option<String> {
    let text = |answer: Showing| match answer {
        Showing {
            points,
            number: 0,
            place: 0,
        } => format!("{points} points"),
        Showing { number, place, .. } => format!("refused {number} {place}"),
    };
    (ours != wanted).then(|| format!("port: {}, wanted: {}", text(ours), text(wanted)))
}
