//! `sheets FILE`: the vectors of whole sheets, in sections of a record, a
//! month file and rows of 166 little-endian u32: the fields, the number of
//! points, the figures. Beside it `refused-sheets.bin`.

mod by_hand;
mod drawn;
mod limits;
mod refused;
mod searched;
mod witnesses;

use crate::commands::write_file;
use crate::draw::data_files::{extreme, named, Pair};
use crate::month_file::push_words;
use crate::reference::branches::{self, Branch, Counts, Side, BRANCHES};
use crate::reference::files::read;
use crate::reference::sheets::{counted, plain, put_all_months, Figures, Sheet};
use crate::reference::voacap::coefficients::{CoefficientSet, F2_RECORD_BYTES};
use std::path::Path;
use witnesses::Witnesses;

const REFUSED: &str = "refused-sheets.bin";

fn is_counted(branch: &Branch) -> bool {
    branch.file == "ionosphere.rs" && !branch.is_clock()
}

/// What an index table that passes shuts out: `k` is at least 1, and a step
/// that is not 2 is at least 4.
const NEVER: [(&str, bool); 2] = [("k >= 2", false), ("lo >= kk", false)];

/// A group's name and its sheets.
type Group = (&'static str, Vec<Sheet>);

/// Both files and the sheets that are made from them.
struct Section {
    name: &'static str,
    record: Vec<u8>,
    month: Vec<u8>,
    groups: Vec<Group>,
}

impl Section {
    fn sheets(&self) -> impl Iterator<Item = &Sheet> {
        self.groups.iter().flat_map(|(_, sheets)| sheets)
    }

    /// Holds both files for `read`.
    fn put(&self) {
        put_all_months(&self.record, &self.month);
    }
}

/// What was seen while the vectors were made.
struct Seen {
    counts: Counts,
    /// How many points of each month took the second end of its sun and how
    /// many the first, if their zenith angle shows it.
    suns: [[u64; 2]; 12],
    witnesses: Witnesses,
}

pub fn run(file: &str) -> Result<(), String> {
    let sections = sections();
    let (bytes, seen) = vectors(&sections)?;
    print_sections(&sections);
    seen.print();
    seen.check()?;
    write_file(file, &bytes)?;
    write_file(Path::new(file).with_file_name(REFUSED), &refused::bytes())
}

impl Seen {
    fn nothing() -> Self {
        Self {
            counts: branches::counts(&[]),
            suns: [[0; 2]; 12],
            witnesses: Witnesses::new(),
        }
    }

    fn note_suns(&mut self, sheet: &Sheet, trail: &[Side], figures: &Figures) {
        let first_end = |side: &&Side| BRANCHES[side.0].condition == "cendog - cencat > 0.0";
        for ((_, holds), row) in trail.iter().filter(first_end).zip(figures.rows()) {
            if !row[21].is_nan() {
                self.suns[sheet.month as usize - 1][usize::from(*holds)] += 1;
            }
        }
    }

    fn print(&self) {
        branches::print(&self.counts, is_counted);
        self.witnesses.print();
        for (month, [second, first]) in (1..).zip(self.suns) {
            println!(
                "month {month:>2}: first end of the sun {first:>3} points, second {second:>3}"
            );
        }
    }

    fn check(&self) -> Result<(), String> {
        branches::refuse_untaken(&self.counts, is_counted, &NEVER)?;
        if self.suns.as_flattened().contains(&0) {
            return Err(String::from("an end of a month's sun is not taken"));
        }
        self.witnesses.refuse_unseen()
    }
}

/// The groups of a section depend on the files of that section only, so that a
/// further one leaves the others as they are; but for the last group, which
/// fills up what too few have done.
fn sections() -> Vec<Section> {
    let pairs = named().into_iter().chain(extreme());
    let mut sections: Vec<Section> = pairs
        .enumerate()
        .map(|(i, (name, pair))| section(i, name, &pair))
        .collect();
    searched::fill_up(&mut sections);
    sections
}

fn section(i: usize, name: &'static str, pair: &Pair) -> Section {
    let mut section = Section {
        name,
        record: record(i, pair),
        month: pair.month.clone(),
        groups: drawn::groups(i as u64),
    };
    section.put();
    match name {
        "calm-1" => section.groups.extend(by_hand::groups()),
        "calm-2" => section.groups.extend(limits::groups()),
        "calm-3" => section.groups.push(by_hand::no_numbers()),
        "at once" => section.groups.push(limits::high_f2()),
        "longest" => section.groups.push(limits::twilight()),
        _ => {}
    }
    section
}

/// One of the pair's months, another one for each section.
fn record(i: usize, pair: &Pair) -> Vec<u8> {
    let months = pair.daw.len() / F2_RECORD_BYTES;
    let start = (5 * i + 2) % months * F2_RECORD_BYTES;
    pair.daw[start..start + F2_RECORD_BYTES].to_vec()
}

/// The file's bytes, and what was seen on the way.
fn vectors(sections: &[Section]) -> Result<(Vec<u8>, Seen), String> {
    let mut bytes = Vec::new();
    let mut seen = Seen::nothing();
    push_words(&mut bytes, &[sections.len() as u32]);
    for section in sections {
        section.put();
        bytes.extend(&section.record);
        bytes.extend(&section.month);
        push_words(&mut bytes, &[section.sheets().count() as u32]);
        for sheet in section.sheets() {
            push_words(&mut bytes, &row(sheet, &mut seen)?);
        }
    }
    Ok((bytes, seen))
}

/// The answers of the plain sources, from which the counted must not differ.
fn row(sheet: &Sheet, seen: &mut Seen) -> Result<Vec<u32>, String> {
    let set = set_of(sheet);
    let figures = plain(sheet, &set);
    let (trail, other) = trail(sheet, &set);
    if (other.points, other.words()) != (figures.points, figures.words()) {
        return Err(format!("{sheet:?}: the counted sources differ"));
    }
    branches::add(&mut seen.counts, &trail);
    seen.note_suns(sheet, &trail, &figures);
    seen.witnesses.note(sheet, &set, &figures);
    Ok([&sheet.words()[..], &[figures.points], &figures.words()].concat())
}

/// From the files that are put.
fn set_of(sheet: &Sheet) -> CoefficientSet {
    read(sheet.month, sheet.ssn).expect("both files are good")
}

/// What the counted sources decide for this sheet, and their figures.
fn trail(sheet: &Sheet, set: &CoefficientSet) -> (Vec<Side>, Figures) {
    branches::take();
    let figures = counted(sheet, set);
    (branches::take(), figures)
}

fn print_sections(sections: &[Section]) {
    for section in sections {
        let groups = section.groups.iter();
        let groups: Vec<String> = groups
            .map(|(name, sheets)| format!("{} {name}", sheets.len()))
            .collect();
        println!(
            "{:<10} {:>4} sheets: {}",
            section.name,
            section.sheets().count(),
            groups.join(", ")
        );
    }
    let total: usize = sections.iter().map(|s| s.sheets().count()).sum();
    println!("{:<10} {total:>4} sheets", "in all");
}

#[cfg(test)]
mod tests {
    use super::{sections, vectors};

    #[test]
    fn vectors_take_every_branch_and_are_the_same_each_time() {
        let sections = sections();
        assert!(sections.iter().map(|s| s.sheets().count()).sum::<usize>() >= 200);
        let (bytes, seen) = vectors(&sections).expect("both variants agree");
        assert_eq!(seen.check(), Ok(()));
        assert!(bytes.len() < 1_000_000, "{} bytes", bytes.len());
        assert!(vectors(&super::sections()).is_ok_and(|(again, _)| again == bytes));
    }
}
