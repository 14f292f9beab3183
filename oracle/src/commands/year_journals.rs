//! `year-journals FILE`: short journals over year files with what `replay year`
//! prints for them. The number of sections, and for each a year file and its
//! journals, as `journals` has them but with 15 words of inputs.

pub mod by_hand;
mod years;

use super::journals::by_hand::inputs;
use super::journals::clauses::{DEMAND_3, OVER_A_YEAR};
use super::journals::counts::{possible_over_a_year, BY_DESKS};
use super::journals::drawn::{random_list, refused_opens, stopped, Journal, REFUSED_OPENS};
use super::journals::seen::{Least, Seen, Wanted};
use super::journals::{self, hold_to_demand_3, lists_by_hand, print_groups, push_calls, push_part};
use super::write_file;
use crate::draw::generator::Generator;
use crate::draw::journal_kinds;
use crate::model::desks::fields::{moved_to, CCIR, URSI};
use crate::model::desks::lent::Lent;
use crate::model::desks::programs::replay_year_with;
use crate::month_file::push_words;

/// Random lists over the good year, and over the worn one.
const LISTS: usize = 110;
const OVER_WORN_PARTS: usize = 80;
/// At most so much; the file is kept.
const MOST: usize = 2_500_000;
const LEAST: Least = Least {
    answers: 8,
    of_opens: REFUSED_OPENS as u64,
    refusals: 30,
    clauses: 15,
};

/// What showings over years are refused with, and changes of the month.
const BY_YEARS: [u32; 7] = [1, 8, 9, 10, 11, 19, 23];

struct Section {
    year: Vec<u8>,
    journals: Vec<Journal>,
}

fn wanted() -> Wanted {
    Wanted {
        possible: possible_over_a_year(),
        refusals: [&BY_DESKS[..], &BY_YEARS].concat(),
        clauses: [&DEMAND_3[..], &OVER_A_YEAR].concat(),
    }
}

pub fn run(file: &str) -> Result<(), String> {
    let sections = sections();
    let (bytes, seen) = vectors(&sections)?;
    print_sections(&sections);
    seen.print();
    seen.check(&LEAST)?;
    if bytes.len() > MOST {
        return Err(format!("{} bytes are too many", bytes.len()));
    }
    write_file(file, &bytes)
}

fn sections() -> Vec<Section> {
    let mut random = Generator::new(902);
    let mut sections = vec![good(&mut random), worn(&mut random)];
    let refused = years::refused().into_iter().map(|(year, _)| year);
    let small = years::without_records().into_iter().chain(refused);
    sections.extend(small.map(|year| without_parts(&mut random, year)));
    sections
}

const KIND: &journal_kinds::Kind = &journal_kinds::OVER_A_YEAR;

/// Every kind of journal over a year in which all can be shown.
fn good(random: &mut Generator) -> Section {
    let mut journals = lists_by_hand("as over a pair", &journals::by_hand::lists());
    journals.extend(lists_by_hand("by hand", &by_hand::lists()));
    journals.extend((0..LISTS).map(|_| random_list(random, KIND, "lists")));
    journals.extend(refused_opens(random, KIND));
    journals.extend(stopped(random, KIND));
    Section {
        year: years::good(),
        journals,
    }
}

fn worn(random: &mut Generator) -> Section {
    let mut journals = lists_by_hand("worn, by hand", &by_hand::over_worn_parts());
    journals.extend(lists_by_hand("bad words", &by_hand::over_bad_words()));
    let lists = (0..OVER_WORN_PARTS).map(|_| random_list(random, KIND, "worn, lists"));
    journals.extend(lists);
    Section {
        year: years::worn(),
        journals,
    }
}

/// A directory that is refused, or that has no record: no figures, which would
/// take room.
fn without_parts(random: &mut Generator, year: Vec<u8>) -> Section {
    let calls = by_hand::without_a_directory();
    let opened = [CCIR, URSI].map(|model| moved_to(inputs(), 6, model));
    let journals = opened.map(|inputs| Journal::of("directories", inputs, &calls));
    let mut journals = Vec::from(journals);
    journals.push(random_list(random, KIND, "directories"));
    Section { year, journals }
}

/// What the program reads.
pub fn input(journal: &Journal, year: &[u8]) -> Vec<u8> {
    let mut input = Vec::new();
    push_words(&mut input, &journal.inputs);
    push_part(&mut input, year);
    input.extend(&journal.calls);
    input
}

/// The file's bytes, and what was seen on the way.
fn vectors(sections: &[Section]) -> Result<(Vec<u8>, Seen), String> {
    let mut random = Generator::new(903);
    let mut seen = Seen::nothing(wanted());
    let mut bytes = Vec::new();
    push_words(&mut bytes, &[sections.len() as u32]);
    for (i, Section { year, journals }) in sections.iter().enumerate() {
        let lent = Lent::year(year);
        push_part(&mut bytes, year);
        push_words(&mut bytes, &[journals.len() as u32]);
        for (j, journal) in journals.iter().enumerate() {
            let named = |text| format!("journal {j} of section {i}: {text}");
            let replayed = replay_year_with(&lent, &input(journal, year));
            hold_to_demand_3(&mut random, &replayed, &lent).map_err(named)?;
            seen.note(&replayed);
            push_words(&mut bytes, &journal.inputs);
            push_calls(&mut bytes, &journal.calls, &replayed).map_err(named)?;
        }
    }
    Ok((bytes, seen))
}

fn print_sections(sections: &[Section]) {
    let years: usize = sections.iter().map(|section| section.year.len()).sum();
    println!("{} year files, {years} bytes", sections.len());
    print_groups(sections.iter().flat_map(|section| &section.journals));
}

#[cfg(test)]
mod tests {
    use super::{input, sections, vectors, Journal, LEAST, MOST};
    use crate::model::desks::lent::Lent;
    use crate::model::desks::programs::{replay_text, replay_year_with};
    use crate::model::year::{places, MONTHS, PARTS};
    use std::ops::Range;

    #[test]
    fn journals_show_everything_and_are_the_same_each_time() {
        let sections = sections();
        let (bytes, seen) = vectors(&sections).expect("demand 3 holds");
        seen.print();
        assert_eq!(seen.check(&LEAST), Ok(()));
        assert!(bytes.len() <= MOST, "{} bytes", bytes.len());
        assert!(vectors(&super::sections()).is_ok_and(|(again, _)| again == bytes));
    }

    fn text(journal: &Journal, year: &[u8], lent: &Lent) -> String {
        replay_text(&replay_year_with(lent, &input(journal, year)))
    }

    fn exchanged(year: &[u8], a: Range<usize>, b: Range<usize>) -> Vec<u8> {
        let mut other = year.to_vec();
        other[a.clone()].copy_from_slice(&year[b.clone()]);
        other[b].copy_from_slice(&year[a]);
        other
    }

    /// With two month files exchanged, both `.daw` files or two records of one of
    /// them, some journal over the good year answers otherwise.
    #[test]
    fn no_part_stands_for_another() {
        let section = &sections()[0];
        let (year, journals) = (&section.year, &section.journals);
        let lent = Lent::year(year);
        let wanted: Vec<String> = journals.iter().map(|j| text(j, year, &lent)).collect();
        let places = places(year).expect("a good directory");
        let mut pairs: Vec<[Range<usize>; 2]> = (1..PARTS)
            .filter(|k| *k != MONTHS)
            .map(|k| [places[k - 1].clone(), places[k].clone()])
            .collect();
        for daw in &places[MONTHS..] {
            let record = |month: usize| daw.start + 7904 * (month - 1)..daw.start + 7904 * month;
            pairs.extend((1..MONTHS).map(|month| [record(month), record(month + 1)]));
        }
        for [a, b] in pairs {
            let other = exchanged(year, a.clone(), b.clone());
            let lent = Lent::year(&other);
            let mut both = journals.iter().zip(&wanted);
            assert!(
                both.any(|(journal, wanted)| text(journal, &other, &lent) != *wanted),
                "{a:?} and {b:?}"
            );
        }
    }
}
