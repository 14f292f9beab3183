//! Many lists, each with a library and the model beside it.

use super::beside;
use super::drawn::{self, Draw, List, Start};
use crate::commands::journals::counts::{by_bad_words, Counts, SHOWINGS};
use crate::draw::generator::Generator;
use crate::model::desks::lent::Lent;
use crate::model::desks::library::{Desks, Files};
use crate::model::desks::shorter::check;

/// Lists over the same files, which take longer to make than a list.
const LISTS: u64 = 20;
/// In so many lists a showing must be refused by 23, of the record and of the month
/// file.
const RARE: u64 = 2000;

pub fn run(desks: &impl Desks, draw: Draw, count: u64, seed: u64) -> Result<(), String> {
    let mut compared = Compared::default();
    for case in 0..count.div_ceil(LISTS) {
        let mut random = Generator::of_case(seed, case);
        let files = draw(&mut random);
        let lent = files.lent();
        for number in 0..LISTS.min(count - case * LISTS) {
            let list = drawn::list(&mut random);
            let one = compared.one(desks, &mut random, list, (&files, &lent));
            one.map_err(|text| format!("list {number} of case {case}: {text}"))?;
        }
    }
    compared.report()
}

#[derive(Default)]
struct Compared {
    counts: Counts,
    lists: u64,
    calls: usize,
    shorter: u64,
    differing: u64,
    first: Option<String>,
}

impl Compared {
    /// The list, and the shorter one of demand 3 if it begins with an open: the
    /// model is held to demand 3, the library to the model on both. An error
    /// only if the model fails.
    fn one(
        &mut self,
        desks: &impl Desks,
        random: &mut Generator,
        list: List,
        files: (&Files, &Lent),
    ) -> Result<(), String> {
        self.lists += 1;
        self.both(desks, random, &list, files);
        let (Start::Open(_), Ok(opened)) = (&list.start, list.start.worksheet()) else {
            return Ok(());
        };
        let kept = check(&opened, &list.calls, files.1)?;
        let calls = kept.iter().map(|i| list.calls[*i]).collect();
        let start = list.start;
        self.shorter += 1;
        self.both(desks, random, &List { start, calls }, files);
        Ok(())
    }

    fn both(
        &mut self,
        desks: &impl Desks,
        random: &mut Generator,
        list: &List,
        (files, lent): (&Files, &Lent),
    ) {
        let (replayed, difference) = beside::run(desks, random, list, files, lent);
        self.calls += replayed.calls.len();
        match list.start {
            Start::Open(_) => self.counts.note(&replayed),
            Start::Held(_) => self.counts.note_calls(&replayed),
        }
        if let Some(text) = difference {
            self.differing += 1;
            let number = self.lists;
            self.first
                .get_or_insert_with(|| format!("list {number}, {text}"));
        }
    }

    /// An error if a list differed, or if none was refused by 23.
    fn report(&self) -> Result<(), String> {
        self.counts.print();
        println!(
            "{} lists and {} shorter ones compared, {} calls in all, {} differ",
            self.lists, self.shorter, self.calls, self.differing
        );
        match &self.first {
            None => {
                let rare = by_bad_words(&SHOWINGS);
                self.counts.refuse_rare(&rare, self.lists / RARE, 0)
            }
            Some(first) => Err(format!("{} lists differ, first {first}", self.differing)),
        }
    }
}
