//! How often each call has got each answer.

use crate::model::desks::lent::Shown;
use crate::model::desks::programs::Replayed;
use crate::model::desks::{Answer, Call, Edit, Refusal};
use std::collections::BTreeMap;
use std::rc::Rc;

const DRAFTS: [&str; 8] = [
    "change sunspots",
    "change hour",
    "change path",
    "change factors",
    "change pole",
    "commit",
    "cancel",
    "show a draft",
];

/// The refusals of fields by a change, and by an open in its order.
const BY_CHANGES: [(&str, u32, u32); 13] = [
    ("change sunspots", 2, 2),
    ("change hour", 3, 3),
    ("change path", 4, 4),
    ("change path", 5, 5),
    ("change path", 4, 6),
    ("change path", 5, 7),
    ("change path", 7, 8),
    ("change factors", 6, 9),
    ("change factors", 6, 10),
    ("change factors", 6, 11),
    ("change factors", 6, 12),
    ("change pole", 4, 13),
    ("change pole", 5, 14),
];
/// What the desks refuse calls with, beside numbers out of range.
pub const BY_DESKS: [u32; 6] = [7, 14, 15, 16, 17, 18];
const BY_OPEN: [u32; 14] = [1, 2, 3, 4, 5, 4, 5, 7, 6, 6, 6, 6, 4, 5];

/// What a 23 is written as, by the file that it is about.
pub const NO_FINITE_NUMBER: [&str; 2] =
    ["refused 23 in the record", "refused 23 in the month file"];
/// The calls that can be refused so.
pub const SHOWINGS: [&str; 2] = ["show the worksheet", "show a draft"];

/// A call's name and an answer.
pub type Key = (&'static str, String);

#[derive(Default)]
pub struct Counts {
    counts: BTreeMap<Key, u64>,
}

impl Counts {
    pub fn note(&mut self, replayed: &Replayed) {
        self.add("open", text_of(replayed.opened.as_ref().err()));
        self.note_calls(replayed);
        if replayed.stopped.is_some() {
            self.add("no call", String::from("stopped"));
        }
    }

    pub fn note_calls(&mut self, replayed: &Replayed) {
        for (call, answer) in replayed.calls.iter().zip(&replayed.answers) {
            let text = match answer {
                Answer::Accepted => text_of(None),
                Answer::Refused(refusal) => text_of(Some(refusal)),
                Answer::Points(shown) => points(shown),
            };
            self.add(name(call), text);
        }
    }

    /// What the program `sheet` answers.
    pub fn note_sheet(&mut self, answer: &Result<Rc<Shown>, Refusal>) {
        let text = match answer {
            Ok(shown) => points(shown),
            Err(refusal) => text_of(Some(refusal)),
        };
        self.add("sheet", text);
    }

    fn add(&mut self, name: &'static str, answer: String) {
        *self.counts.entry((name, answer)).or_insert(0) += 1;
    }

    pub fn print(&self) {
        for ((name, answer), count) in &self.counts {
            println!("{count:>10}  {name}: {answer}");
        }
    }

    pub fn of(&self, name: &'static str, answer: &str) -> u64 {
        let key = (name, answer.to_owned());
        self.counts.get(&key).copied().unwrap_or(0)
    }

    /// How often calls other than an open got a refusal of this number.
    fn of_refusal(&self, number: u32) -> u64 {
        let start = format!("refused {number} ");
        let of_calls = self.counts.iter().filter(|((name, _), _)| *name != "open");
        of_calls
            .filter(|((_, answer), _)| answer.starts_with(&start))
            .map(|(_, count)| count)
            .sum()
    }

    pub fn print_refusals(&self, numbers: &[u32]) {
        for number in numbers {
            println!(
                "{:>10}  refused {number}, by all calls",
                self.of_refusal(*number)
            );
        }
    }

    pub fn refuse_rare_refusals(&self, numbers: &[u32], least: u64) -> Result<(), String> {
        let mut all = numbers.iter();
        match all.find(|number| self.of_refusal(**number) < least) {
            Some(number) => Err(format!("refusal {number} is too rare")),
            None => Ok(()),
        }
    }

    /// Every answer that is possible must have come, those of an open at least
    /// `opens` times.
    pub fn refuse_rare(&self, possible: &[Key], least: u64, opens: u64) -> Result<(), String> {
        let rare = |(name, answer): &Key| {
            let least = if *name == "open" { opens } else { least };
            self.of(name, answer) < least
        };
        match possible.iter().find(|key| rare(key)) {
            Some((name, answer)) => Err(format!("{name}: {answer} is too rare")),
            None => Ok(()),
        }
    }
}

fn name(call: &Call) -> &'static str {
    match call {
        Call::Begin(_) => "begin",
        Call::Change(_, Edit::Sunspots(_)) => "change sunspots",
        Call::Change(_, Edit::Hour(_)) => "change hour",
        Call::Change(_, Edit::Path { .. }) => "change path",
        Call::Change(_, Edit::Factors(_)) => "change factors",
        Call::Change(_, Edit::Pole(_)) => "change pole",
        Call::Change(_, Edit::Month(_)) => "change month",
        Call::Change(_, Edit::Model(_)) => "change model",
        Call::Commit(_) => "commit",
        Call::Cancel(_) => "cancel",
        Call::TakeBack => "take back",
        Call::Show(0, _) => "show the worksheet",
        Call::Show(..) => "show a draft",
    }
}

fn points(shown: &Shown) -> String {
    format!("points {}", shown.points)
}

/// The places of 9, 10 and 23 are many and stand as one, those of 23 as one for
/// each of both files.
fn text_of(refusal: Option<&Refusal>) -> String {
    match refusal {
        Some(Refusal {
            number: number @ (9 | 10),
            ..
        }) => format!("refused {number} at a byte"),
        Some(Refusal {
            number: 23,
            of_record,
            ..
        }) => String::from(NO_FINITE_NUMBER[usize::from(!of_record)]),
        Some(Refusal { number, place, .. }) => format!("refused {number} {place}"),
        None => String::from("accepted"),
    }
}

fn refused(number: u32, place: u32) -> String {
    text_of(Some(&Refusal::at(number, place)))
}

fn accepted() -> String {
    text_of(None)
}

/// Refusals by 23 of either file, which bulk comparisons must not leave out.
pub fn by_bad_words(calls: &[&'static str]) -> Vec<Key> {
    let of_call = |name: &&'static str| NO_FINITE_NUMBER.map(|answer| (*name, answer.to_owned()));
    calls.iter().flat_map(of_call).collect()
}

/// What each call over a year file can answer: over a good one, and what its
/// showings can be refused with over others.
pub fn possible_over_a_year() -> Vec<Key> {
    let mut all = possible();
    all.push(("open", refused(7, 15)));
    for (name, number, place) in [("change month", 1, 1), ("change model", 7, 15)] {
        let refusals = [(14, 0), (16, 0), (number, place)];
        all.extend(refusals.map(|(number, place)| (name, refused(number, place))));
        all.push((name, accepted()));
    }
    for name in SHOWINGS {
        all.extend((1..=14).map(|pair| (name, refused(19, pair))));
        all.extend([8, 9, 10].map(|number| (name, refused(number, 0))));
    }
    all.extend(by_bad_words(&SHOWINGS));
    all
}

/// What each call can answer when its files are good and its buffer is right.
pub fn possible() -> Vec<Key> {
    let mut all = vec![
        ("open", accepted()),
        ("begin", accepted()),
        ("begin", refused(14, 0)),
        ("begin", refused(15, 0)),
        ("commit", refused(17, 0)),
        ("take back", accepted()),
        ("take back", refused(18, 0)),
        ("no call", String::from("stopped")),
    ];
    all.extend(DRAFTS.map(|name| (name, refused(14, 0))));
    all.extend(DRAFTS.map(|name| (name, refused(16, 0))));
    all.extend(DRAFTS[..7].iter().map(|name| (*name, accepted())));
    for name in SHOWINGS {
        all.extend([1, 3, 5].map(|points| (name, format!("points {points}"))));
    }
    all.extend(BY_CHANGES.map(|(name, number, place)| (name, refused(number, place))));
    let by_open = (1..).zip(BY_OPEN);
    all.extend(by_open.map(|(place, number)| ("open", refused(number, place))));
    all
}
