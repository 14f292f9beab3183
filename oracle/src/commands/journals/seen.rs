//! What was seen while journals were answered, and whether it is enough.

use super::clauses::{Clause, Clauses};
use super::counts::{Counts, Key};
use crate::model::desks::programs::Replayed;

/// What journals must show.
pub struct Wanted {
    /// The answers that their calls can get.
    pub possible: Vec<Key>,
    /// The refusals that calls can get, whatever the call.
    pub refusals: Vec<u32>,
    pub clauses: Vec<Clause>,
}

/// The least number of times that each of it must come; an open has answers of its
/// own, which are more.
pub struct Least {
    pub answers: u64,
    pub of_opens: u64,
    pub refusals: u64,
    pub clauses: u64,
}

pub struct Seen {
    answers: Counts,
    clauses: Clauses,
    wanted: Wanted,
}

impl Seen {
    pub fn nothing(wanted: Wanted) -> Self {
        Self {
            answers: Counts::default(),
            clauses: Clauses::of(&wanted.clauses),
            wanted,
        }
    }

    pub fn note(&mut self, replayed: &Replayed) {
        self.answers.note(replayed);
        self.clauses.note(replayed);
    }

    pub fn print(&self) {
        self.answers.print();
        self.answers.print_refusals(&self.wanted.refusals);
        self.clauses.print();
    }

    pub fn check(&self, least: &Least) -> Result<(), String> {
        let Wanted {
            possible, refusals, ..
        } = &self.wanted;
        let answers = &self.answers;
        answers.refuse_rare(possible, least.answers, least.of_opens)?;
        answers.refuse_rare_refusals(refusals, least.refusals)?;
        self.clauses.refuse_rare(least.clauses)
    }
}
