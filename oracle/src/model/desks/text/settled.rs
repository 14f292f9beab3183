//! Where the inputs of a worksheet come from, and what became of the drafts that
//! are not in them, looked up in the list of calls and answers.

use crate::model::desks::shorter::Answered;
use crate::model::desks::{Answer, Call};
use std::fmt;

/// The calls after an open, their answers and their lines.
pub struct List {
    pub calls: Vec<Call>,
    pub answers: Vec<Answer>,
    pub lines: Vec<usize>,
}

/// The last change of a field that stands, if there is one.
#[derive(Debug, Clone, Copy, PartialEq, Eq)]
pub struct Change {
    pub desk: u32,
    pub set: usize,
    pub settled: usize,
}

/// What became of a draft; a line for each part.
#[derive(Debug, Clone, Copy, PartialEq, Eq)]
pub enum End {
    Cancelled(usize),
    TakenBack { committed: usize, back: usize },
    NeverCommitted,
}

/// A draft that is not in the inputs.
#[derive(Debug, Clone, Copy, PartialEq, Eq)]
pub struct Draft {
    pub desk: u32,
    pub begun: usize,
    /// The last commit of it that was refused.
    pub refused: Option<usize>,
    pub end: End,
}

impl fmt::Display for Draft {
    fn fmt(&self, f: &mut fmt::Formatter) -> fmt::Result {
        let Self { desk, begun, .. } = self;
        write!(f, "desk {desk}, begun at line {begun}: ")?;
        if let Some(line) = self.refused {
            write!(f, "refused at line {line}, ")?;
        }
        match self.end {
            End::Cancelled(line) => write!(f, "cancelled at line {line}"),
            End::TakenBack { committed, back } => {
                write!(
                    f,
                    "committed at line {committed}, taken back at line {back}"
                )
            }
            End::NeverCommitted => write!(f, "not committed by then"),
        }
    }
}

impl List {
    fn answered(&self) -> Answered<'_> {
        Answered {
            calls: &self.calls,
            answers: &self.answers,
        }
    }

    fn is_accepted(&self, i: usize) -> bool {
        !self.answers[i].is_refused()
    }

    /// The places of the shorter list's calls.
    pub fn kept(&self) -> Vec<usize> {
        self.answered().kept()
    }

    /// The accepted commits in their order, each with the take-back that undid it.
    /// A take-back is of the last one: only one is accepted after each commit.
    fn commits(&self) -> Vec<(usize, Option<usize>)> {
        let mut commits: Vec<(usize, Option<usize>)> = Vec::new();
        for (i, call) in self.calls.iter().enumerate() {
            match call {
                Call::Commit(_) if self.is_accepted(i) => commits.push((i, None)),
                Call::TakeBack if self.is_accepted(i) => {
                    let last = commits.last_mut().expect("a commit is taken back");
                    last.1 = Some(i);
                }
                _ => {}
            }
        }
        commits
    }

    /// The last change of a field, 1 to 15, among those of the commits that stand.
    /// An accepted commit's draft was begun from what the one before it left.
    pub fn origin(&self, field: usize) -> Option<Change> {
        let commits = self.commits();
        let mut standing = commits.iter().rev().filter(|(_, back)| back.is_none());
        standing.find_map(|(commit, _)| self.change_in(*commit, field))
    }

    fn change_in(&self, commit: usize, field: usize) -> Option<Change> {
        let Call::Commit(desk) = self.calls[commit] else {
            return None;
        };
        let begin = self.answered().own_begin(commit, desk);
        let mut before = (begin..commit).rev();
        let set = before.find(|i| self.is_change(*i, desk, field))?;
        Some(Change {
            desk,
            set: self.lines[set],
            settled: self.lines[commit],
        })
    }

    /// A path, factors and a pole are changed as a whole.
    fn is_change(&self, i: usize, desk: u32, field: usize) -> bool {
        match &self.calls[i] {
            Call::Change(other, edit) if *other == desk && self.is_accepted(i) => {
                let (first, words) = edit.fields();
                (first..first + words.len()).contains(&field)
            }
            _ => false,
        }
    }

    /// The drafts that were begun and are not in the inputs, in the order of their
    /// begins.
    pub fn left_out(&self) -> Vec<Draft> {
        let begins = (0..self.calls.len()).filter(|i| self.is_accepted(*i));
        begins
            .filter_map(|i| match self.calls[i] {
                Call::Begin(desk) => self.draft_left_out(i, desk),
                _ => None,
            })
            .collect()
    }

    fn draft_left_out(&self, begin: usize, desk: u32) -> Option<Draft> {
        let last = self.end_of(begin, desk);
        let end = match last.map(|i| (i, self.calls[i])) {
            None => End::NeverCommitted,
            Some((i, Call::Cancel(_))) => End::Cancelled(self.lines[i]),
            Some((i, _)) => End::TakenBack {
                committed: self.lines[i],
                back: self.lines[self.taken_back(i)?],
            },
        };
        let mut open = (begin..last.unwrap_or(self.calls.len())).rev();
        let refused = open.find(|i| self.calls[*i] == Call::Commit(desk) && !self.is_accepted(*i));
        Some(Draft {
            desk,
            begun: self.lines[begin],
            refused: refused.map(|i| self.lines[i]),
            end,
        })
    }

    /// The call by which the desk's draft went.
    fn end_of(&self, begin: usize, desk: u32) -> Option<usize> {
        let ends = [Call::Commit(desk), Call::Cancel(desk)];
        let mut after = begin + 1..self.calls.len();
        after.find(|i| ends.contains(&self.calls[*i]) && self.is_accepted(*i))
    }

    /// The take-back of a commit.
    fn taken_back(&self, commit: usize) -> Option<usize> {
        let commits = self.commits();
        let found = commits.iter().find(|(i, _)| *i == commit);
        found.and_then(|(_, back)| *back)
    }
}
