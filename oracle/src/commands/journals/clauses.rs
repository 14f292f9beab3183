//! What the journals must show of the call rules and of each clause of demand
//! 3's shorter list, and over a year file of months and models.

use crate::model::desks::fields::{model, month, Inputs};
use crate::model::desks::programs::Replayed;
use crate::model::desks::shorter::Answered;
use crate::model::desks::{Answer, Call, Draft, Edit, Worksheet};

/// One call of a replayed journal.
pub struct Seen<'a> {
    list: Answered<'a>,
    /// The worksheet before each call.
    before: &'a [Worksheet],
    i: usize,
}

impl Seen<'_> {
    fn call(&self) -> &Call {
        &self.list.calls[self.i]
    }

    fn is_accepted(&self, i: usize) -> bool {
        !self.list.answers[i].is_refused()
    }

    fn accepted(&self, wanted: fn(&Call) -> bool) -> bool {
        wanted(self.call()) && self.is_accepted(self.i)
    }

    fn sheet(&self) -> &Worksheet {
        &self.before[self.i]
    }

    fn desk(&self) -> u32 {
        desk(self.call())
    }

    /// The draft of this call's desk, before the call.
    fn draft(&self) -> Option<Draft> {
        let place = (self.desk() as usize).checked_sub(1)?;
        self.sheet().drafts.get(place).copied().flatten()
    }

    fn is_stale(&self) -> bool {
        self.draft().is_some_and(|draft| draft.stale)
    }

    /// Since the begin of this desk's draft some call was such.
    fn since_begin(&self, wanted: impl Fn(usize, &Call) -> bool) -> bool {
        self.draft().is_some() && {
            let begin = self.list.own_begin(self.i, self.desk());
            (begin + 1..self.i).any(|i| wanted(i, &self.list.calls[i]))
        }
    }

    /// Before this call some call was such.
    fn earlier(&self, wanted: impl Fn(usize, &Call) -> bool) -> bool {
        (0..self.i).any(|i| wanted(i, &self.list.calls[i]))
    }

    fn later(&self, wanted: impl Fn(usize, &Call) -> bool) -> bool {
        (self.i + 1..self.list.calls.len()).any(|i| wanted(i, &self.list.calls[i]))
    }

    /// This desk's draft had an accepted change of this kind.
    fn had(&self, kind: fn(&Edit) -> bool) -> bool {
        let desk = self.desk();
        self.since_begin(|i, call| {
            matches!(call, Call::Change(d, edit) if *d == desk && kind(edit)) && self.is_accepted(i)
        })
    }

    fn refused_with(&self, numbers: &[u32]) -> bool {
        self.is_refused(self.i, numbers)
    }

    fn is_refused(&self, i: usize, numbers: &[u32]) -> bool {
        let answer = &self.list.answers[i];
        matches!(answer, Answer::Refused(refusal) if numbers.contains(&refusal.number))
    }

    /// This desk's draft differs from the worksheet in a field.
    fn differs(&self, field: fn(&Inputs) -> u32) -> bool {
        let own = self.draft().map(|draft| field(&draft.inputs));
        own.is_some_and(|word| word != field(&self.sheet().inputs))
    }

    /// Another desk has a draft that is such beside this desk's.
    fn other_draft(&self, wanted: fn(&Inputs, &Inputs) -> bool) -> bool {
        let mut drafts = self.sheet().drafts.iter().flatten();
        let own = self.draft();
        own.is_some_and(|own| drafts.any(|draft| wanted(&own.inputs, &draft.inputs)))
    }

    /// The earlier set has another word in a field.
    fn takes_back(&self, field: fn(&Inputs) -> u32) -> bool {
        let earlier = self.sheet().earlier.as_ref().map(field);
        earlier.is_some_and(|word| word != field(&self.sheet().inputs))
    }

    /// Refused as stale, and the last accepted commit or take-back before was
    /// such.
    fn turned_stale_by(&self, wanted: fn(&Call) -> bool) -> bool {
        let last = (0..self.i)
            .rev()
            .find(|i| moves(&self.list.calls[*i]) && self.is_accepted(*i));
        self.refused_with(&[17]) && last.is_some_and(|i| wanted(&self.list.calls[i]))
    }
}

/// The path of a change has a flag that is neither 0 nor 1.
fn bad_flag(call: &Call) -> bool {
    matches!(call, Call::Change(_, Edit::Path { flag: 2.., .. }))
}

fn is_month(edit: &Edit) -> bool {
    matches!(edit, Edit::Month(_))
}

fn is_model(edit: &Edit) -> bool {
    matches!(edit, Edit::Model(_))
}

fn bad_month(call: &Call) -> bool {
    matches!(call, Call::Change(_, Edit::Month(0 | 13..)))
}

fn bad_model(call: &Call) -> bool {
    matches!(call, Call::Change(_, Edit::Model(2..)))
}

/// The desk that a call names; 0 for a take-back.
fn desk(call: &Call) -> u32 {
    match call {
        Call::Begin(desk)
        | Call::Change(desk, _)
        | Call::Commit(desk)
        | Call::Cancel(desk)
        | Call::Show(desk, _) => *desk,
        Call::TakeBack => 0,
    }
}

fn begin(call: &Call) -> bool {
    matches!(call, Call::Begin(_))
}

fn change(call: &Call) -> bool {
    matches!(call, Call::Change(..))
}

fn commit(call: &Call) -> bool {
    matches!(call, Call::Commit(_))
}

fn cancel(call: &Call) -> bool {
    matches!(call, Call::Cancel(_))
}

fn take_back(call: &Call) -> bool {
    matches!(call, Call::TakeBack)
}

fn moves(call: &Call) -> bool {
    commit(call) || take_back(call)
}

fn show_draft(call: &Call) -> bool {
    matches!(call, Call::Show(1.., _))
}

fn show_worksheet(call: &Call) -> bool {
    matches!(call, Call::Show(0, _))
}

pub type Clause = (&'static str, fn(&Seen) -> bool);

pub const DEMAND_3: [Clause; 30] = [
    ("cancelled after changes", |s| {
        s.accepted(cancel) && s.had(|_| true)
    }),
    ("cancelled without a change", |s| {
        s.accepted(cancel) && !s.had(|_| true)
    }),
    ("cancelled after sunspots and path, then shown", |s| {
        s.accepted(cancel)
            && s.had(|edit| matches!(edit, Edit::Sunspots(_)))
            && s.had(|edit| matches!(edit, Edit::Path { .. }))
            && s.later(|_, call| show_worksheet(call))
    }),
    ("cancelled while stale", |s| {
        s.accepted(cancel) && s.is_stale()
    }),
    ("cancelled after a showing", |s| {
        let desk = s.desk();
        s.accepted(cancel)
            && s.since_begin(|_, call| matches!(call, Call::Show(d, _) if *d == desk))
    }),
    ("stale by another's commit", |s| s.turned_stale_by(commit)),
    ("stale by a take-back", |s| s.turned_stale_by(take_back)),
    ("stale draft changed", |s| {
        s.accepted(change) && s.is_stale()
    }),
    ("stale draft shown", |s| {
        s.accepted(show_draft) && s.is_stale()
    }),
    ("fresh changed draft shown", |s| {
        s.accepted(show_draft) && !s.is_stale() && s.had(|_| true)
    }),
    ("commit of what is there", |s| {
        s.accepted(commit)
            && s.draft()
                .is_some_and(|draft| draft.inputs == s.sheet().inputs)
    }),
    ("commit of something new", |s| {
        s.accepted(commit)
            && s.draft()
                .is_some_and(|draft| draft.inputs != s.sheet().inputs)
    }),
    ("commit that makes others stale", |s| {
        let fresh = s
            .sheet()
            .drafts
            .iter()
            .flatten()
            .filter(|draft| !draft.stale);
        s.accepted(commit) && fresh.count() > 1
    }),
    ("commit of a desk that had cancelled", |s| {
        let desk = s.desk();
        s.accepted(commit) && s.earlier(|i, call| *call == Call::Cancel(desk) && s.is_accepted(i))
    }),
    ("commit of a desk that had committed", |s| {
        let desk = s.desk();
        s.accepted(commit) && s.earlier(|i, call| *call == Call::Commit(desk) && s.is_accepted(i))
    }),
    ("commit after another desk's", |s| {
        let desk = s.desk();
        let other = |call: &Call| matches!(call, Call::Commit(d) if *d != desk);
        s.accepted(commit) && s.earlier(|i, call| other(call) && s.is_accepted(i))
    }),
    ("commit after a take-back", |s| {
        s.accepted(commit) && s.earlier(|i, call| take_back(call) && s.is_accepted(i))
    }),
    ("commit whose draft had a refused change", |s| {
        let desk = s.desk();
        let own = |call: &Call| matches!(call, Call::Change(d, _) if *d == desk);
        s.accepted(commit) && s.since_begin(|i, call| own(call) && !s.is_accepted(i))
    }),
    ("commit whose desk had a refused begin", |s| {
        let desk = s.desk();
        s.accepted(commit) && s.since_begin(|_, call| *call == Call::Begin(desk))
    }),
    ("commit with own showings", |s| {
        let desk = s.desk();
        s.accepted(commit)
            && s.since_begin(|_, call| matches!(call, Call::Show(d, _) if *d == desk))
    }),
    ("commit with another's showings dropped", |s| {
        let desk = s.desk();
        let other = |call: &Call| show_draft(call) && self::desk(call) != desk;
        s.accepted(commit) && s.since_begin(|i, call| other(call) && s.is_accepted(i))
    }),
    ("commit with another's changes dropped", |s| {
        let desk = s.desk();
        let other = |call: &Call| matches!(call, Call::Change(d, _) if *d != desk);
        s.accepted(commit) && s.since_begin(|i, call| other(call) && s.is_accepted(i))
    }),
    ("commit moved past the worksheet's showings", |s| {
        s.accepted(commit) && s.since_begin(|_, call| show_worksheet(call))
    }),
    ("begin on other than the opened inputs", |s| {
        s.accepted(begin) && s.sheet().inputs != s.before[0].inputs
    }),
    ("take-back of something", |s| {
        s.accepted(take_back) && s.sheet().earlier != Some(s.sheet().inputs)
    }),
    ("take-back with open drafts", |s| {
        s.accepted(take_back) && s.sheet().drafts.iter().flatten().count() > 0
    }),
    ("take-back refused after one that was not", |s| {
        let taken = |i: usize, call: &Call| take_back(call) && s.is_accepted(i);
        take_back(s.call()) && !s.is_accepted(s.i) && s.earlier(taken)
    }),
    ("worksheet shown before any commit", |s| {
        let accepted = |i: usize, call: &Call| commit(call) && s.is_accepted(i);
        show_worksheet(s.call()) && !s.earlier(accepted) && s.later(accepted)
    }),
    ("worksheet shown after a commit", |s| {
        show_worksheet(s.call()) && s.sheet().earlier.is_some()
    }),
    ("worksheet shown after a take-back", |s| {
        let taken = |i: usize, call: &Call| take_back(call) && s.is_accepted(i);
        show_worksheet(s.call()) && s.sheet().earlier.is_none() && s.earlier(taken)
    }),
];

pub const BAD_FLAGS: [Clause; 7] = [
    ("bad flag after good numbers", |s| {
        bad_flag(s.call()) && s.refused_with(&[7])
    }),
    ("bad flag after a bad number", |s| {
        bad_flag(s.call()) && s.refused_with(&[4, 5])
    }),
    ("bad flag without a draft", |s| {
        bad_flag(s.call()) && s.refused_with(&[16])
    }),
    ("bad flag at no desk", |s| {
        bad_flag(s.call()) && s.refused_with(&[14])
    }),
    ("bad flag, then an accepted call", |s| {
        bad_flag(s.call()) && s.later(|i, _| s.is_accepted(i))
    }),
    ("draft shown after a bad flag", |s| {
        let desk = s.desk();
        s.accepted(show_draft)
            && s.since_begin(|_, call| bad_flag(call) && self::desk(call) == desk)
    }),
    ("commit whose draft had a bad flag", |s| {
        let desk = s.desk();
        s.accepted(commit) && s.since_begin(|_, call| bad_flag(call) && self::desk(call) == desk)
    }),
];

/// Of months and models, which a year file has.
pub const OVER_A_YEAR: [Clause; 21] = [
    ("draft shown in a changed month", |s| {
        s.accepted(show_draft) && s.had(is_month)
    }),
    ("draft shown with a changed model", |s| {
        s.accepted(show_draft) && s.had(is_model)
    }),
    ("draft shown with both changed", |s| {
        s.accepted(show_draft) && s.had(is_month) && s.had(is_model)
    }),
    ("drafts of two months, one of them shown", |s| {
        s.accepted(show_draft) && s.other_draft(|own, other| month(own) != month(other))
    }),
    ("drafts of two models, one of them shown", |s| {
        s.accepted(show_draft) && s.other_draft(|own, other| model(own) != model(other))
    }),
    ("stale draft shown in a month of its own", |s| {
        s.accepted(show_draft) && s.is_stale() && s.differs(month)
    }),
    ("stale draft shown with a model of its own", |s| {
        s.accepted(show_draft) && s.is_stale() && s.differs(model)
    }),
    ("commit of another month, then shown", |s| {
        s.accepted(commit) && s.differs(month) && s.later(|_, call| show_worksheet(call))
    }),
    ("commit of another model, then shown", |s| {
        s.accepted(commit) && s.differs(model) && s.later(|_, call| show_worksheet(call))
    }),
    ("cancelled after a month, then shown", |s| {
        s.accepted(cancel) && s.had(is_month) && s.later(|_, call| show_worksheet(call))
    }),
    ("cancelled after a model, then shown", |s| {
        s.accepted(cancel) && s.had(is_model) && s.later(|_, call| show_worksheet(call))
    }),
    ("take-back of a month, then shown", |s| {
        s.accepted(take_back) && s.takes_back(month) && s.later(|_, call| show_worksheet(call))
    }),
    ("take-back of a model, then shown", |s| {
        s.accepted(take_back) && s.takes_back(model) && s.later(|_, call| show_worksheet(call))
    }),
    ("bad month of a draft", |s| {
        bad_month(s.call()) && s.refused_with(&[1])
    }),
    ("bad month without a draft", |s| {
        bad_month(s.call()) && s.refused_with(&[16])
    }),
    ("bad month at no desk", |s| {
        bad_month(s.call()) && s.refused_with(&[14])
    }),
    ("bad model of a draft", |s| {
        bad_model(s.call()) && s.refused_with(&[7])
    }),
    ("bad model without a draft", |s| {
        bad_model(s.call()) && s.refused_with(&[16])
    }),
    ("bad model at no desk", |s| {
        bad_model(s.call()) && s.refused_with(&[14])
    }),
    ("draft shown after a bad month or model", |s| {
        let desk = s.desk();
        let bad = |call: &Call| bad_month(call) || bad_model(call);
        s.accepted(show_draft) && s.since_begin(|_, call| bad(call) && self::desk(call) == desk)
    }),
    ("shown after a part that was refused", |s| {
        let refused = |i: usize, call: &Call| {
            (show_draft(call) || show_worksheet(call)) && s.is_refused(i, &[8, 9, 10, 11, 23])
        };
        (s.accepted(show_draft) || s.accepted(show_worksheet)) && s.earlier(refused)
    }),
];

pub struct Clauses {
    counts: Vec<(Clause, u64)>,
}

impl Clauses {
    pub fn of(clauses: &[Clause]) -> Self {
        Self {
            counts: clauses.iter().map(|clause| (*clause, 0)).collect(),
        }
    }

    pub fn note(&mut self, replayed: &Replayed) {
        let Ok(mut sheet) = replayed.opened else {
            return;
        };
        let mut before = Vec::new();
        for call in &replayed.calls {
            before.push(sheet);
            sheet = sheet.after(call);
        }
        let list = Answered {
            calls: &replayed.calls,
            answers: &replayed.answers,
        };
        for i in 0..list.calls.len() {
            let before = &before;
            let seen = Seen { list, before, i };
            for ((_, holds), count) in &mut self.counts {
                *count += u64::from(holds(&seen));
            }
        }
    }

    pub fn print(&self) {
        for ((name, _), count) in &self.counts {
            println!("{count:>10}  {name}");
        }
    }

    pub fn refuse_rare(&self, least: u64) -> Result<(), String> {
        match self.counts.iter().find(|(_, count)| *count < least) {
            Some(((name, _), _)) => Err(format!("{name} is too rare")),
            None => Ok(()),
        }
    }
}
