//! Demand 3: the shorter list, formed by document 01's words, and the claim
//! about both lists.

use super::lent::Lent;
use super::{run, Answer, Call, Worksheet};

/// A list of calls with their answers.
#[derive(Clone, Copy)]
pub struct Answered<'a> {
    pub calls: &'a [Call],
    pub answers: &'a [Answer],
}

impl Answered<'_> {
    fn is_accepted(&self, i: usize) -> bool {
        !self.answers[i].is_refused()
    }

    /// The places of the calls that are kept, in the shorter list's order.
    pub fn kept(&self) -> Vec<usize> {
        let mut kept = Vec::new();
        for (i, call) in self.calls.iter().enumerate() {
            match call {
                Call::Commit(desk) if self.is_accepted(i) => {
                    kept.extend(self.own(i, *desk));
                    kept.push(i);
                }
                Call::TakeBack if self.is_accepted(i) => kept.push(i),
                // Refused ones too.
                Call::Show(0, _) => kept.push(i),
                _ => {}
            }
        }
        kept
    }

    /// An accepted commit's own begin, then its own changes and showings.
    fn own(&self, commit: usize, desk: u32) -> Vec<usize> {
        let begin = self.own_begin(commit, desk);
        let between = (begin + 1..commit).filter(|i| match &self.calls[*i] {
            Call::Change(other, _) => *other == desk && self.is_accepted(*i),
            Call::Show(other, _) => *other == desk,
            _ => false,
        });
        [begin].into_iter().chain(between).collect()
    }

    /// The last accepted begin of the desk before its commit.
    pub fn own_begin(&self, commit: usize, desk: u32) -> usize {
        let mut before = (0..commit).rev();
        before
            .find(|i| self.calls[*i] == Call::Begin(desk) && self.is_accepted(*i))
            .expect("what is committed was begun")
    }
}

/// Runs the full list and the shorter one from the same opened worksheet. Every
/// call kept must answer alike, and inputs and earlier set must end alike.
/// Gives the places kept.
pub fn check(opened: &Worksheet, calls: &[Call], lent: &Lent) -> Result<Vec<usize>, String> {
    let (answers, last) = run(opened, calls, lent);
    let answers = &answers;
    let kept = Answered { calls, answers }.kept();
    compare(opened, Answered { calls, answers }, &last, &kept, lent)?;
    Ok(kept)
}

/// The full list, its last worksheet and the places of the calls to run again.
fn compare(
    opened: &Worksheet,
    full: Answered,
    last: &Worksheet,
    kept: &[usize],
    lent: &Lent,
) -> Result<(), String> {
    let shorter: Vec<Call> = kept.iter().map(|i| full.calls[*i]).collect();
    let (answers, last_again) = run(opened, &shorter, lent);
    for (i, answer) in kept.iter().zip(&answers) {
        if *answer != full.answers[*i] {
            let call = &full.calls[*i];
            return Err(format!("call {i}, {call:?}, answers otherwise when kept"));
        }
    }
    if (last.inputs, last.earlier) != (last_again.inputs, last_again.earlier) {
        return Err(String::from("inputs or earlier set end otherwise"));
    }
    Ok(())
}

#[cfg(test)]
mod tests {
    use super::{check, compare, Answered};
    use crate::draw::data_files::named;
    use crate::draw::generator::Generator;
    use crate::draw::journal_kinds::{any_buffers, list, year_list};
    use crate::draw::sheet_kinds::{inputs, year_inputs};
    use crate::draw::year_files::{any_year, calm_year, packed, NO_GAPS};
    use crate::model::desks::lent::Lent;
    use crate::model::desks::{run, Call, Edit, Worksheet};
    use crate::reference::sheets::FIGURES;
    use Call::{Begin, Cancel, Commit, TakeBack};

    fn opened() -> Worksheet {
        let inputs = inputs(&mut Generator::new(8));
        Worksheet::open(inputs).expect("in range")
    }

    fn lent() -> Lent {
        let [_, (_, pair), ..] = named();
        Lent::pair(&pair.daw, &pair.month)
    }

    /// The places kept of this list; demand 3 holds of it too.
    fn kept(calls: &[Call]) -> Vec<usize> {
        check(&opened(), calls, &lent()).expect("demand 3")
    }

    fn show(desk: u32) -> Call {
        Call::Show(desk, FIGURES)
    }

    fn sunspots(desk: u32, v: f32) -> Call {
        Call::Change(desk, Edit::Sunspots(v.to_bits()))
    }

    fn hour(desk: u32, v: f32) -> Call {
        Call::Change(desk, Edit::Hour(v.to_bits()))
    }

    #[test]
    fn an_own_begin_is_the_last_accepted_one() {
        let calls = [
            Begin(1),
            sunspots(1, 7.0),
            Cancel(1),
            Begin(1),
            hour(1, 9.0),
            Begin(1),
            Commit(1),
        ];
        assert_eq!(kept(&calls), [3, 4, 6]);
    }

    #[test]
    fn refused_changes_go_and_refused_showings_stay() {
        let calls = [
            Begin(2),
            sunspots(2, -1.0),
            Call::Show(2, 150),
            hour(2, 24.5),
            hour(2, 24.0),
            show(2),
            Commit(2),
        ];
        assert_eq!(kept(&calls), [0, 2, 4, 5, 6]);
    }

    #[test]
    fn another_desks_calls_go() {
        let calls = [
            Begin(1),
            Begin(2),
            show(2),
            sunspots(2, 3.0),
            sunspots(1, 4.0),
            show(1),
            Commit(1),
            show(2),
        ];
        assert_eq!(kept(&calls), [0, 4, 5, 6]);
    }

    #[test]
    fn a_cancelled_drafts_calls_go() {
        let calls = [
            show(0),
            Begin(4),
            sunspots(4, 200.0),
            show(4),
            Cancel(4),
            show(0),
        ];
        assert_eq!(kept(&calls), [0, 5]);
    }

    #[test]
    fn of_two_desks_the_second_is_stale() {
        let calls = [
            Begin(1),
            Begin(3),
            sunspots(1, 1.0),
            sunspots(3, 2.0),
            Commit(3),
            Commit(1),
            show(0),
            sunspots(1, 5.0),
            show(1),
        ];
        assert_eq!(kept(&calls), [1, 3, 4, 6]);
    }

    #[test]
    fn a_take_back_between_begin_and_commit() {
        let calls = [
            Begin(1),
            Commit(1),
            Begin(2),
            sunspots(2, 50.0),
            TakeBack,
            Commit(2),
            TakeBack,
            show(0),
        ];
        assert_eq!(kept(&calls), [0, 1, 4, 7]);
    }

    #[test]
    fn showings_of_the_worksheet_stay_where_they_are() {
        let calls = [
            show(0),
            Begin(1),
            sunspots(1, 9.0),
            show(0),
            Call::Show(0, 0),
            Commit(1),
            show(0),
            TakeBack,
            show(0),
        ];
        assert_eq!(kept(&calls), [0, 3, 4, 1, 2, 5, 6, 7, 8]);
    }

    #[test]
    fn desks_that_are_none_are_not_kept() {
        let calls = [Begin(0), show(5), Commit(5), Cancel(7), show(1), TakeBack];
        assert_eq!(kept(&calls), []);
    }

    /// Lists that lose a call, or keep one too many, are found out.
    #[test]
    fn other_lists_are_not_alike() {
        let lent = lent();
        let calls = [
            Begin(2),
            sunspots(2, 200.0),
            Cancel(2),
            Begin(1),
            sunspots(1, 9.0),
            show(1),
            Commit(1),
            show(0),
            TakeBack,
        ];
        let (answers, last) = run(&opened(), &calls, &lent);
        let full = Answered {
            calls: &calls,
            answers: &answers,
        };
        let alike = |kept: &[usize]| compare(&opened(), full, &last, kept, &lent).is_ok();
        assert_eq!(full.kept(), [3, 4, 5, 6, 7, 8]);
        assert!(alike(&full.kept()));
        // Without its begin, its change, the commit or the take-back, and with
        // the take-back too early.
        assert!(!alike(&[4, 5, 6, 7, 8]));
        assert!(!alike(&[3, 5, 6, 7, 8]));
        assert!(!alike(&[3, 4, 5, 7, 8]));
        assert!(!alike(&[3, 4, 5, 6, 7]));
        assert!(!alike(&[3, 4, 5, 8, 6, 7]));
    }

    #[test]
    fn random_lists_with_any_buffers() {
        let lent = lent();
        let mut random = Generator::new(21);
        for _ in 0..300 {
            let inputs = inputs(&mut random);
            let opened = Worksheet::open(inputs).expect("in range");
            let count = 1 + random.below(40);
            let mut calls = list(&mut random, &opened, count);
            any_buffers(&mut random, &mut calls);
            check(&opened, &calls, &lent).expect("demand 3");
        }
    }

    /// A cancelled or dropped change of month or model must not show in what is
    /// kept.
    #[test]
    fn random_lists_over_years() {
        let mut random = Generator::new(22);
        let mut files = vec![packed(&calm_year(&mut random), &NO_GAPS)];
        files.extend((0..9).map(|_| any_year(&mut random)));
        for file in files {
            let lent = Lent::year(&file);
            for _ in 0..30 {
                let inputs = year_inputs(&mut random);
                let opened = Worksheet::open(inputs).expect("in range");
                let count = 1 + random.below(40);
                let mut calls = year_list(&mut random, &opened, count);
                any_buffers(&mut random, &mut calls);
                check(&opened, &calls, &lent).expect("demand 3");
            }
        }
    }
}
