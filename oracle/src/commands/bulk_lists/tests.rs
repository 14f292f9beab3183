//! The comparison finds out a library that slips: the model stands for the
//! library, with one slip at a time.

use super::compared::run;
use super::drawn::{pair, year};
use crate::model::desks::fields::{Inputs, FIELDS};
use crate::model::desks::lent::Lent;
use crate::model::desks::library::{Desks, Files, Told};
use crate::model::desks::programs::inputs;
use crate::model::desks::words::{self, Words};
use crate::model::desks::{Answer, Call, Draft, Worksheet};

/// Answers as the model does; `shown` may change what a showing is of, and `slip`
/// what is given back.
struct Model<Slip> {
    shown: fn(&mut Inputs),
    slip: Slip,
}

type Given<'a> = (
    &'a Call,
    &'a Answer,
    &'a mut Words,
    &'a mut [f32],
    &'a mut Told,
);

fn with<Slip: Fn(Given)>(slip: Slip) -> Result<(), String> {
    let shown = |_: &mut Inputs| {};
    run(&Model { shown, slip }, pair, 60, 1)
}

fn over_years(shown: fn(&mut Inputs)) -> Result<(), String> {
    let slip = |_: Given| {};
    run(&Model { shown, slip }, year, 60, 1)
}

/// The worksheet of these words, as they are written.
fn held(words: &Words) -> Worksheet {
    let mut sets = words.chunks(1 + FIELDS).map(|set| {
        let inputs = set[1..].try_into().expect("15 fields");
        (set[0], inputs)
    });
    let mut next = || sets.next().expect("six sets");
    let (_, inputs) = next();
    let (what, earlier) = next();
    Worksheet {
        inputs,
        earlier: (what != 0).then_some(earlier),
        drafts: [(); 4].map(|()| {
            let (what, inputs) = next();
            let stale = what == 2;
            (what != 0).then_some(Draft { inputs, stale })
        }),
    }
}

impl<Slip> Model<Slip> {
    /// The worksheet as a showing takes it.
    fn seen(&self, held: &Worksheet) -> Worksheet {
        let mut sheet = *held;
        (self.shown)(&mut sheet.inputs);
        for draft in sheet.drafts.iter_mut().flatten() {
            (self.shown)(&mut draft.inputs);
        }
        sheet
    }
}

impl<Slip: Fn(Given)> Desks for Model<Slip> {
    fn open(&self, open: &[u8], sheet: &mut Words) -> Told {
        let opened = Worksheet::open(inputs(open));
        match opened {
            Ok(opened) => {
                *sheet = words::of(&opened);
                Told::ACCEPTED
            }
            Err(refusal) => Told::refused(refusal),
        }
    }

    fn call(&self, sheet: &mut Words, call: &Call, files: &Files, out: &mut [f32]) -> Told {
        let held = held(sheet);
        let answer = match call {
            Call::Show(..) => self.seen(&held).answer(call, &files.lent()),
            _ => held.answer(call, &Lent::pair(&[], &[])),
        };
        *sheet = words::of(&held.after(call));
        if let Answer::Points(shown) = &answer {
            for (v, word) in out.iter_mut().zip(shown.words) {
                *v = f32::from_bits(word);
            }
        }
        let mut told = Told::wanted(&answer);
        (self.slip)((call, &answer, sheet, out, &mut told));
        told
    }
}

#[test]
fn the_model_agrees_with_itself() {
    assert_eq!(with(|_| {}), Ok(()));
    assert_eq!(over_years(|_| {}), Ok(()));
}

#[test]
fn wrong_parts_are_found_out() {
    // Always CCIR, always January's files, the next month's.
    assert!(over_years(|inputs| inputs[FIELDS - 1] &= !1).is_err());
    assert!(over_years(|inputs| inputs[0] = inputs[0].min(1)).is_err());
    assert!(over_years(|inputs| inputs[0] = inputs[0] % 12 + 1).is_err());
}

#[test]
fn slips_are_found_out() {
    // Another bit of a NaN is no slip.
    let nan = |(_, _, _, out, _): Given| {
        let nans = out.iter_mut().filter(|v| v.to_bits() == 0x7fc0_0000);
        nans.for_each(|v| *v = f32::from_bits(0xffc1_2345));
    };
    assert_eq!(with(nan), Ok(()));
    let figure = |(_, answer, _, out, _): Given| {
        if let Answer::Points(_) = answer {
            out[150] = f32::from_bits(out[150].to_bits() ^ 1);
        }
    };
    assert!(with(figure).is_err());
    let points = |(_, answer, _, _, told): Given| {
        if let Answer::Points(_) = answer {
            told.points ^= 6;
        }
    };
    assert!(with(points).is_err());
    let touched = |(call, answer, _, out, _): Given| {
        if let (Call::Show(..), Answer::Refused(_), [first, ..]) = (call, answer, out) {
            *first = 0.0;
        }
    };
    assert!(with(touched).is_err());
    let place = |(_, answer, _, _, told): Given| {
        if answer.is_refused() {
            told.place += 1;
        }
    };
    assert!(with(place).is_err());
    let refused = |(_, answer, sheet, _, _): Given| {
        if answer.is_refused() {
            sheet[95] ^= 1;
        }
    };
    assert!(with(refused).is_err());
    // A cancel that leaves the draft's words behind.
    let cancelled = |(call, answer, sheet, _, _): Given| {
        if let (Call::Cancel(1), Answer::Accepted) = (call, answer) {
            sheet[33] = 1;
        }
    };
    assert!(with(cancelled).is_err());
}
