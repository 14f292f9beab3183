//! Random journals over a pair of files or over a year file.

use crate::draw::generator::Generator;
use crate::draw::journal_kinds::{any_field, bytes, Kind};
use crate::model::desks::fields::Inputs;
use crate::model::desks::{Call, Worksheet};

/// For each field, and for each kind of bytes that are no call.
pub const REFUSED_OPENS: usize = 3;
const STOPPED: usize = 12;

pub struct Journal {
    pub group: &'static str,
    pub inputs: Inputs,
    pub calls: Vec<u8>,
}

impl Journal {
    pub fn of(group: &'static str, inputs: Inputs, calls: &[Call]) -> Self {
        Self {
            group,
            inputs,
            calls: bytes(calls),
        }
    }
}

pub fn start(random: &mut Generator, kind: &Kind) -> (Inputs, Worksheet) {
    let inputs = (kind.inputs)(random);
    (inputs, Worksheet::open(inputs).expect("in range"))
}

pub fn random_list(random: &mut Generator, kind: &Kind, group: &'static str) -> Journal {
    let (inputs, opened) = start(random, kind);
    let count = 10 + random.below(27);
    Journal::of(group, inputs, &(kind.list)(random, &opened, count))
}

/// With calls that are not answered.
pub fn refused_opens(random: &mut Generator, kind: &Kind) -> Vec<Journal> {
    let mut journals = Vec::new();
    for field in 1..=kind.fields {
        for _ in 0..REFUSED_OPENS {
            let (_, other) = start(random, kind);
            let inputs = (kind.bad_inputs)(random, field);
            let calls = (kind.list)(random, &other, 2);
            journals.push(Journal::of("refused opens", inputs, &calls));
        }
    }
    journals
}

/// Some calls, and then what is none.
pub fn stopped(random: &mut Generator, kind: &Kind) -> Vec<Journal> {
    let mut journals = Vec::new();
    for (group, no_call) in kind.no_calls {
        for _ in 0..STOPPED {
            let (inputs, opened) = start(random, kind);
            let count = random.below(5);
            let list = (kind.list)(random, &opened, count);
            let last = list.iter().fold(opened, |sheet, call| sheet.after(call));
            let mut journal = Journal::of(group, inputs, &list);
            journal.calls.extend(no_call(random, &last));
            journals.push(journal);
        }
    }
    journals
}

/// 40 to 200 calls, with the worksheet that they leave; some opens are refused.
pub fn long(random: &mut Generator, kind: &Kind) -> (Journal, Worksheet) {
    let (good, opened) = start(random, kind);
    let field = any_field(random, kind.fields);
    let inputs = match random.below(16) {
        0 => (kind.bad_inputs)(random, field),
        _ => good,
    };
    let count = 40 + random.below(161);
    let calls = (kind.list)(random, &opened, count);
    let last = calls.iter().fold(opened, |sheet, call| sheet.after(call));
    (Journal::of("long", inputs, &calls), last)
}
