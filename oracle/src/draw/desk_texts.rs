//! Random journals as the program `desk` reads them: calls of four desks, most of
//! them good, in many spellings, with comments and odd blanks; and what is no call.

pub mod each;
pub mod faults;
pub mod lines;
pub mod numbers;

use crate::draw::generator::Generator;
use crate::draw::journal_kinds::{any_field, bad_year_inputs, year_list};
use crate::draw::sheet_kinds::{one_of, year_inputs};
use crate::model::desks::fields::{Inputs, FIELDS};
use crate::model::desks::Worksheet;
use faults::{damaged, spoiled};
use lines::{call_words, comment, empty, line, open_words};

/// Lines of this many bytes and more are no calls.
const LONG_LINE: usize = 65_536;

/// Mostly good: 20 to 120 calls. Some opens are refused, some journals end with what
/// is no call, or within a line.
pub fn journal(random: &mut Generator) -> Vec<u8> {
    let opened = Worksheet::open(year_inputs(random)).expect("in range");
    let count = 20 + random.below(101);
    let calls = year_list(random, &opened, count);
    let mut journal = start(random, &opened.inputs);
    for call in calls {
        let words = call_words(random, &call);
        push(random, &mut journal, &words);
    }
    if random.below(2) == 0 {
        push(random, &mut journal, &[String::from("show")]);
    }
    end(random, &mut journal);
    journal
}

/// A journal of which some bytes are others, are gone or are new.
pub fn damaged_journal(random: &mut Generator) -> Vec<u8> {
    let journal = journal(random);
    let count = 1 + random.below(3);
    damaged(random, &journal, count)
}

/// An open, now and then refused, and now and then a call before it.
fn start(random: &mut Generator, inputs: &Inputs) -> Vec<u8> {
    let mut journal = Vec::new();
    if random.below(32) == 0 {
        let words = one_of(random, &["1 begin", "show", "take back", "9 commit"]);
        push(random, &mut journal, &[String::from(words)]);
    }
    let words = match random.below(24) {
        0 => {
            let field = any_field(random, FIELDS);
            let bad = bad_year_inputs(random, field);
            open_words(random, &bad)
        }
        _ => open_words(random, inputs),
    };
    push(random, &mut journal, &words);
    journal
}

/// The line of these words, now and then after lines without a word.
fn push(random: &mut Generator, journal: &mut Vec<u8>, words: &[String]) {
    while random.below(12) == 0 {
        journal.extend(match random.below(2) {
            0 => comment(random),
            _ => empty(random),
        });
        journal.push(b'\n');
    }
    journal.extend(line(random, words));
    journal.push(b'\n');
}

/// Most journals just end.
fn end(random: &mut Generator, journal: &mut Vec<u8>) {
    match random.below(16) {
        0 | 1 => {
            journal.extend(spoiled(random));
            journal.push(b'\n');
        }
        2 => {
            let inputs = year_inputs(random);
            let words = open_words(random, &inputs);
            push(random, journal, &words);
        }
        3 => {
            let inputs = year_inputs(random);
            let words = open_words(random, &inputs);
            let mut cut = line(random, &words);
            cut.truncate(random.below(cut.len() as u64 + 1) as usize);
            journal.extend(cut);
        }
        4 => journal.extend(b"1 begin"),
        5 if random.below(4) == 0 => journal.extend(long_line(random)),
        _ => {}
    }
}

/// As long as a line may be, or longer; with its newline or without.
fn long_line(random: &mut Generator) -> Vec<u8> {
    let length = LONG_LINE + one_of(random, &[0, 1, 9000]) - 1;
    let mut line = Vec::from(one_of(random, &["show", "show #", "#", ""]));
    line.resize(length, b' ');
    if random.below(4) > 0 {
        line.extend(b"\nshow\n");
    }
    line
}
