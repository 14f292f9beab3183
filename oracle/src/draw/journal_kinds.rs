//! Random lists of calls: most of them find a draft or a closed desk as they
//! want it, and every refusal comes often.

use crate::draw::damage::{set_byte, Damage};
use crate::draw::data_files::ladders::{good, near_good, LONG, SHORT, USUAL};
use crate::draw::data_files::{self, Pair};
use crate::draw::generator::Generator;
use crate::draw::sheet_kinds::{inputs, one_of, year_inputs};
use crate::model::desks::fields::{check, range, Inputs, Range, FIELDS, SHEET_FIELDS};
use crate::model::desks::programs::words;
use crate::model::desks::{Call, Draft, Edit, Worksheet, DESKS};
use crate::month_file::{push_words, tables, to_bytes, LENGTHS};
use crate::reference::sheets::FIGURES;
use crate::reference::voacap::coefficients::{parse_month_file, F2_RECORD_BYTES};

/// Numbers that are no desk, some of which would be one if cut to a byte, to
/// two, or without their highest bit.
const NO_DESKS: [u32; 10] = [
    0,
    5,
    6,
    255,
    257,
    65_538,
    0x0100_0003,
    0x7fff_ffff,
    0x8000_0001,
    u32::MAX,
];

/// The first field of each kind of change that journals over a pair of files have.
const EDITS: [usize; 5] = [2, 3, 4, 9, 13];
/// The fields that are f32.
const NUMBERS: [usize; 12] = [2, 3, 4, 5, 6, 7, 9, 10, 11, 12, 13, 14];
const MONTH: usize = 1;
const FLAG: usize = 8;
const MODEL: usize = 15;
const MINUS_ZERO: u32 = 1 << 31;

/// How what a journal's program reads is drawn.
pub struct Kind {
    /// How many fields the program has.
    pub fields: usize,
    pub inputs: fn(&mut Generator) -> Inputs,
    /// With a bad one by its number.
    pub bad_inputs: fn(&mut Generator, usize) -> Inputs,
    /// So many calls from an opened worksheet on.
    pub list: fn(&mut Generator, &Worksheet, u64) -> Vec<Call>,
    pub no_calls: [(&'static str, Draw); 2],
}

pub const OVER_A_PAIR: Kind = Kind {
    fields: SHEET_FIELDS,
    inputs,
    bad_inputs,
    list,
    no_calls: NO_CALLS,
};

pub const OVER_A_YEAR: Kind = Kind {
    fields: FIELDS,
    inputs: year_inputs,
    bad_inputs: bad_year_inputs,
    list: year_list,
    no_calls: NO_YEAR_CALLS,
};

/// How the next calls of a list are drawn.
type Next = fn(&mut Generator, &Worksheet) -> Vec<Call>;

/// So many calls from an opened worksheet on, as a journal over a pair of files
/// knows them.
pub fn list(random: &mut Generator, opened: &Worksheet, count: u64) -> Vec<Call> {
    list_by(random, opened, count, |random, sheet| {
        match random.below(12) {
            0 => episode(random, sheet),
            _ => vec![next(random, sheet)],
        }
    })
}

/// The same with changes of month and model, as the library and a journal over a
/// year file know them.
pub fn year_list(random: &mut Generator, opened: &Worksheet, count: u64) -> Vec<Call> {
    list_by(random, opened, count, |random, sheet| {
        match random.below(12) {
            0 => episode(random, sheet),
            1 => year_episode(random, sheet),
            _ => vec![year_next(random, sheet)],
        }
    })
}

fn list_by(random: &mut Generator, opened: &Worksheet, count: u64, draw: Next) -> Vec<Call> {
    let mut sheet = *opened;
    let mut calls: Vec<Call> = Vec::new();
    while (calls.len() as u64) < count {
        let next = draw(random, &sheet);
        sheet = next.iter().fold(sheet, |sheet, call| sheet.after(call));
        calls.extend(next);
    }
    calls.truncate(count as usize);
    calls
}

/// A begin, and a list of which every second call is a path with a bad flag: for
/// a desk with a draft, for one without, or for none.
pub fn bad_flags(random: &mut Generator, opened: &Worksheet, count: u64) -> Vec<Call> {
    let begin = Call::Begin(any_desk(random));
    let mut sheet = opened.after(&begin);
    let mut calls = vec![begin];
    while (calls.len() as u64) < count {
        let next = next(random, &sheet);
        sheet = sheet.after(&next);
        let desk = match random.below(4) {
            0 => closed_desk(random, &sheet),
            1 => one_of(random, &NO_DESKS),
            _ => open_desk(random, &sheet),
        };
        calls.extend([next, Call::Change(desk, bad_flag(random))]);
    }
    calls.truncate(count as usize);
    calls
}

/// A journal's calls as bytes.
pub fn bytes(calls: &[Call]) -> Vec<u8> {
    let mut bytes = Vec::new();
    for call in calls {
        push_words(&mut bytes, &words(call));
    }
    bytes
}

/// Some showings get a buffer of a wrong length, which no journal can hold.
pub fn any_buffers(random: &mut Generator, calls: &mut [Call]) {
    for call in calls {
        if let Call::Show(_, buffer) = call {
            if random.below(4) == 0 {
                *buffer = one_of(random, &[0, 1, FIGURES - 1, FIGURES + 1, 1000]);
            }
        }
    }
}

fn next(random: &mut Generator, sheet: &Worksheet) -> Call {
    let nothing_open = sheet.drafts.iter().all(Option::is_none);
    if nothing_open && random.below(2) == 0 {
        return Call::Begin(any_desk(random));
    }
    match random.below(40) {
        0..=2 => any_call(random),
        3..=7 => Call::Show(0, FIGURES),
        8..=12 => Call::Show(open_desk(random, sheet), FIGURES),
        13..=18 => Call::Begin(closed_desk(random, sheet)),
        19..=26 => Call::Change(open_desk(random, sheet), good_edit(random)),
        27..=30 => Call::Change(open_desk(random, sheet), bad_edit(random)),
        31..=32 => Call::Commit(open_desk(random, sheet)),
        33..=35 => Call::Commit(desk_where(random, sheet, is_fresh)),
        36 => Call::Cancel(open_desk(random, sheet)),
        37..=38 => Call::Cancel(desk_where(random, sheet, is_stale)),
        _ => Call::TakeBack,
    }
}

/// Every third one changes month or model.
fn year_next(random: &mut Generator, sheet: &Worksheet) -> Call {
    match random.below(3) {
        0 => {
            let desk = match random.below(8) {
                0 => closed_desk(random, sheet),
                1 => one_of(random, &NO_DESKS),
                _ => open_desk(random, sheet),
            };
            Call::Change(desk, month_or_model(random))
        }
        _ => next(random, sheet),
    }
}

/// One in four is out of its range.
fn month_or_model(random: &mut Generator) -> Edit {
    let field = one_of(random, &[MONTH, MODEL]);
    let mut inputs = year_inputs(random);
    if random.below(4) == 0 {
        inputs[field - 1] = bad_word(random, field);
    }
    edit(field, &inputs)
}

/// Calls that make something happen together which is rare by chance.
fn episode(random: &mut Generator, sheet: &Worksheet) -> Vec<Call> {
    let desk = open_desk(random, sheet);
    let other = next_desk(desk);
    let change =
        |desk, first, random: &mut Generator| Call::Change(desk, edit(first, &inputs(random)));
    match random.below(7) {
        // What a cancel may forget.
        0 => vec![
            Call::Begin(desk),
            change(desk, 2, random),
            change(desk, 4, random),
            Call::Cancel(desk),
            Call::Show(0, FIGURES),
        ],
        // A begin over an open draft.
        1 => vec![
            Call::Begin(desk),
            change(desk, 3, random),
            Call::Begin(desk),
            Call::Commit(desk),
        ],
        // Another desk's calls between begin and commit.
        2 => vec![
            Call::Cancel(desk),
            Call::Begin(desk),
            Call::Begin(other),
            change(other, 2, random),
            Call::Show(other, FIGURES),
            change(desk, 9, random),
            Call::Show(desk, FIGURES),
            Call::Commit(desk),
            Call::Commit(other),
        ],
        // A commit that is taken back, and a draft from before it.
        3 => vec![
            Call::Begin(other),
            Call::Commit(desk),
            Call::TakeBack,
            Call::Show(0, FIGURES),
            Call::Commit(other),
        ],
        // A refused flag that must leave the draft as it was.
        4 => vec![
            Call::Begin(desk),
            Call::Change(desk, bad_flag(random)),
            Call::Show(desk, FIGURES),
            Call::Commit(desk),
        ],
        5 => vec![
            Call::TakeBack,
            Call::Cancel(desk),
            Call::Begin(desk),
            change(desk, 13, random),
            Call::Commit(desk),
            Call::Show(0, FIGURES),
        ],
        _ => vec![Call::TakeBack, Call::Show(0, FIGURES), Call::TakeBack],
    }
}

/// The same with months and models.
fn year_episode(random: &mut Generator, sheet: &Worksheet) -> Vec<Call> {
    let desk = open_desk(random, sheet);
    let other = next_desk(desk);
    let field = one_of(random, &[MONTH, MODEL]);
    let change = |desk, random: &mut Generator| {
        let inputs = year_inputs(random);
        Call::Change(desk, edit(field, &inputs))
    };
    match random.below(5) {
        // What a cancel may forget.
        0 => vec![
            Call::Begin(desk),
            change(desk, random),
            Call::Show(desk, FIGURES),
            Call::Cancel(desk),
            Call::Show(0, FIGURES),
        ],
        // Parts picked anew by a commit, and again by a take-back.
        1 => vec![
            Call::Begin(desk),
            change(desk, random),
            Call::Commit(desk),
            Call::Show(0, FIGURES),
            Call::TakeBack,
            Call::Show(0, FIGURES),
        ],
        // Two drafts that pick parts of their own.
        2 => vec![
            Call::Begin(desk),
            Call::Begin(other),
            change(desk, random),
            change(other, random),
            Call::Show(desk, FIGURES),
            Call::Show(other, FIGURES),
            Call::Show(0, FIGURES),
        ],
        // A stale draft shows its own month and model.
        3 => vec![
            Call::Begin(other),
            change(other, random),
            Call::Begin(desk),
            change(desk, random),
            Call::Commit(desk),
            Call::Show(other, FIGURES),
            Call::Commit(other),
            Call::Show(0, FIGURES),
        ],
        // A refused one that must leave the draft as it was.
        _ => {
            let mut inputs = year_inputs(random);
            inputs[field - 1] = bad_word(random, field);
            vec![
                Call::Begin(desk),
                change(desk, random),
                Call::Change(desk, edit(field, &inputs)),
                Call::Show(desk, FIGURES),
                Call::Commit(desk),
                Call::Show(0, FIGURES),
            ]
        }
    }
}

/// Whatever is open, and for desks that are none.
fn any_call(random: &mut Generator) -> Call {
    let desk = match random.below(3) {
        0 => any_desk(random),
        1 => random.next() as u32,
        _ => one_of(random, &NO_DESKS),
    };
    match random.below(6) {
        0 => Call::Begin(desk),
        1 => Call::Change(desk, good_edit(random)),
        2 => Call::Change(desk, bad_edit(random)),
        3 => Call::Commit(desk),
        4 => Call::Cancel(desk),
        _ => Call::Show(desk, FIGURES),
    }
}

fn any_desk(random: &mut Generator) -> u32 {
    1 + random.below(DESKS as u64) as u32
}

fn next_desk(desk: u32) -> u32 {
    desk % DESKS as u32 + 1
}

fn is_stale(draft: &Option<Draft>) -> bool {
    draft.is_some_and(|draft| draft.stale)
}

fn is_fresh(draft: &Option<Draft>) -> bool {
    draft.is_some_and(|draft| !draft.stale)
}

fn open_desk(random: &mut Generator, sheet: &Worksheet) -> u32 {
    desk_where(random, sheet, Option::is_some)
}

fn closed_desk(random: &mut Generator, sheet: &Worksheet) -> u32 {
    desk_where(random, sheet, Option::is_none)
}

/// One of the desks whose draft is such; any, if there is none.
fn desk_where(
    random: &mut Generator,
    sheet: &Worksheet,
    wanted: fn(&Option<Draft>) -> bool,
) -> u32 {
    let desks: Vec<u32> = (1..)
        .zip(&sheet.drafts)
        .filter(|(_, draft)| wanted(draft))
        .map(|(desk, _)| desk)
        .collect();
    match desks[..] {
        [] => any_desk(random),
        _ => one_of(random, &desks),
    }
}

/// The change of this kind that takes its numbers from these inputs.
fn edit(first: usize, inputs: &Inputs) -> Edit {
    let four = |first: usize| std::array::from_fn(|i| inputs[first - 1 + i]);
    match first {
        2 => Edit::Sunspots(inputs[1]),
        3 => Edit::Hour(inputs[2]),
        4 => Edit::Path {
            ends: four(4),
            flag: inputs[FLAG - 1],
        },
        9 => Edit::Factors(four(9)),
        13 => Edit::Pole([inputs[12], inputs[13]]),
        MONTH => Edit::Month(inputs[MONTH - 1]),
        _ => Edit::Model(inputs[MODEL - 1]),
    }
}

/// In range; now and then with a zero below zero, which is kept as it is.
fn good_edit(random: &mut Generator) -> Edit {
    let mut inputs = inputs(random);
    let field = one_of(random, &NUMBERS);
    if random.below(4) == 0 && check(field, &[MINUS_ZERO]).is_ok() {
        inputs[field - 1] = MINUS_ZERO;
        return edit(kind_of(field), &inputs);
    }
    edit(one_of(random, &EDITS), &inputs)
}

/// One number out of its range, or two, or the flag.
fn bad_edit(random: &mut Generator) -> Edit {
    if random.below(8) == 0 {
        return bad_flag(random);
    }
    let mut inputs = inputs(random);
    let field = one_of(random, &NUMBERS);
    inputs[field - 1] = bad_word(random, field);
    if random.below(4) == 0 {
        let other = one_of(random, &NUMBERS);
        inputs[other - 1] = bad_word(random, other);
    }
    edit(kind_of(field), &inputs)
}

/// A path whose flag is neither 0 nor 1, now and then after a bad number.
fn bad_flag(random: &mut Generator) -> Edit {
    let mut inputs = inputs(random);
    inputs[FLAG - 1] = bad_word(random, FLAG);
    if random.below(3) == 0 {
        let number = random.between(4, 7) as usize;
        inputs[number - 1] = bad_word(random, number);
    }
    edit(4, &inputs)
}

/// The first field of the change that a number belongs to.
fn kind_of(field: usize) -> usize {
    let kinds = EDITS.into_iter().rev();
    let mut kinds = kinds.filter(|first| *first <= field);
    kinds.next().expect("the first kind begins at 2")
}

/// A word outside a field's range, often just outside.
pub fn bad_word(random: &mut Generator, field: usize) -> u32 {
    loop {
        let word = match range(field) {
            Range::Whole(low, high) => whole_near(random, low, high),
            Range::Number(low, high) => number_near(random, low, high),
        };
        if check(field, &[word]).is_err() {
            return word;
        }
    }
}

fn whole_near(random: &mut Generator, low: u32, high: u32) -> u32 {
    match random.below(4) {
        0 => low.wrapping_sub(1),
        1 => high + 1,
        2 => one_of(
            random,
            &[256 + low, 65_536 + low, 1 << 31 | low, 1f32.to_bits()],
        ),
        _ => random.next() as u32,
    }
}

fn number_near(random: &mut Generator, low: f32, high: f32) -> u32 {
    let value = match random.below(8) {
        0 => low.next_down(),
        1 => high.next_up(),
        2 => low - 1.0,
        3 => high + 1.0,
        4 => one_of(random, &[f32::INFINITY, f32::NEG_INFINITY]),
        5 => {
            return one_of(
                random,
                &[0x7fc0_0000, 0xffc0_0001, 0x7f80_0001, 0xffff_ffff],
            )
        }
        _ => return random.any_word(),
    };
    value.to_bits()
}

/// Inputs of a sheet over a pair of files of which this field is the first out of
/// its range, now and then with a later one.
pub fn bad_inputs(random: &mut Generator, field: usize) -> Inputs {
    let inputs = inputs(random);
    spoiled(random, inputs, field, SHEET_FIELDS)
}

/// The same of all 15 fields.
pub fn bad_year_inputs(random: &mut Generator, field: usize) -> Inputs {
    let inputs = year_inputs(random);
    spoiled(random, inputs, field, FIELDS)
}

fn spoiled(random: &mut Generator, mut inputs: Inputs, field: usize, last: usize) -> Inputs {
    inputs[field - 1] = bad_word(random, field);
    if random.below(4) == 0 {
        let other = random.between(field as i64, last as i64) as usize;
        inputs[other - 1] = bad_word(random, other);
    }
    inputs
}

/// One of the first so many fields.
pub fn any_field(random: &mut Generator, fields: usize) -> usize {
    1 + random.below(fields as u64) as usize
}

/// How bytes that are no call are drawn.
pub type Draw = fn(&mut Generator, &Worksheet) -> Vec<u8>;

const NO_CALLS: [(&str, Draw); 2] = [
    ("unknown operation", |random, _| unknown(random, &UNKNOWN)),
    ("call cut short", |random, sheet| {
        let call = next(random, sheet);
        cut_short(random, &call)
    }),
];

const NO_YEAR_CALLS: [(&str, Draw); 2] = [
    ("unknown operation", |random, _| {
        unknown(random, &UNKNOWN_OVER_A_YEAR)
    }),
    ("call cut short", |random, sheet| {
        let call = year_next(random, sheet);
        cut_short(random, &call)
    }),
];

/// Operations that a journal over a pair of files does not know, and over a year.
const UNKNOWN: [u32; 7] = [0, 11, 12, 257, 65_545, 0x8000_0009, u32::MAX];
const UNKNOWN_OVER_A_YEAR: [u32; 7] = [0, 13, 14, 267, 65_548, 0x8000_000b, u32::MAX];

/// With something after it, or nothing.
fn unknown(random: &mut Generator, operations: &[u32]) -> Vec<u8> {
    let mut bytes = Vec::new();
    let operation = one_of(random, operations);
    push_words(&mut bytes, &[operation, any_desk(random), 0, 0, 0, 0]);
    bytes.truncate(4 + random.below(21) as usize);
    bytes
}

fn cut_short(random: &mut Generator, call: &Call) -> Vec<u8> {
    let mut bytes = bytes(&[*call]);
    bytes.truncate(1 + random.below(bytes.len() as u64 - 1) as usize);
    bytes
}

/// An F2 record and a month file: calm or wild, some of them refused for a word that
/// is no finite number; most index tables pass.
pub fn files(random: &mut Generator) -> Pair {
    files_with(random, 1)
}

/// The same with so many records.
pub fn files_with(random: &mut Generator, records: usize) -> Pair {
    let ikim = match random.below(8) {
        0 => near_good(random),
        1 => one_of(random, &[USUAL, LONG, SHORT]),
        _ => good(random),
    };
    data_files::any(random, &ikim, records)
}

/// On `xesucf` only one figure of each point depends. It has two planes.
const XESUCF: usize = 18;
const XESUCF_PLANE: usize = LENGTHS[XESUCF] / 2;

/// The pair's first record and its month file, with words in it that make one
/// figure of each point a NaN.
pub fn with_a_nan(pair: &Pair) -> Pair {
    Pair {
        daw: pair.daw[..F2_RECORD_BYTES].to_vec(),
        month: month_with_a_nan(&pair.month),
    }
}

/// Both words are finite. Where the sunspot number is from 11 to 149 their blend
/// takes one infinity from another; below and above it is infinite.
pub fn month_with_a_nan(month: &[u8]) -> Vec<u8> {
    let raw = parse_month_file(month, "month").expect("a good file");
    let mut tables = tables(&raw);
    tables[XESUCF][0] = f32::MAX.to_bits();
    tables[XESUCF][XESUCF_PLANE] = (-f32::MAX).to_bits();
    to_bytes(&tables)
}

/// The month file with one byte changed.
pub fn damaged(random: &mut Generator, month: &[u8]) -> Vec<u8> {
    let Damage { place, value, .. } = Damage::any(random);
    let mut month = month.to_vec();
    set_byte(&mut month, place, value);
    month
}

#[cfg(test)]
mod tests {
    use super::{
        bad_edit, bad_flag, bad_inputs, bad_year_inputs, bytes, good_edit, list, year_list,
        NO_CALLS, NO_YEAR_CALLS,
    };
    use crate::draw::generator::Generator;
    use crate::draw::sheet_kinds::{inputs, year_inputs};
    use crate::model::desks::fields::{check, FIELDS, SHEET_FIELDS};
    use crate::model::desks::programs::{replay, replay_year, Replayed, CALLS, HEAD, YEAR};
    use crate::model::desks::{Call, Edit, Worksheet};
    use crate::month_file::push_words;

    fn is_good(edit: &Edit) -> bool {
        let (first, words) = edit.fields();
        check(first, &words).is_ok()
    }

    #[test]
    fn edits_and_inputs_are_what_they_shall_be() {
        let mut random = Generator::new(1);
        for i in 0..5000 {
            assert!(is_good(&good_edit(&mut random)));
            assert!(!is_good(&bad_edit(&mut random)));
            assert!(!is_good(&bad_flag(&mut random)));
            let refused_at = |inputs| Worksheet::open(inputs).err().map(|refusal| refusal.place);
            let field = 1 + i % SHEET_FIELDS;
            let place = refused_at(bad_inputs(&mut random, field));
            assert_eq!(place, Some(field as u32));
            let field = 1 + i % FIELDS;
            let place = refused_at(bad_year_inputs(&mut random, field));
            assert_eq!(place, Some(field as u32));
        }
    }

    /// Of each the good ones are a twentieth of the calls or more and the bad ones
    /// a fiftieth, and over a pair of files there is none.
    #[test]
    fn months_and_models_are_common_over_years_alone() {
        let mut random = Generator::new(3);
        let opened = Worksheet::open(inputs(&mut random)).expect("in range");
        let calls = year_list(&mut random, &opened, 10_000);
        let count = |wanted: fn(&Edit) -> bool, good: bool| {
            let of = |call: &&Call| matches!(call, Call::Change(_, edit) if wanted(edit) && is_good(edit) == good);
            calls.iter().filter(of).count()
        };
        for good in [true, false] {
            let least = if good { 500 } else { 200 };
            assert!(count(|edit| matches!(edit, Edit::Month(_)), good) >= least);
            assert!(count(|edit| matches!(edit, Edit::Model(_)), good) >= least);
        }
        let over_a_pair = list(&mut random, &opened, 10_000);
        let of_year =
            |call: &Call| matches!(call, Call::Change(_, Edit::Month(_) | Edit::Model(_)));
        assert!(!over_a_pair.iter().any(of_year));
    }

    #[test]
    fn what_is_no_call_stops_a_journal_where_it_stands() {
        let mut random = Generator::new(2);
        for i in 0..300 {
            let (name, no_call) = NO_CALLS[i % NO_CALLS.len()];
            let inputs = inputs(&mut random);
            let opened = Worksheet::open(inputs).expect("in range");
            let mut input = Vec::new();
            push_words(&mut input, &inputs);
            input.truncate(HEAD);
            input.resize(CALLS, 0);
            input.extend(bytes(&list(&mut random, &opened, 3)));
            let stop = input.len();
            input.extend(no_call(&mut random, &opened));
            check_stop(name, &replay(&input), stop);
        }
    }

    /// Over a year file of no bytes.
    #[test]
    fn what_is_no_call_stops_a_journal_over_a_year_too() {
        let mut random = Generator::new(4);
        for i in 0..300 {
            let (name, no_call) = NO_YEAR_CALLS[i % NO_YEAR_CALLS.len()];
            let inputs = year_inputs(&mut random);
            let opened = Worksheet::open(inputs).expect("in range");
            let mut input = Vec::new();
            push_words(&mut input, &inputs);
            input.resize(YEAR, 0);
            input.extend(bytes(&year_list(&mut random, &opened, 3)));
            let stop = input.len();
            input.extend(no_call(&mut random, &opened));
            check_stop(name, &replay_year(&input), stop);
        }
    }

    fn check_stop(name: &str, replayed: &Replayed, stop: usize) {
        assert_eq!(replayed.stopped, Some(stop), "{name}");
        assert_eq!(replayed.answers.len(), 3);
    }
}
