//! Random lists of calls and the files that are lent to them.

use crate::bits::Answer;
use crate::draw::damage::Damage;
use crate::draw::generator::Generator;
use crate::draw::journal_kinds::{
    any_buffers, any_field, bad_word, bad_year_inputs, year_list as calls,
};
use crate::draw::sheet_kinds::year_inputs;
use crate::draw::year_files::any_year;
use crate::model::desks::fields::{range, Inputs, Range, FIELDS};
use crate::model::desks::library::Files;
use crate::model::desks::programs::{inputs, HEAD, YEAR_HEAD};
use crate::model::desks::{Call, Draft, Refusal, Worksheet};
use crate::month_file::push_words;
use crate::reference::voacap::coefficients::F2_RECORD_BYTES;

pub enum Start {
    /// The bytes of an open; some of the 15 words are missing, or others
    /// follow.
    Open(Vec<u8>),
    /// A worksheet that no open gives: fields out of range, drafts of any kind.
    Held(Box<Worksheet>),
}

impl Start {
    pub fn worksheet(&self) -> Result<Worksheet, Refusal> {
        match self {
            Start::Open(bytes) => Worksheet::open(inputs(bytes)),
            Start::Held(sheet) => Ok(**sheet),
        }
    }
}

pub struct List {
    pub start: Start,
    pub calls: Vec<Call>,
}

/// 10 to 60 calls; some opens are refused.
pub fn list(random: &mut Generator) -> List {
    let start = match random.below(16) {
        0 => Start::Held(Box::new(held(random))),
        _ => Start::Open(open(random)),
    };
    // What is refused gets calls too, which must not be asked.
    let sheet = start.worksheet().unwrap_or_else(|_| held(random));
    let count = 10 + random.below(51);
    let mut calls = calls(random, &sheet, count);
    any_buffers(random, &mut calls);
    List { start, calls }
}

fn open(random: &mut Generator) -> Vec<u8> {
    let field = any_field(random, FIELDS);
    let inputs = match random.below(16) {
        0 => bad_year_inputs(random, field),
        _ => year_inputs(random),
    };
    let mut bytes = Vec::with_capacity(YEAR_HEAD);
    push_words(&mut bytes, &inputs);
    match random.below(32) {
        0 => bytes.truncate(random.below(YEAR_HEAD as u64) as usize),
        1 => bytes.resize(YEAR_HEAD + random.below(9) as usize, 0xaa),
        // Those of a sheet, without a model.
        2 => bytes.truncate(HEAD),
        _ => {}
    }
    bytes
}

fn held(random: &mut Generator) -> Worksheet {
    let draft = |random: &mut Generator| Draft {
        inputs: odd_inputs(random),
        stale: random.below(2) == 0,
    };
    Worksheet {
        inputs: odd_inputs(random),
        earlier: (random.below(2) == 0).then(|| odd_inputs(random)),
        drafts: [(); 4].map(|()| (random.below(2) == 0).then(|| draft(random))),
    }
}

/// Half of them with a field or two out of range, flag and model too; any NaN as
/// one word.
fn odd_inputs(random: &mut Generator) -> Inputs {
    let mut inputs = year_inputs(random);
    for _ in 0..random.below(3) {
        let field = any_field(random, FIELDS);
        let word = bad_word(random, field);
        inputs[field - 1] = match range(field) {
            Range::Whole(..) => word,
            Range::Number(..) => f32::from_bits(word).to_word() as u32,
        };
    }
    inputs
}

/// How what is lent to some lists is drawn.
pub type Draw = fn(&mut Generator) -> Files;

pub fn year(random: &mut Generator) -> Files {
    Files::Year(any_year(random))
}

/// Calm or wild; the month file of one pair in six is damaged, and the record
/// of one in sixteen too short.
pub fn pair(random: &mut Generator) -> Files {
    let mut pair = crate::draw::journal_kinds::files(random);
    if random.below(6) == 0 {
        pair.month = Damage::any(random).done_to(&pair.month);
    }
    let length = match random.below(32) {
        0 => random.below(F2_RECORD_BYTES as u64) as usize,
        1 => F2_RECORD_BYTES - 1,
        // Bytes after the record are ignored.
        2..=9 => F2_RECORD_BYTES + random.below(9) as usize,
        _ => F2_RECORD_BYTES,
    };
    pair.daw.resize(length, 0xaa);
    Files::Pair(pair)
}
