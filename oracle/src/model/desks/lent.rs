//! What is lent to showings: an F2 record and a month file, or a year file. What
//! is refused of it, and the Rust's figures made of it.

use super::fields::{self, sheet, Inputs, CCIR};
use super::{at_no_place, Refusal};
use crate::model::year::{of_model, of_month, places, PARTS};
use crate::reference::files::{put, put_year, read_of};
use crate::reference::sheets::{files_check, plain, FIGURES};
use crate::reference::voacap::coefficients::{CoefficientSet, FoF2Model, F2_RECORD_BYTES};
use std::cell::RefCell;
use std::collections::HashMap;
use std::ops::Range;
use std::rc::Rc;

const NO_BUFFER: Refusal = at_no_place(12);
const NO_RECORD: Refusal = at_no_place(8);

/// The number of points and the figures, every NaN as one word.
#[derive(Debug, Clone, Copy, PartialEq, Eq)]
pub struct Shown {
    pub points: u32,
    pub words: [u32; FIGURES],
}

/// Month and model by which the Rust chooses its files.
type Choice = (u32, u32);

enum Source {
    /// An F2 record and a month file: those of every month and model.
    Pair { record: Vec<u8>, month: Vec<u8> },
    /// The parts of a year file, or what is refused of its directory.
    Year(Result<[Rc<[u8]>; PARTS], Refusal>),
}

impl Source {
    /// What inputs choose. The Rust finds a pair as January's and CCIR's.
    fn choice(&self, inputs: &Inputs) -> Choice {
        match self {
            Source::Pair { .. } => (1, CCIR),
            Source::Year(_) => (fields::month(inputs), fields::model(inputs)),
        }
    }

    fn check(&self, (month, model): Choice) -> Result<(), Refusal> {
        match self {
            Source::Pair { record, month } => files_check(record, month),
            Source::Year(Err(refusal)) => Err(*refusal),
            Source::Year(Ok(parts)) => {
                let record = record_in(&parts[of_model(model)], month)?;
                files_check(record, &parts[of_month(month)])
            }
        }
    }

    /// Holds all files for the Rust: others may have been there in between.
    fn put(&self) {
        match self {
            Source::Pair { record, month } => put(&record[..F2_RECORD_BYTES], month, 1),
            Source::Year(parts) => put_year(parts.as_ref().expect("a good directory")),
        }
    }
}

/// 'Refusal 8 is given when the chosen model's part has under month × 7,904
/// bytes.'
fn record_in(part: &[u8], month: u32) -> Result<&[u8], Refusal> {
    let end = month as usize * F2_RECORD_BYTES;
    if part.len() < end {
        return Err(NO_RECORD);
    }
    Ok(&part[end - F2_RECORD_BYTES..end])
}

pub struct Lent {
    source: Source,
    /// What was judged, shown and read before. The Rust's maps depend on month,
    /// model and the bits of the sunspot number alone.
    judged: RefCell<HashMap<Choice, Result<(), Refusal>>>,
    known: RefCell<HashMap<Inputs, Rc<Shown>>>,
    sets: RefCell<HashMap<(Choice, u32), Rc<CoefficientSet>>>,
}

impl Lent {
    pub fn pair(record: &[u8], month: &[u8]) -> Self {
        Self::of(Source::Pair {
            record: record.to_vec(),
            month: month.to_vec(),
        })
    }

    pub fn year(file: &[u8]) -> Self {
        let part = |place: Range<usize>| Rc::from(&file[place]);
        Self::of(Source::Year(places(file).map(|places| places.map(part))))
    }

    fn of(source: Source) -> Self {
        Self {
            source,
            judged: RefCell::default(),
            known: RefCell::default(),
            sets: RefCell::default(),
        }
    }

    /// The figures of inputs in range, unless buffer or files are refused.
    pub fn figures(&self, inputs: &Inputs, buffer: usize) -> Result<Rc<Shown>, Refusal> {
        if buffer != FIGURES {
            return Err(NO_BUFFER);
        }
        self.check(self.source.choice(inputs))?;
        Ok(self.known_or_new(inputs))
    }

    fn check(&self, choice: Choice) -> Result<(), Refusal> {
        let mut judged = self.judged.borrow_mut();
        let verdict = judged.entry(choice);
        *verdict.or_insert_with(|| self.source.check(choice))
    }

    fn known_or_new(&self, inputs: &Inputs) -> Rc<Shown> {
        let mut known = self.known.borrow_mut();
        let shown = known.entry(*inputs);
        shown
            .or_insert_with(|| Rc::new(self.work_out(inputs)))
            .clone()
    }

    fn work_out(&self, inputs: &Inputs) -> Shown {
        let sheet = sheet(inputs);
        let set = self.set(self.source.choice(inputs), sheet.ssn);
        let figures = plain(&sheet, &set);
        Shown {
            points: figures.points,
            words: figures.words(),
        }
    }

    fn set(&self, choice: Choice, ssn: f32) -> Rc<CoefficientSet> {
        let mut sets = self.sets.borrow_mut();
        let set = sets.entry((choice, ssn.to_bits()));
        set.or_insert_with(|| Rc::new(self.read(choice, ssn)))
            .clone()
    }

    /// Month and model choose among the files in the Rust itself.
    fn read(&self, (month, model): Choice, ssn: f32) -> CoefficientSet {
        self.source.put();
        read_of(family(model), month, ssn).expect("both files are good")
    }
}

/// A model in range as the Rust has it.
fn family(model: u32) -> FoF2Model {
    match model {
        CCIR => FoF2Model::Ccir,
        _ => FoF2Model::Ursi,
    }
}
