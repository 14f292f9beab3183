//! Document 01's worksheet, written from its part 'At the desks' alone, with
//! document 02's requests 01 and 10: the Rust has none and gives only the figures.

pub mod fields;
pub mod lent;
#[cfg(any(linked, test))]
pub mod library;
pub mod page;
pub mod programs;
pub mod shorter;
pub mod survey;
pub mod text;
#[cfg(any(linked, test))]
pub mod words;

use fields::Inputs;
use lent::{Lent, Shown};
use std::rc::Rc;

/// Number and place of a refusal.
#[derive(Debug, Clone, Copy, PartialEq, Eq)]
pub struct Refusal {
    pub number: u32,
    pub place: u32,
    /// Whether a 23 is the F2 record's, which is said in words: number and place
    /// do not tell it from one of the month file.
    pub of_record: bool,
}

impl Refusal {
    pub const fn at(number: u32, place: u32) -> Self {
        Self {
            number,
            place,
            of_record: false,
        }
    }

    pub const fn about_record(self) -> Self {
        Self {
            of_record: true,
            ..self
        }
    }
}

/// Refusals other than those of fields and files have place 0.
pub const fn at_no_place(number: u32) -> Refusal {
    Refusal::at(number, 0)
}

const NO_SUCH_DESK: Refusal = at_no_place(14);
const ALREADY_OPEN: Refusal = at_no_place(15);
const NO_DRAFT: Refusal = at_no_place(16);
const STALE: Refusal = at_no_place(17);
const NOTHING_EARLIER: Refusal = at_no_place(18);

pub const DESKS: usize = 4;

#[derive(Debug, Clone, Copy, PartialEq, Eq)]
pub struct Draft {
    pub inputs: Inputs,
    pub stale: bool,
}

#[derive(Debug, Clone, Copy, PartialEq, Eq)]
pub struct Worksheet {
    pub inputs: Inputs,
    pub earlier: Option<Inputs>,
    /// Those of desks 1 to 4.
    pub drafts: [Option<Draft>; DESKS],
}

/// A change with all its numbers as f32 bits; a path's flag, a month and a model
/// are any words.
#[derive(Debug, Clone, Copy, PartialEq, Eq)]
pub enum Edit {
    Sunspots(u32),
    Hour(u32),
    Path { ends: [u32; 4], flag: u32 },
    Factors([u32; 4]),
    Pole([u32; 2]),
    Month(u32),
    Model(u32),
}

impl Edit {
    /// The number of the first changed field, and the words of them all: they
    /// stand side by side in the inputs.
    pub fn fields(&self) -> (usize, Vec<u32>) {
        match *self {
            Edit::Sunspots(word) => (2, vec![word]),
            Edit::Hour(word) => (3, vec![word]),
            Edit::Path { ends, flag } => (4, [&ends[..], &[flag]].concat()),
            Edit::Factors(words) => (9, words.to_vec()),
            Edit::Pole(words) => (13, words.to_vec()),
            Edit::Month(word) => (1, vec![word]),
            Edit::Model(word) => (15, vec![word]),
        }
    }
}

#[derive(Debug, Clone, Copy, PartialEq, Eq)]
pub enum Call {
    Begin(u32),
    Change(u32, Edit),
    Commit(u32),
    Cancel(u32),
    TakeBack,
    /// With the length of the figures buffer.
    Show(u32, usize),
}

/// What a call gives back beside the worksheet. A showing's buffer holds the
/// figures after `Points` and is as lent after `Refused`.
#[derive(Debug, Clone, PartialEq, Eq)]
pub enum Answer {
    Accepted,
    Refused(Refusal),
    Points(Rc<Shown>),
}

impl Answer {
    pub fn is_refused(&self) -> bool {
        matches!(self, Answer::Refused(_))
    }
}

/// Each call gives the worksheet that it leaves, or its refusal.
impl Worksheet {
    /// All desks closed, nothing to take back.
    pub fn open(inputs: Inputs) -> Result<Self, Refusal> {
        fields::check(1, &inputs)?;
        Ok(Self {
            inputs,
            earlier: None,
            drafts: [None; DESKS],
        })
    }

    pub fn begin(&self, desk: u32) -> Result<Self, Refusal> {
        let place = place_of(desk)?;
        if self.drafts[place].is_some() {
            return Err(ALREADY_OPEN);
        }
        let draft = Draft {
            inputs: self.inputs,
            stale: false,
        };
        Ok(self.with(place, Some(draft)))
    }

    pub fn change(&self, desk: u32, edit: &Edit) -> Result<Self, Refusal> {
        let (place, mut draft) = self.draft(desk)?;
        let (first, words) = edit.fields();
        fields::check(first, &words)?;
        draft.inputs[first - 1..][..words.len()].copy_from_slice(&words);
        Ok(self.with(place, Some(draft)))
    }

    pub fn commit(&self, desk: u32) -> Result<Self, Refusal> {
        let (place, draft) = self.draft(desk)?;
        if draft.stale {
            return Err(STALE);
        }
        let others = self.with(place, None).all_stale();
        Ok(Self {
            inputs: draft.inputs,
            earlier: Some(self.inputs),
            ..others
        })
    }

    pub fn cancel(&self, desk: u32) -> Result<Self, Refusal> {
        let (place, _) = self.draft(desk)?;
        Ok(self.with(place, None))
    }

    pub fn take_back(&self) -> Result<Self, Refusal> {
        let inputs = self.earlier.ok_or(NOTHING_EARLIER)?;
        Ok(Self {
            inputs,
            earlier: None,
            ..self.all_stale()
        })
    }

    /// Desk 0 shows the worksheet's inputs. No showing changes the worksheet.
    pub fn show(&self, desk: u32, buffer: usize, lent: &Lent) -> Result<Rc<Shown>, Refusal> {
        let inputs = match desk {
            0 => self.inputs,
            _ => self.draft(desk)?.1.inputs,
        };
        fields::check(1, &inputs)?;
        lent.figures(&inputs, buffer)
    }

    /// The worksheet that a call leaves, refused ones too.
    pub fn after(&self, call: &Call) -> Self {
        self.changed(call).unwrap_or(*self)
    }

    /// The worksheet after a call that is not refused, showings left unasked.
    fn changed(&self, call: &Call) -> Result<Self, Refusal> {
        match call {
            Call::Begin(desk) => self.begin(*desk),
            Call::Change(desk, edit) => self.change(*desk, edit),
            Call::Commit(desk) => self.commit(*desk),
            Call::Cancel(desk) => self.cancel(*desk),
            Call::TakeBack => self.take_back(),
            Call::Show(..) => Ok(*self),
        }
    }

    pub fn answer(&self, call: &Call, lent: &Lent) -> Answer {
        let answer = match call {
            Call::Show(desk, buffer) => self.show(*desk, *buffer, lent).map(Answer::Points),
            _ => self.changed(call).map(|_| Answer::Accepted),
        };
        answer.unwrap_or_else(Answer::Refused)
    }

    /// The place of a desk's draft, and the draft.
    fn draft(&self, desk: u32) -> Result<(usize, Draft), Refusal> {
        let place = place_of(desk)?;
        let draft = self.drafts[place].ok_or(NO_DRAFT)?;
        Ok((place, draft))
    }

    fn with(&self, place: usize, draft: Option<Draft>) -> Self {
        let mut sheet = *self;
        sheet.drafts[place] = draft;
        sheet
    }

    fn all_stale(&self) -> Self {
        let stale = |draft| Draft {
            stale: true,
            ..draft
        };
        Self {
            drafts: self.drafts.map(|draft| draft.map(stale)),
            ..*self
        }
    }
}

fn place_of(desk: u32) -> Result<usize, Refusal> {
    match desk {
        1..=4 => Ok(desk as usize - 1),
        _ => Err(NO_SUCH_DESK),
    }
}

/// The answers of a list of calls, each on the worksheet that the one before
/// it left, and the last worksheet.
pub fn run(opened: &Worksheet, calls: &[Call], lent: &Lent) -> (Vec<Answer>, Worksheet) {
    let mut sheet = *opened;
    let mut answers = Vec::new();
    for call in calls {
        answers.push(sheet.answer(call, lent));
        sheet = sheet.after(call);
    }
    (answers, sheet)
}

#[cfg(test)]
mod tests;
