//! The worksheet of four desks, its value in the 96 words of bindings/c/jutetrowel.h.

use crate::{answered, raw, shown, Factors, Inputs, Path, Pole, Refusal, Sheet, WORDS};

/// A change of a draft, with all its numbers.
#[derive(Clone, Copy, Debug, PartialEq)]
pub enum Change {
    Sunspots(f32),
    Hour(f32),
    Path(Path),
    Factors(Factors),
    Pole(Pole),
    /// Over a pair of files the new month's sun goes with the files that are lent, which the
    /// worksheet cannot know.
    Month(u32),
    Model(u32),
}

/// One set of inputs, an earlier one or none, and a draft or none for each desk. A call that is
/// refused leaves it as it was.
#[derive(Clone, Debug, PartialEq, Eq)]
pub struct Worksheet([u32; WORDS]);

impl Worksheet {
    /// A worksheet with all desks closed and nothing to take back.
    pub fn open(inputs: &Inputs) -> Result<Self, Refusal> {
        Self::open_words(&inputs.words())
    }

    /// The same, from 15 words. Bytes that are not there count as 0, so that the 14 words that the
    /// program `sheet` reads open it with model 0.
    pub fn open_words(words: &[u8]) -> Result<Self, Refusal> {
        let mut sheet = [0; WORDS];
        answered(raw::open(words, &mut sheet)).map(|()| Self(sheet))
    }

    /// Any 96 words are some worksheet.
    pub fn from_words(words: [u32; WORDS]) -> Self {
        Self(words)
    }

    pub fn words(&self) -> &[u32; WORDS] {
        &self.0
    }

    pub fn begin(&mut self, desk: u32) -> Result<(), Refusal> {
        answered(raw::jt_begin(&mut self.0, desk))
    }

    pub fn change(&mut self, desk: u32, change: Change) -> Result<(), Refusal> {
        let sheet = &mut self.0;
        answered(match change {
            Change::Sunspots(x) => raw::jt_change_sunspot(sheet, desk, x),
            Change::Hour(x) => raw::jt_change_hour(sheet, desk, x),
            Change::Path(p) => {
                raw::jt_change_path(sheet, desk, p.tlat, p.tlong, p.rlat, p.rlong, p.long.into())
            }
            Change::Factors(p) => raw::jt_change_factors(sheet, desk, p.e, p.f1, p.f2, p.es),
            Change::Pole(p) => raw::jt_change_pole(sheet, desk, p.lat, p.lon),
            Change::Month(month) => raw::jt_change_month(sheet, desk, month),
            Change::Model(model) => raw::jt_change_model(sheet, desk, model),
        })
    }

    pub fn commit(&mut self, desk: u32) -> Result<(), Refusal> {
        answered(raw::jt_commit(&mut self.0, desk))
    }

    pub fn cancel(&mut self, desk: u32) -> Result<(), Refusal> {
        answered(raw::jt_cancel(&mut self.0, desk))
    }

    pub fn take_back(&mut self) -> Result<(), Refusal> {
        answered(raw::jt_take_back(&mut self.0))
    }

    /// The figures of a desk's draft, or of the worksheet for desk 0, over a pair of files.
    ///
    /// The files are taken as they are lent. Where the month was changed in the draft shown, or by a
    /// commit or take-back since the pair was chosen, the figures are the new month's sun over the
    /// files as they are lent; a changed model picks no other record. With `show_year` that cannot
    /// happen. A caller who picks the pair anew finds month and model among `words`: 1 and 15 of the
    /// worksheet, 17 + 16 * desk and 31 + 16 * desk of a draft, counted from 0.
    pub fn show(&self, desk: u32, f2: &[u8], month_file: &[u8]) -> Result<Sheet, Refusal> {
        shown(|out| raw::show(&self.0, desk, f2, month_file, out))
    }

    /// The same over a year file, of which the month and the model shown pick the parts.
    pub fn show_year(&self, desk: u32, year: &[u8]) -> Result<Sheet, Refusal> {
        shown(|out| raw::show_year(&self.0, desk, year, out))
    }
}
