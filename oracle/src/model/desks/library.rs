//! What a library is that keeps a worksheet in 96 words, as the port's does.

use super::lent::Lent;
use super::words::Words;
use super::{Answer, Call, Refusal};
use crate::draw::data_files::Pair;

/// What a library's call gives back beside worksheet and buffer: 0 and 0, or
/// number and place of the refusal, and a showing's number of points.
#[derive(Debug, Clone, Copy, PartialEq, Eq)]
pub struct Told {
    pub points: u32,
    pub number: u32,
    pub place: u32,
}

impl Told {
    pub const ACCEPTED: Self = Self::points(0);

    pub const fn points(points: u32) -> Self {
        Self {
            points,
            number: 0,
            place: 0,
        }
    }

    pub fn refused(refusal: Refusal) -> Self {
        let Refusal { number, place, .. } = refusal;
        Self {
            points: 0,
            number,
            place,
        }
    }

    pub fn wanted(answer: &Answer) -> Self {
        match answer {
            Answer::Accepted => Self::ACCEPTED,
            Answer::Refused(refusal) => Self::refused(*refusal),
            Answer::Points(shown) => Self::points(shown.points),
        }
    }
}

/// The bytes that a showing is lent.
pub enum Files {
    /// An F2 record, with whatever stands behind it, and a month file.
    Pair(Pair),
    Year(Vec<u8>),
}

impl Files {
    /// The same as the model has it.
    pub fn lent(&self) -> Lent {
        match self {
            Files::Pair(Pair { daw, month }) => Lent::pair(daw, month),
            Files::Year(file) => Lent::year(file),
        }
    }
}

/// The worksheet's calls over 96 lent words.
pub trait Desks {
    fn open(&self, inputs: &[u8], sheet: &mut Words) -> Told;
    /// The buffer is a showing's; to other calls it is empty.
    fn call(&self, sheet: &mut Words, call: &Call, files: &Files, out: &mut [f32]) -> Told;
}
