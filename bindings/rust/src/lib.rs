//! Safe calls of Jutetrowel's static library: sheets, the worksheet of four desks, the
//! files and the clocks.
//!
//! What the library's functions give is proved; this wrapper is not, and stays thin for that. An
//! answer's meaning is that of documents 01 and 02, with their refusals by number and place
//! (docs/REFUSALS.md). The module `raw` has every function as C has it, the arithmetic and the parts of
//! a sheet too.

#![deny(unsafe_code)]

mod clocks;
#[allow(unsafe_code)]
pub mod raw;
mod worksheet;

pub use clocks::{hour_times, local_time, to_local, to_universal, HourTimes, Shifted};
pub use raw::{FIGURES, WORKSHEET_WORDS as WORDS};
pub use worksheet::{Change, Worksheet};

use raw::OPEN_BYTES;

/// The F2 models. They are numbers, as the months are: one that there is not is refused.
pub const CCIR: u32 = 0;
pub const URSI: u32 = 1;

/// Why a call was refused: its number in documents 01 and 02, and the place that goes with it.
#[derive(Clone, Copy, Debug, PartialEq, Eq)]
pub struct Refusal {
    pub number: u32,
    pub place: u32,
}

impl std::fmt::Display for Refusal {
    fn fmt(&self, to: &mut std::fmt::Formatter<'_>) -> std::fmt::Result {
        write!(to, "refused {} {}", self.number, self.place)
    }
}

impl std::error::Error for Refusal {}

/// Two ends in degrees, and whether the path goes the long way round.
#[derive(Clone, Copy, Debug, PartialEq)]
pub struct Path {
    pub tlat: f32,
    pub tlong: f32,
    pub rlat: f32,
    pub rlong: f32,
    pub long: bool,
}

/// What the critical frequencies of the layers are multiplied with.
#[derive(Clone, Copy, Debug, PartialEq)]
pub struct Factors {
    pub e: f32,
    pub f1: f32,
    pub f2: f32,
    pub es: f32,
}

/// The magnetic pole, in degrees.
#[derive(Clone, Copy, Debug, PartialEq)]
pub struct Pole {
    pub lat: f32,
    pub lon: f32,
}

/// The 15 fields of a worksheet's inputs.
#[derive(Clone, Copy, Debug, PartialEq)]
pub struct Inputs {
    pub month: u32,
    pub sunspots: f32,
    /// GMT.
    pub hour: f32,
    pub path: Path,
    pub factors: Factors,
    pub pole: Pole,
    /// The F2 model, `CCIR` or `URSI`. Over a pair of files it picks nothing.
    pub model: u32,
}

impl Inputs {
    /// The fields as 15 little-endian words, of which a sheet over a pair of files has the first 14.
    pub fn words(&self) -> [u8; OPEN_BYTES] {
        let Self {
            month,
            sunspots,
            hour,
            path,
            factors,
            pole,
            model,
        } = *self;
        let words = [
            month,
            sunspots.to_bits(),
            hour.to_bits(),
            path.tlat.to_bits(),
            path.tlong.to_bits(),
            path.rlat.to_bits(),
            path.rlong.to_bits(),
            path.long.into(),
            factors.e.to_bits(),
            factors.f1.to_bits(),
            factors.f2.to_bits(),
            factors.es.to_bits(),
            pole.lat.to_bits(),
            pole.lon.to_bits(),
            model,
        ];
        let mut bytes = [0; OPEN_BYTES];
        for (place, word) in bytes.chunks_exact_mut(4).zip(words) {
            place.copy_from_slice(&word.to_le_bytes());
        }
        bytes
    }
}

/// A sheet's figures.
#[derive(Clone, Debug, PartialEq)]
pub struct Sheet {
    /// 1, 3 or 5.
    pub points: u32,
    pub figures: [f32; FIGURES],
}

impl Sheet {
    /// The bits of the figures. A NaN's bits are not decided: any is given as 7fc00000.
    pub fn bits(&self) -> [u32; FIGURES] {
        self.figures.map(|x| match x.is_nan() {
            true => 0x7fc0_0000,
            false => x.to_bits(),
        })
    }
}

fn answered(answer: raw::Answer) -> Result<(), Refusal> {
    let raw::Answer { number, place } = answer;
    match number {
        0 => Ok(()),
        _ => Err(Refusal { number, place }),
    }
}

/// A buffer of the right length, and what the call made of it.
fn shown(call: impl FnOnce(&mut [f32]) -> raw::Showing) -> Result<Sheet, Refusal> {
    let mut figures = [0.0; FIGURES];
    let raw::Showing {
        points,
        number,
        place,
    } = call(&mut figures);
    match number {
        0 => Ok(Sheet { points, figures }),
        _ => Err(Refusal { number, place }),
    }
}

/// The part of a file that was found, or why it was not.
fn part(file: &[u8], span: raw::Span) -> Result<&[u8], Refusal> {
    let raw::Span {
        start,
        size,
        number,
        place,
    } = span;
    match number {
        0 => Ok(&file[start..start + size]),
        _ => Err(Refusal { number, place }),
    }
}

/// A whole sheet, from its inputs, the month's F2 record and the month file. The model is not looked at:
/// the record is the caller's.
pub fn sheet(inputs: &Inputs, f2: &[u8], month_file: &[u8]) -> Result<Sheet, Refusal> {
    sheet_of_words(&inputs.words(), f2, month_file)
}

/// A whole sheet, from words as the program `sheet` reads them. Bytes that are not there count as 0,
/// and those after the 56th are ignored.
pub fn sheet_of_words(words: &[u8], f2: &[u8], month_file: &[u8]) -> Result<Sheet, Refusal> {
    shown(|out| raw::sheet(words, f2, month_file, out))
}

/// A month's F2 record, a part of the `.daw` file.
pub fn month_record(daw: &[u8], month: u32) -> Result<&[u8], Refusal> {
    part(daw, raw::month_record(daw, month))
}

/// A table's bytes, a part of the file that holds it: number 0, the F2 planes, of the F2 record; 1 to
/// 20 of the month file.
pub fn table<'a>(number: u32, f2: &'a [u8], month_file: &'a [u8]) -> Result<&'a [u8], Refusal> {
    let holder = if number == 0 { f2 } else { month_file };
    part(holder, raw::table(number, f2, month_file))
}

/// The month file's form: 9 where it ends early, 10 at a wrong marker.
pub fn month_file_check(file: &[u8]) -> Result<(), Refusal> {
    answered(raw::month_file_check(file))
}

/// Whether a month file can be used: its form, then the words of its tables, 23 with the byte of the
/// first that is no finite number, then its index table, 11 with the lowest bad map.
pub fn file_check(file: &[u8]) -> Result<(), Refusal> {
    answered(raw::file_check(file))
}

/// A year file's directory: 19 with the lowest pair, 1 to 14, that is not wholly there or breaks a rule.
pub fn year_check(year: &[u8]) -> Result<(), Refusal> {
    answered(raw::year_check(year))
}

/// A month's file, a part of the year file.
pub fn year_month(year: &[u8], month: u32) -> Result<&[u8], Refusal> {
    part(year, raw::year_month(year, month))
}

/// A model's `.daw` file, a part of the year file.
pub fn year_model(year: &[u8], model: u32) -> Result<&[u8], Refusal> {
    part(year, raw::year_model(year, model))
}
