//! What the commands share that compare larger answers of the port with the
//! Rust's.

#[cfg(linked)]
use crate::bits::Answer;
#[cfg(linked)]
use jutetrowel::raw;

/// What an untouched buffer holds: no NaN, and no likely answer.
#[cfg(linked)]
const UNTOUCHED: u32 = 0x5a5a_5a5a;

pub struct Tally {
    name: &'static str,
    compared: u64,
    differing: u64,
    first: Option<String>,
}

impl Tally {
    pub fn new(name: &'static str) -> Self {
        Self {
            name,
            compared: 0,
            differing: 0,
            first: None,
        }
    }

    pub fn note(&mut self, case: u64, difference: Option<String>) {
        self.compared += 1;
        if let Some(text) = difference {
            self.differing += 1;
            self.first.get_or_insert(format!("case {case}: {text}"));
        }
    }

    /// An error if fewer answers than so many were compared.
    pub fn refuse_rare(&self, least: u64) -> Result<(), String> {
        match self.compared {
            count if count < least => Err(format!("{} came only {count} times", self.name)),
            _ => Ok(()),
        }
    }

    /// Prints one line and gives the number of answers that differ.
    fn print(&self) -> u64 {
        println!(
            "{:<20} {:>12} compared {:>12} differ",
            self.name, self.compared, self.differing
        );
        if let Some(first) = &self.first {
            println!("    first in {first}");
        }
        self.differing
    }
}

/// Prints all tallies; an error if there is a difference in any.
pub fn report(tallies: &[Tally]) -> Result<(), String> {
    let differing: u64 = tallies.iter().map(Tally::print).sum();
    match differing {
        0 => Ok(()),
        _ => Err(format!("{differing} answers differ")),
    }
}

/// An accepted call fills the array with the values that are wanted; a refused
/// one leaves it as it was.
#[cfg(linked)]
pub fn filled<const N: usize>(
    answer: (u32, u32),
    wanted: Option<Vec<f32>>,
    port: impl FnOnce(&mut [f32; N]) -> raw::Answer,
) -> Option<String> {
    let mut out = [f32::from_bits(UNTOUCHED); N];
    let given = port(&mut out);
    if (given.number, given.place) != answer {
        return Some(format!("answer {} at {}", given.number, given.place));
    }
    let wanted = wanted.unwrap_or_else(|| vec![f32::from_bits(UNTOUCHED); N]);
    difference(&out, &wanted)
}

/// The first place at which the words differ; NaNs are one word.
#[cfg(linked)]
fn difference(ours: &[f32], wanted: &[f32]) -> Option<String> {
    let words = |values: &[f32]| -> Vec<u64> { values.iter().map(|v| v.to_word()).collect() };
    let (ours, wanted) = (words(ours), words(wanted));
    let i = (0..ours.len()).find(|i| ours[*i] != wanted[*i])?;
    Some(format!(
        "element {i}: port {:08x}, wanted {:08x}",
        ours[i], wanted[i]
    ))
}
