//! A buffer that is lent to the port, with words on both sides of it.

use crate::bits::Answer;

/// Words on both sides of the buffer that must stay as they are.
const GUARD: usize = 8;
/// How many of the figures that differ are named.
const NAMED: usize = 4;

/// A buffer and the words beside it, with what they held before.
pub struct Buffer {
    before: Vec<u32>,
    held: Vec<f32>,
}

impl Buffer {
    /// For so many numbers; `words` gives as many words as it is asked for.
    pub fn holding(length: usize, words: impl FnOnce(usize) -> Vec<u32>) -> Self {
        let before = words(length + 2 * GUARD);
        let held = before.iter().map(|word| f32::from_bits(*word)).collect();
        Self { before, held }
    }

    /// The part that is lent.
    pub fn lent(&mut self) -> &mut [f32] {
        let end = self.held.len() - GUARD;
        &mut self.held[GUARD..end]
    }

    /// How it differs from what a refusal leaves: every bit as it was, those
    /// of NaNs included.
    pub fn changes(&self) -> Option<String> {
        let held: Vec<u32> = self.held.iter().map(|v| v.to_bits()).collect();
        differing_words(&held, &self.before, "lent")
    }

    /// How it differs from the words of an answer, every NaN as one word. The
    /// words beside it must be as they were.
    pub fn differs_from(&self, answer: &[u32]) -> Option<String> {
        let mut wanted = self.before.clone();
        let mut held: Vec<u32> = self.held.iter().map(|v| v.to_bits()).collect();
        for (i, word) in (GUARD..).zip(answer) {
            wanted[i] = *word;
            held[i] = self.held[i].to_word() as u32;
        }
        differing_words(&held, &wanted, "Rust")
    }
}

/// The first figures that differ; those before and after the buffer have
/// numbers below 0 and beyond its end.
fn differing_words(ours: &[u32], wanted: &[u32], whose: &str) -> Option<String> {
    let mut places: Vec<usize> = (0..ours.len()).collect();
    places.retain(|i| ours[*i] != wanted[*i]);
    let named = places.iter().take(NAMED).map(|i| {
        let number = *i as i64 - GUARD as i64;
        format!(
            "figure {number} port {:08x} {whose} {:08x}",
            ours[*i], wanted[*i]
        )
    });
    let named: Vec<String> = named.collect();
    let count = places.len();
    (count > 0).then(|| format!("{count} figures differ: {}", named.join(", ")))
}
