//! What the program `desk` reads and prints, written from docs/PROGRAMS.md,
//! docs/REFUSALS.md and docs/FIGURES.md alone. What these leave open is in
//! `unsaid.rs` and nowhere else.

pub mod audit;
pub mod line;
pub mod number;
pub mod run;
pub mod said;
pub mod settled;
pub mod sheet;
pub mod unsaid;

#[cfg(test)]
mod tests;
