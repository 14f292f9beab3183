//! `replay`, `replay year`, `sheet` and `page`: what the model prints for standard
//! input.

use crate::model::desks::{page, programs};
use std::io::{self, Read, Write};

pub fn replay() -> Result<(), String> {
    let replayed = programs::replay(&input()?);
    print(&programs::replay_text(&replayed))
}

pub fn replay_year() -> Result<(), String> {
    let replayed = programs::replay_year(&input()?);
    print(&programs::replay_text(&replayed))
}

pub fn sheet() -> Result<(), String> {
    let answer = programs::sheet(&input()?);
    print(&programs::sheet_text(&answer))
}

pub fn page() -> Result<(), String> {
    print(&page::page_text(&input()?))
}

pub fn input() -> Result<Vec<u8>, String> {
    let mut input = Vec::new();
    let read = io::stdin().read_to_end(&mut input);
    read.map_err(|e| format!("cannot read standard input: {e}"))?;
    Ok(input)
}

pub fn print(text: &str) -> Result<(), String> {
    let written = io::stdout().write_all(text.as_bytes());
    written.map_err(|e| format!("cannot write standard output: {e}"))
}
