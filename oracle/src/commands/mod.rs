//! The commands, a module for each, and what they share.

pub mod answer;
#[cfg(linked)]
pub mod bulk_clocks;
pub mod bulk_desk;
pub mod bulk_desk_lines;
#[cfg(linked)]
pub mod bulk_files;
pub mod bulk_journals;
#[cfg(linked)]
pub mod bulk_layers;
pub mod bulk_lines;
#[cfg(any(linked, test))]
pub mod bulk_lists;
#[cfg(linked)]
pub mod bulk_numbers;
pub mod bulk_routes;
pub mod bulk_sheet;
#[cfg(linked)]
pub mod bulk_sheets;
#[cfg(linked)]
pub mod bulk_tables;
pub mod bulk_year_journals;
#[cfg(any(linked, test))]
pub mod bulk_years;
pub mod clocks;
pub mod data;
pub mod desk;
pub mod desk_words;
pub mod files;
pub mod finite;
pub mod hours;
pub mod journals;
pub mod lines;
pub mod numbers;
pub mod pages;
#[cfg(linked)]
pub mod repeat_sheets;
pub mod replay_input;
pub mod routes;
pub mod self_check;
pub mod sheet_inputs;
pub mod sheets;
#[cfg(linked)]
pub mod time_hours;
#[cfg(linked)]
pub mod time_layers;
#[cfg(linked)]
pub mod time_numbers;
#[cfg(linked)]
pub mod time_paths;
pub mod time_sheets;
#[cfg(linked)]
pub mod time_years;
pub mod year;
pub mod year_journals;

#[cfg(any(linked, test))]
mod buffer;
#[cfg(any(linked, test))]
mod compare;
#[cfg(any(linked, test))]
mod growth;
#[cfg(linked)]
mod lent;
#[cfg(linked)]
mod parts;
mod program;
#[cfg(linked)]
mod sides;
mod timing;

use std::fs;
use std::path::Path;

/// Writes a file of `folder`, with a line about it.
fn write(folder: &str, name: &str, bytes: &[u8]) -> Result<(), String> {
    put(folder, name, bytes)?;
    println!("{name:<12} {:>7} bytes", bytes.len());
    Ok(())
}

/// Writes a file of `folder`, which is made if it is not there.
fn put(folder: &str, name: &str, bytes: &[u8]) -> Result<(), String> {
    fs::create_dir_all(folder).map_err(|e| format!("cannot make {folder}: {e}"))?;
    put_file(Path::new(folder).join(name), bytes)
}

/// Writes a file, with a line about it.
fn write_file(file: impl AsRef<Path>, bytes: &[u8]) -> Result<(), String> {
    put_file(&file, bytes)?;
    println!("{}: {} bytes", file.as_ref().display(), bytes.len());
    Ok(())
}

fn put_file(file: impl AsRef<Path>, bytes: &[u8]) -> Result<(), String> {
    let file = file.as_ref();
    fs::write(file, bytes).map_err(|e| format!("cannot write {}: {e}", file.display()))
}

fn read_file(file: &str) -> Result<Vec<u8>, String> {
    fs::read(file).map_err(|e| format!("cannot read {file}: {e}"))
}

fn whole(word: &str) -> Result<u64, String> {
    word.parse()
        .map_err(|_| format!("{word} is not a whole number"))
}
