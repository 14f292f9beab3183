//! `desk-run JOURNAL YEAR` and `desk-audit JOURNAL YEAR LINE`: what the program
//! `desk` prints of a journal, by the model; an F2 record and a month file may stand
//! in the place of YEAR. `desk-journal FILE SEED`: a random journal.

use super::answer::{input, print};
use super::{read_file, whole, write_file};
use crate::draw::desk_texts::journal;
use crate::draw::generator::Generator;
use crate::model::desks::lent::Lent;
use crate::model::desks::programs::LONGEST_YEAR;
use crate::model::desks::text::audit::audit_text;
use crate::model::desks::text::run::{lines, run_text};

pub fn run(name: &str, files: &[&str]) -> Result<(), String> {
    let journal = read_journal(name)?;
    print(&run_text(&journal, &lent(files)?))?;
    let (_, cut) = lines(&journal);
    if !cut.is_empty() {
        eprintln!(
            "{name}: {} bytes after the last line are no line",
            cut.len()
        );
    }
    Ok(())
}

pub fn audit(name: &str, files: &[&str], line: &str) -> Result<(), String> {
    let line = whole(line)? as usize;
    print(&audit_text(&read_journal(name)?, &lent(files)?, line))
}

pub fn random(file: &str, seed: &str) -> Result<(), String> {
    write_file(file, &journal(&mut Generator::new(whole(seed)?)))
}

/// `-` is standard input.
fn read_journal(name: &str) -> Result<Vec<u8>, String> {
    match name {
        "-" => input(),
        _ => read_file(name),
    }
}

/// A year file, or a record and a month file.
fn lent(files: &[&str]) -> Result<Lent, String> {
    let files = files.iter().map(|name| {
        let file = read_file(name)?;
        match file.len() {
            ..=LONGEST_YEAR => Ok(file),
            _ => Err(format!("{name}: too long")),
        }
    });
    let files: Vec<Vec<u8>> = files.collect::<Result<_, _>>()?;
    match &files[..] {
        [year] => Ok(Lent::year(year)),
        [record, month] => Ok(Lent::pair(record, month)),
        _ => Err(String::from("one year file, or a record and a month file")),
    }
}
