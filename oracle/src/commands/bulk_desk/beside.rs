//! The program `desk`, run as a process in a folder of its own, and what it prints
//! beside what the model prints.

use super::lent::Files;
use crate::commands::program::{difference, run_heard};
use crate::commands::put;
use std::path::Path;
use std::process::Output;

/// Inputs of so many differences are kept.
const KEPT: u64 = 20;

/// What must stand on standard error.
#[derive(Debug, Clone, Copy, PartialEq, Eq)]
pub enum Errors {
    None,
    Some,
    Any,
}

pub struct Beside<'a> {
    program: &'a str,
    folder: &'a str,
    files: Vec<(&'static str, Vec<u8>)>,
    /// Of the journal that is compared.
    name: String,
    runs: u64,
    audits: u64,
    shorter: u64,
    differing: u64,
}

impl<'a> Beside<'a> {
    pub fn new(program: &'a str, folder: &'a str) -> Self {
        Self {
            program,
            folder,
            files: Vec::new(),
            name: String::new(),
            runs: 0,
            audits: 0,
            shorter: 0,
            differing: 0,
        }
    }

    /// The files of all journals until others are put.
    pub fn put_files(&mut self, files: Files) -> Result<(), String> {
        let own = |(name, bytes): (&'static str, &[u8])| (name, bytes.to_vec());
        self.files = files.named().into_iter().map(own).collect();
        for (name, bytes) in &self.files {
            put(self.folder, name, bytes)?;
        }
        Ok(())
    }

    pub fn name(&mut self, name: &str) {
        self.name = String::from(name);
    }

    pub fn run(&mut self, journal: &[u8], wanted: &str, errors: Errors) -> Result<(), String> {
        put(self.folder, "journal", journal)?;
        self.runs += 1;
        let arguments = self.arguments("run", "journal", None);
        self.compare(journal, &arguments, &[], wanted, errors)?;
        Ok(())
    }

    pub fn run_from_input(
        &mut self,
        journal: &[u8],
        wanted: &str,
        errors: Errors,
    ) -> Result<(), String> {
        // Audits read the file.
        put(self.folder, "journal", journal)?;
        self.runs += 1;
        let mut arguments = self.arguments("run", "journal", None);
        arguments[1] = String::from("-");
        self.compare(journal, &arguments, journal, wanted, errors)?;
        Ok(())
    }

    /// Of a journal that was run. Gives what the program printed.
    pub fn audit(&mut self, journal: &[u8], line: usize, wanted: &str) -> Result<String, String> {
        self.audits += 1;
        let arguments = self.arguments("audit", "journal", Some(line));
        self.compare(journal, &arguments, &[], wanted, Errors::Any)
    }

    /// Gives what the program printed.
    pub fn run_shorter(&mut self, journal: &str, wanted: &str) -> Result<String, String> {
        let journal = journal.as_bytes();
        put(self.folder, "shorter", journal)?;
        self.shorter += 1;
        let arguments = self.arguments("run", "shorter", None);
        self.compare(journal, &arguments, &[], wanted, Errors::None)
    }

    fn arguments(&self, what: &str, journal: &str, line: Option<usize>) -> Vec<String> {
        let path = |name: &str| {
            let path = Path::new(self.folder).join(name);
            path.to_string_lossy().into_owned()
        };
        let files = self.files.iter().map(|(name, _)| path(name));
        let line = line.map(|line| line.to_string());
        let start = [String::from(what), path(journal)].into_iter();
        start.chain(files).chain(line).collect()
    }

    /// Output as wanted, an end with 0, and something on standard error or not.
    fn compare(
        &mut self,
        journal: &[u8],
        arguments: &[String],
        input: &[u8],
        wanted: &str,
        errors: Errors,
    ) -> Result<String, String> {
        let words: Vec<&str> = arguments.iter().map(String::as_str).collect();
        let output = run_heard(self.program, &words, input)?;
        if let Some(what) = wrong(&output, wanted, errors) {
            self.differs(&format!("{}: {what}", words.join(" ")));
            self.keep(journal, wanted, &output.stdout)?;
        }
        Ok(String::from_utf8_lossy(&output.stdout).into_owned())
    }

    pub fn differs(&mut self, what: &str) {
        self.differing += 1;
        println!("difference {}, {}: {what}", self.differing, self.name);
    }

    fn keep(&self, journal: &[u8], wanted: &str, given: &[u8]) -> Result<(), String> {
        if self.differing > KEPT {
            return Ok(());
        }
        let parts = [
            ("journal", journal),
            ("wanted", wanted.as_bytes()),
            ("given", given),
        ];
        let files = self.files.iter().map(|(name, bytes)| (*name, &bytes[..]));
        for (name, bytes) in parts.into_iter().chain(files) {
            let name = format!("differs-{}.{name}", self.differing);
            put(self.folder, &name, bytes)?;
        }
        Ok(())
    }

    /// An error if something differed.
    pub fn report(&self) -> Result<(), String> {
        let Self {
            runs,
            audits,
            shorter,
            differing,
            ..
        } = self;
        println!("{runs} runs, {audits} audits and {shorter} shorter journals compared");
        println!("{differing} differ");
        match differing {
            0 => Ok(()),
            count => Err(format!("{count} outputs differ")),
        }
    }
}

fn wrong(output: &Output, wanted: &str, errors: Errors) -> Option<String> {
    if output.stdout != wanted.as_bytes() {
        return Some(difference(&output.stdout, wanted));
    }
    if output.status.code() != Some(0) {
        return Some(format!("ends with {}", output.status));
    }
    let said = String::from_utf8_lossy(&output.stderr);
    match (errors, said.is_empty()) {
        (Errors::None, false) => Some(format!("standard error has {said:?}")),
        (Errors::Some, true) => Some(String::from("nothing on standard error")),
        _ => None,
    }
}

#[cfg(test)]
mod tests {
    use super::{wrong, Errors};
    use crate::commands::program::run_heard;

    /// What a program of these shell commands does wrong.
    fn found(commands: &str, errors: Errors) -> Option<String> {
        let output = run_heard("sh", &["-c", commands], &[]).expect("sh is everywhere");
        wrong(&output, "line 1: accepted\n", errors)
    }

    #[test]
    fn every_difference_is_found() {
        let good = "echo line 1: accepted";
        assert_eq!(found(good, Errors::None), None);
        assert_eq!(found(good, Errors::Any), None);
        assert!(found(good, Errors::Some).is_some());
        let cut = "echo line 1: accepted; echo cut >&2";
        assert_eq!(found(cut, Errors::Some), None);
        assert_eq!(found(cut, Errors::Any), None);
        assert!(found(cut, Errors::None).is_some());
        for other in [
            "echo line 2: accepted",
            "printf 'line 1: accepted'",
            "echo line 1: accepted; echo",
            "echo line 1: accepted; exit 1",
            "echo line 1: accepted; kill -9 $$",
            "true",
        ] {
            assert!(found(other, Errors::Any).is_some(), "{other}");
        }
    }
}
