//! The repository's data, and files read piece by piece.

// No test needs all of it.
#![allow(dead_code)]

pub use jutetrowel::raw::{
    INPUT_BYTES as WORDS, MONTH_FILE_BYTES as MONTH_FILE, RECORD_BYTES as RECORD,
};
use std::path::Path;

/// A file of the repository.
pub fn data(path: &str) -> Vec<u8> {
    let root = Path::new(env!("CARGO_MANIFEST_DIR")).join("../..");
    std::fs::read(root.join(path)).unwrap_or_else(|e| panic!("{path}: {e}"))
}

/// What is left of a file to read.
pub struct Reader<'a>(pub &'a [u8]);

impl<'a> Reader<'a> {
    pub fn bytes(&mut self, n: usize) -> &'a [u8] {
        let (piece, rest) = self.0.split_at(n);
        self.0 = rest;
        piece
    }

    pub fn word(&mut self) -> u32 {
        u32::from_le_bytes(self.bytes(4).try_into().expect("four bytes"))
    }

    /// Bytes after their length.
    pub fn part(&mut self) -> &'a [u8] {
        let length = self.word() as usize;
        self.bytes(length)
    }

    pub fn is_empty(&self) -> bool {
        self.0.is_empty()
    }
}

/// A sheet's lines as the programs print them.
pub fn lines(bits: &[u32]) -> String {
    bits.iter().map(|word| format!("{word:08x}\n")).collect()
}
