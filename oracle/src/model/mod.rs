//! What the Rust has not, from documents 01 and 02 alone: the desks, the index
//! check, the words that are no finite numbers, the year file's directory.

pub mod desks;
pub mod finite_words;
pub mod index_check;
pub mod year;
