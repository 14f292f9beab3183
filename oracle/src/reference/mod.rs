//! The Rust's side: the compared sources, run on document 01's steps.

pub mod branches;
pub mod clocks;
pub mod files;
// Without the port only the hour step's vectors take a part of it.
#[cfg_attr(not(linked), allow(dead_code))]
pub mod layers;
pub mod numbers;
pub mod routes;
pub mod sheets;
pub mod steps;
pub mod tables;
pub mod voacap;
