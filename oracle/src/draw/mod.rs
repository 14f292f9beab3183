//! What both sides are asked, by hand or from seeds: numbers to data files.

pub mod clock_kinds;
pub mod damage;
pub mod data_files;
pub mod desk_texts;
pub mod generator;
pub mod journal_kinds;
pub mod ranges;
pub mod route_kinds;
pub mod sheet_kinds;
pub mod specials;
pub mod year_files;
