//! The Rust that the port is compared with, run on document 01's steps: it
//! makes vectors, compares in bulk and times both sides.

#![forbid(unsafe_code)]

mod bits;
mod commands;
mod draw;
mod functions;
mod model;
mod month_file;
#[cfg(linked)]
mod port;
mod reference;

use commands::{
    answer, bulk_desk, bulk_desk_lines, bulk_journals, bulk_lines, bulk_routes, bulk_sheet,
    bulk_year_journals, clocks, data, desk, desk_words, files, finite, hours, journals, lines,
    numbers, pages, replay_input, routes, self_check, sheet_inputs, sheets, time_sheets, year,
    year_journals,
};
#[cfg(linked)]
use commands::{
    bulk_clocks, bulk_files, bulk_layers, bulk_lists, bulk_numbers, bulk_sheets, bulk_tables,
    bulk_years, repeat_sheets, time_hours, time_layers, time_numbers, time_paths, time_years,
};
// The compared Rust names its modules from here.
use reference::voacap;
use std::env;
use std::process::ExitCode;

const USAGE: &str = "usage:
  oracle numbers FILE                           write the vectors of the arithmetic
  oracle bulk-numbers COUNT SEED [NAME]         compare the port's functions with the Rust's
  oracle time-numbers                           time the port's functions and the Rust's
  oracle data DIR                               write data files made from seeds
  oracle year FILE SEED                         write a year file made from a seed
  oracle year-parts DIR FILE                    write fourteen parts and the year file of them
  oracle year-damaged FILE                      write a year file with damaged parts
  oracle year-few FILE                          write a small year file, two months of which are good
  oracle year-pair RECORD MONTH                 write January's F2 record and month file of that one
  oracle year-cut FILE                          write that one as far as the middle of January
  oracle year-check FILE                        say what can be shown from a year file, by the model
  oracle replay-input FILE                      write an input of the program replay
  oracle files DIR                              write the vectors of the file functions
  oracle finite FILE                            write the vectors of words that are no finite numbers
  oracle bulk-files COUNT SEED                  compare the port's file functions with the Rust's
  oracle clocks FILE                            write the vectors of the clocks
  oracle bulk-clocks COUNT SEED                 compare the port's clocks with the Rust's
  oracle bulk-tables COUNT SEED                 compare the port's tables with the Rust's
  oracle bulk-years COUNT SEED                  compare year files' directories with the model
  oracle routes FILE                            write the vectors of path geometry and field
  oracle bulk-routes FILE COUNT SEED            write random routes in the same form, to be replayed
  oracle hours FILE                             write the vectors of the hour step
  oracle sheets FILE                            write the vectors of whole sheets
  oracle bulk-sheets COUNT SEED                 compare the port's figures with the Rust's
  oracle bulk-layers COUNT SEED                 compare the parts of the port's sheets with the Rust's
  oracle journals FILE                          write short journals of the desks with their answers
  oracle year-journals FILE                     write the same over year files
  oracle sheet-inputs DIR                       write inputs of the program sheet with its outputs
  oracle sheets-in FILE                         write the same inputs in a compact form
  oracle pages FILE                             write pages for people as sheet page prints them
  oracle bulk-journals COUNT SEED PROGRAM       compare the port's program replay with the model
  oracle bulk-year-journals COUNT SEED PROGRAM  the same with the argument year
  oracle bulk-lists COUNT SEED                  compare the port's worksheet calls with the model
  oracle bulk-year-lists COUNT SEED             the same over year files
  oracle bulk-sheet COUNT SEED PROGRAM          compare the port's program sheet with the model
  oracle desk-run JOURNAL YEAR                  say what desk run prints, by the model
  oracle desk-run JOURNAL RECORD MONTH          the same over a pair of files
  oracle desk-audit JOURNAL YEAR LINE           the same of desk audit
  oracle desk-journal FILE SEED                 write a random journal of the program desk
  oracle desk-words JOURNAL YEAR FILE           write an input of replay year with a journal's calls
  oracle bulk-desk COUNT SEED PROGRAM FOLDER    compare the port's program desk with the model
  oracle bulk-desk-lines COUNT SEED PROGRAM FOLDER
                                                the same over lines, numbers above all
  oracle lines-in FILE                          write lines of every kind for the program lines
  oracle lines FILE                             say what each line of a file is, by the model
  oracle bulk-lines COUNT SEED PROGRAM          compare the port's program lines with the model
  oracle replay, oracle replay year, oracle sheet, oracle page
                                                answer standard input as the model does
  oracle time-sheets                            time whole sheets and the Rust's parts of them
  oracle time-years                             time showings over a year file and over pairs of files
  oracle time-layers                            time sheets, refused files and parts of both sides
  oracle time-hours                             time the maps at an hour, the hour step by itself
  oracle time-paths                             time paths near the poles and anywhere
  oracle repeat-sheets SIDE KIND COUNT          make sheets by one side, to count instructions
  oracle self-check                             hold the steps against the library's functions";

fn main() -> ExitCode {
    let words: Vec<String> = env::args().skip(1).collect();
    let words: Vec<&str> = words.iter().map(String::as_str).collect();
    match command(&words) {
        Ok(()) => ExitCode::SUCCESS,
        Err(message) => {
            eprintln!("{message}");
            ExitCode::FAILURE
        }
    }
}

fn command(words: &[&str]) -> Result<(), String> {
    match words {
        ["numbers", file] => numbers::run(file),
        ["data", folder] => data::run(folder),
        ["files", folder] => files::run(folder),
        ["finite", file] => finite::run(file),
        ["clocks", file] => clocks::run(file),
        ["routes", file] => routes::run(file),
        ["bulk-routes", file, count, seed] => bulk_routes::run(file, count, seed),
        ["hours", file] => hours::run(file),
        ["sheets", file] => sheets::run(file),
        ["year", file, seed] => year::run(file, seed),
        ["year-parts", folder, file] => year::parts(folder, file),
        ["year-damaged", file] => year::damaged(file),
        ["year-few", file] => year::few(file),
        ["year-pair", record, month] => year::pair(record, month),
        ["year-cut", file] => year::cut(file),
        ["year-check", file] => year::check(file),
        ["replay-input", file] => replay_input::run(file),
        ["journals", file] => journals::run(file),
        ["year-journals", file] => year_journals::run(file),
        ["sheet-inputs", folder] => sheet_inputs::files(folder),
        ["sheets-in", file] => sheet_inputs::compact(file),
        ["pages", file] => pages::run(file),
        ["bulk-journals", count, seed, program] => bulk_journals::run(count, seed, program),
        ["bulk-year-journals", count, seed, program] => {
            bulk_year_journals::run(count, seed, program)
        }
        ["bulk-sheet", count, seed, program] => bulk_sheet::run(count, seed, program),
        ["desk-run", journal, files @ ..] if is_files(files) => desk::run(journal, files),
        ["desk-audit", journal, files @ .., line] if is_files(files) => {
            desk::audit(journal, files, line)
        }
        ["desk-journal", file, seed] => desk::random(file, seed),
        ["desk-words", journal, year, file] => desk_words::run(journal, year, file),
        ["bulk-desk", count, seed, program, folder] => bulk_desk::run(count, seed, program, folder),
        ["bulk-desk-lines", count, seed, program, folder] => {
            bulk_desk_lines::run(count, seed, program, folder)
        }
        ["lines-in", file] => lines::input(file),
        ["lines", file] => lines::run(file),
        ["bulk-lines", count, seed, program] => bulk_lines::run(count, seed, program),
        ["replay"] => answer::replay(),
        ["replay", "year"] => answer::replay_year(),
        ["sheet"] => answer::sheet(),
        ["page"] => answer::page(),
        ["time-sheets"] => time_sheets::run(),
        ["self-check"] => self_check::run(),
        _ => with_port(words),
    }
}

/// A year file, or a record and a month file.
fn is_files(names: &[&str]) -> bool {
    (1..=2).contains(&names.len())
}

/// The commands that call the port's library.
#[cfg(linked)]
fn with_port(words: &[&str]) -> Result<(), String> {
    match words {
        ["bulk-numbers", count, seed] => bulk_numbers::run(count, seed, None),
        ["bulk-numbers", count, seed, name] => bulk_numbers::run(count, seed, Some(name)),
        ["time-numbers"] => time_numbers::run(),
        ["bulk-files", count, seed] => bulk_files::run(count, seed),
        ["bulk-clocks", count, seed] => bulk_clocks::run(count, seed),
        ["bulk-tables", count, seed] => bulk_tables::run(count, seed),
        ["bulk-sheets", count, seed] => bulk_sheets::run(count, seed),
        ["bulk-layers", count, seed] => bulk_layers::run(count, seed),
        ["bulk-lists", count, seed] => bulk_lists::over_pairs(count, seed),
        ["bulk-year-lists", count, seed] => bulk_lists::over_years(count, seed),
        ["bulk-years", count, seed] => bulk_years::run(count, seed),
        ["time-layers"] => time_layers::run(),
        ["time-years"] => time_years::run(),
        ["time-hours"] => time_hours::run(),
        ["time-paths"] => time_paths::run(),
        ["repeat-sheets", side, kind, count] => repeat_sheets::run(side, kind, count),
        _ => Err(String::from(USAGE)),
    }
}

#[cfg(not(linked))]
fn with_port(words: &[&str]) -> Result<(), String> {
    let message = match words {
        ["bulk-numbers" | "bulk-files" | "bulk-clocks" | "bulk-tables", ..]
        | ["bulk-sheets" | "bulk-layers" | "bulk-lists" | "bulk-year-lists", ..]
        | ["bulk-years" | "time-numbers" | "time-layers" | "time-years", ..]
        | ["time-hours" | "time-paths" | "repeat-sheets", ..] => {
            "this needs the port: build with JUTETROWEL_LIB set to the folder \
             that holds libjutetrowel.a"
        }
        _ => USAGE,
    };
    Err(String::from(message))
}
