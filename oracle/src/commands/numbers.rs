//! `numbers FILE`: the vectors of the arithmetic, in rows of function
//! number, argument and answer, three little-endian u64 each. A row of
//! function 0 stands before each function's and holds its name.

use super::put_file;
use crate::bits::Answer;
use crate::draw::generator::Generator;
use crate::draw::ranges::inside;
use crate::draw::specials::specials;
use crate::functions::{Function, FUNCTIONS};
use crate::reference::voacap::con::{MagneticPole, D2R, DCL, GAMA, PI, PI2, PIO2, R2D, RZ, VOFL};
use std::collections::HashSet;

const SEED: u64 = 0x6a75_7465;
const CONSTANT: u64 = 40;

pub fn run(file: &str) -> Result<(), String> {
    let mut bytes = Vec::new();
    for function in &FUNCTIONS {
        let words = arguments(function);
        println!(
            "{:>2} {:<12} {:>5} rows",
            function.number,
            function.name,
            words.len()
        );
        push_heading(&mut bytes, function.name);
        for word in words {
            push_row(&mut bytes, [function.number, word, (function.rust)(word)]);
        }
    }
    let constants = constants();
    println!("{CONSTANT} {:<12} {:>5} rows", "constants", constants.len());
    push_heading(&mut bytes, "constants");
    for (index, constant) in (0..).zip(constants) {
        push_row(&mut bytes, [CONSTANT, index, constant.to_word()]);
    }
    println!("{} rows, {} bytes", bytes.len() / 24, bytes.len());
    put_file(file, &bytes)
}

fn push_row(bytes: &mut Vec<u8>, row: [u64; 3]) {
    bytes.extend(row.iter().flat_map(|word| word.to_le_bytes()));
}

/// The name's bytes, filled up with zeros.
fn push_heading(bytes: &mut Vec<u8>, name: &str) {
    let mut row = [0; 24];
    row[8..8 + name.len()].copy_from_slice(name.as_bytes());
    bytes.extend(row);
}

/// The seed depends on the number, so that a further function leaves the
/// rows of the others as they are.
fn arguments(function: &Function) -> Vec<u64> {
    let mut random = Generator::new(SEED + function.number);
    let mut words = specials(function);
    words.extend(random.spread(function.kind));
    let more = inside_count(function.stem());
    words.extend((0..more).map(|_| inside(function, &mut random)));
    let mut seen = HashSet::new();
    words.retain(|word| seen.insert(*word));
    words
}

/// Few of the spread arguments fall into the range of these.
fn inside_count(stem: &str) -> usize {
    match stem {
        "sin" | "cos" | "acos" | "exp" | "narrow" => 2100,
        "atan" | "ln" | "to_i32" | "to_u64" => 1000,
        _ => 400,
    }
}

fn constants() -> [f32; 11] {
    let pole = MagneticPole::default();
    let [lat, lon] = [pole.lat_deg, pole.lon_deg];
    [D2R, R2D, PI, PI2, PIO2, RZ, VOFL, GAMA, DCL, lat, lon]
}
