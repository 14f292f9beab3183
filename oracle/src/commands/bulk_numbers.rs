//! `bulk-numbers COUNT SEED [NAME]`: the port's exported functions beside
//! the Rust's over special and random arguments.

use crate::commands::whole;
use crate::draw::generator::Generator;
use crate::draw::ranges::inside;
use crate::draw::specials::specials;
use crate::functions::{Function, FUNCTIONS};

pub fn run(count: &str, seed: &str, name: Option<&str>) -> Result<(), String> {
    let count = whole(count)?;
    let seed = whole(seed)?;
    let mut run = 0;
    let mut differing = 0;
    for function in &FUNCTIONS {
        let Some(port) = function.port else { continue };
        if name.is_none_or(|name| name == function.name) {
            run += 1;
            differing += compare(function, port, count, seed);
        }
    }
    match (run, differing) {
        (0, _) => Err(format!("no exported function {}", name.unwrap_or(""))),
        (_, 0) => Ok(()),
        _ => Err(format!("{differing} answers differ")),
    }
}

/// Prints one line and gives the number of answers that differ. NaNs are
/// one word on both sides.
fn compare(function: &Function, port: fn(u64) -> u64, count: u64, seed: u64) -> u64 {
    let mut random = Generator::new(seed.wrapping_mul(1 << 8) ^ function.number);
    let special = specials(function);
    let compared = special.len() as u64 + count;
    let mut differing = 0;
    let mut first = None;
    let words = special
        .into_iter()
        .chain((0..count).map(|i| argument(function, &mut random, i)));
    for word in words {
        let (ours, theirs) = (port(word), (function.rust)(word));
        if ours != theirs {
            differing += 1;
            first = first.or(Some((word, ours, theirs)));
        }
    }
    println!(
        "{:<9} {compared:>12} compared {differing:>12} differ",
        function.name
    );
    if let Some((word, ours, theirs)) = first {
        println!("    first at {word:#018x}: port {ours:#018x}, Rust {theirs:#018x}");
    }
    differing
}

/// Any bits and bits inside the function's range in turn.
fn argument(function: &Function, random: &mut Generator, i: u64) -> u64 {
    if i.is_multiple_of(2) {
        random.any(function.kind)
    } else {
        inside(function, random)
    }
}
