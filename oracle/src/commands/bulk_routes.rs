//! `bulk-routes FILE COUNT SEED`: random routes with the Rust's answers, in the
//! form of `routes`, for the port's replay to read.

use crate::commands::routes::{push_heading, row};
use crate::commands::whole;
use crate::draw::generator::Generator;
use crate::draw::route_kinds::{any_bits, Draw, KINDS};
use crate::month_file::push_words;
use crate::reference::branches;
use std::fs::File;
use std::io::{BufWriter, Write};

pub fn run(file: &str, count: &str, seed: &str) -> Result<(), String> {
    let (count, seed) = (whole(count)?, whole(seed)?);
    let failed = |e: std::io::Error| format!("cannot write {file}: {e}");
    let mut out = BufWriter::new(File::create(file).map_err(failed)?);
    let kinds = kinds();
    for (kind, (name, draw)) in (0..).zip(&kinds) {
        let mut random = Generator::of_case(seed, kind);
        let mut bytes = Vec::new();
        push_heading(&mut bytes, name);
        for _ in 0..count / kinds.len() as u64 {
            push_words(&mut bytes, &row(&draw(&mut random))?);
            // The counted sources' notes are of no use here.
            branches::take();
        }
        out.write_all(&bytes).map_err(failed)?;
    }
    out.flush().map_err(failed)
}

/// Any bits come last.
fn kinds() -> Vec<(&'static str, Draw)> {
    let mut kinds = KINDS.to_vec();
    kinds.push(("any bits", any_bits));
    kinds
}
