//! `time-paths`: random paths near the poles and anywhere, on both sides.

use crate::bits::words;
use crate::commands::timing::{best, REPEATS};
use crate::draw::generator::Generator;
use crate::draw::route_kinds::of_kind;
use crate::port::layers as port;
use crate::reference::layers::measured;
use crate::reference::sheets::Sheet;
use std::hint::black_box;

const KINDS: [&str; 2] = ["near poles", "anywhere"];
/// Many, so that the outcome of a branch is not known from the round before.
const PATHS: usize = 1024;

pub fn run() -> Result<(), String> {
    println!("microseconds for a path, best of {REPEATS} runs over {PATHS} paths");
    println!("{:<14}{:>9}{:>9}{:>8}", "", "port", "Rust", "ratio");
    for kind in KINDS {
        let cases = paths(kind).expect("a kind of path");
        let column = best(&cases, &[("port", &by_port), ("Rust", &by_rust)]);
        let [port, rust] = [column[0].1, column[1].1];
        println!("{kind:<14}{port:>9.3}{rust:>9.3}{:>8.2}", port / rust);
    }
    Ok(())
}

/// Random paths of one kind. Of a sheet only the route is used.
pub fn paths(kind: &str) -> Option<Vec<Sheet>> {
    let kind = KINDS.into_iter().find(|known| *known == kind)?;
    let mut random = Generator::new(3);
    let sheet = |_| Sheet {
        month: 1,
        ssn: 0.0,
        gmt: 0.0,
        route: of_kind(kind, &mut random),
        psc: [1.0; 4],
    };
    let cases: Vec<Sheet> = (0..PATHS).map(sheet).collect();
    cases.iter().for_each(assert_alike);
    Some(cases)
}

pub fn by_port(sheet: &Sheet) {
    black_box(port::path(&sheet.route, sheet.route.long.into()));
}

pub fn by_rust(sheet: &Sheet) {
    black_box(measured(sheet));
}

/// Times of wrong answers would be worth nothing.
fn assert_alike(sheet: &Sheet) {
    let (numbers, points) = port::path(&sheet.route, sheet.route.long.into());
    let (wanted, count) = measured(sheet);
    assert_eq!((words(numbers), points), (words(wanted), count));
}
