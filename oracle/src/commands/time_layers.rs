//! `time-layers`: whole sheets, refused files and the parts of a sheet by
//! themselves on both sides, and how a sheet's time grows with its maps.

use crate::commands::growth;
use crate::commands::parts::{Part, Parts};
use crate::commands::sides::{Sides, Wrong};
use crate::commands::timing::{best, REPEATS, ROUTES};
use crate::draw::data_files::{named, Pair};

const PARTS: &str = "
Month file: the port checks form and index table; the Rust checks the form and
reads every word. Blends: the port has two calls, which both check the month
file; the Rust reads and blends. Maps at an hour: the port checks, blends and
sums; the Rust reads, blends and sums. Layers at a place: the port checks the
month file and blends the height map each time; the Rust's set is read already,
which is not in its time.";

pub fn run() -> Result<(), String> {
    println!("microseconds on calm-1, best of {REPEATS} runs over {ROUTES} routes");
    whole();
    refused();
    parts();
    grown();
    Ok(())
}

fn calm_1() -> Pair {
    let [(_, pair), ..] = named();
    pair
}

fn head(title: &str) {
    println!("\n{title:<32}{:>9}{:>9}{:>8}", "port", "Rust", "ratio");
}

/// The port's time and the Rust's, by turns.
fn row<T>(name: &str, cases: &[T], port: &dyn Fn(&T), rust: &dyn Fn(&T)) {
    let column = best(cases, &[("port", port), ("Rust", rust)]);
    let [port, rust] = [column[0].1, column[1].1];
    println!("{name:<32}{port:>9.2}{rust:>9.2}{:>8.2}", port / rust);
}

fn sides(name: &str, sides: &Sides) {
    sides.assert_alike();
    let port = |case: &_| sides.port(case);
    row(name, &sides.cases, &port, &|case| sides.rust(case));
}

fn whole() {
    head("whole sheets");
    for (name, points) in [("  1 point", 1), ("  3 points", 3), ("  5 points", 5)] {
        sides(name, &five_or_fewer(calm_1(), points));
    }
}

fn five_or_fewer(pair: Pair, points: u32) -> Sides {
    Sides::whole(pair, points).expect("1, 3 or 5 points")
}

fn refused() {
    head("refused month files");
    let kinds = [
        ("  last marker wrong", Wrong::Marker),
        ("  cut to half", Wrong::Half),
    ];
    for (name, wrong) in kinds {
        let refused = Sides::refused(calm_1(), wrong).expect("five points");
        sides(name, &refused);
    }
}

fn parts() {
    let parts = Parts::of(calm_1());
    head("parts of a sheet");
    for (name, part) in Part::ALL {
        let port = |case: &_| parts.port(part, case);
        let rust = |case: &_| parts.rust(part, case);
        row(&format!("  {name}"), &parts.cases, &port, &rust);
    }
    println!("{PARTS}");
}

fn grown() {
    println!("\nSheets of 5 points with other index tables: terms and harmonics of the six");
    println!("maps in sum.");
    head("  terms  harmonics");
    for table in growth::tables() {
        let (terms, harmonics) = growth::sums(&table);
        let name = format!("{terms:>7}{harmonics:>11}");
        let pair = growth::with_table(calm_1(), &table);
        sides(&name, &five_or_fewer(pair, 5));
    }
}
