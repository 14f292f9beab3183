//! `data DIR`: pairs of data files, and what sizes the Rust makes of the
//! plausible ones.

use super::write;
use crate::draw::data_files::sizes::sizes;
use crate::draw::data_files::{named, wild_1, Pair};

pub fn run(folder: &str) -> Result<(), String> {
    for (name, pair) in named().into_iter().chain([("wild-1", wild_1())]) {
        write(folder, &format!("{name}.daw"), &pair.daw)?;
        write(folder, &format!("{name}.month"), &pair.month)?;
        if name.starts_with("calm") {
            print_sizes(&pair);
        }
    }
    Ok(())
}

fn print_sizes(pair: &Pair) {
    let sizes = sizes(pair);
    for range in &sizes.ranges {
        println!(
            "    {:<17} {:>8.3} to {:>8.3}",
            range.name, range.low, range.high
        );
    }
    println!("    land {}, sea {}", sizes.land, sizes.sea);
}
