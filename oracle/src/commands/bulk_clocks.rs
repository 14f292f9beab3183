//! `bulk-clocks COUNT SEED`: the port's clocks beside the Rust's over random
//! hours, times and longitudes, refused ones included.

use crate::bits::Answer as _;
use crate::commands::compare::{report, Tally};
use crate::commands::whole;
use crate::draw::clock_kinds::{any_hour, any_longitude, any_time};
use crate::draw::generator::Generator;
use crate::draw::sheet_kinds::one_of;
use crate::model::desks::Refusal;
use crate::port::{clocks as port, ACCEPTED};
use crate::reference::clocks::{cngtim, geotim, geotim_clck, Direction};
use jutetrowel::raw::Answer;
use std::fmt::Debug;

const NAMES: [&str; 4] = [
    "cngtim to local",
    "cngtim to univ.",
    "geotim",
    "geotim_clck",
];

pub fn run(count: &str, seed: &str) -> Result<(), String> {
    let count = whole(count)?;
    let mut random = Generator::new(whole(seed)?);
    let mut tallies = NAMES.map(Tally::new);
    for case in 0..count {
        one_time(&mut random, &mut tallies, case);
        one_hour(&mut random, &mut tallies[2], case);
    }
    report(&tallies)
}

fn one_time(random: &mut Generator, tallies: &mut [Tally; 4], case: u64) {
    let asked @ (time, lon) = (any_time(random), any_longitude(random));
    for (tally, direction) in tallies.iter_mut().zip(Direction::BOTH) {
        let given = port::cngtim(time, lon, direction);
        tally.note(case, difference(given, cngtim(time, lon, direction), asked));
    }
    let given = port::geotim_clck(time, lon);
    tallies[3].note(case, difference(given, geotim_clck(time, lon), asked));
}

fn one_hour(random: &mut Generator, tally: &mut Tally, case: u64) {
    let hour = any_hour(random);
    let local = one_of(random, &[0, 0, 0, 1, 1, 2, u32::MAX]);
    let [tlong, rlong] = [(); 2].map(|()| any_longitude(random));
    let given = port::geotim(hour, local, tlong, rlong);
    let wanted = geotim(hour, local != 0, tlong, rlong);
    tally.note(case, difference(given, wanted, (hour, local, tlong, rlong)));
}

/// Two NaNs are alike; what is refused has times of +0.0.
fn difference<const N: usize>(
    given: ([f32; N], Answer),
    wanted: Result<[f32; N], Refusal>,
    asked: impl Debug,
) -> Option<String> {
    let wanted = match wanted {
        Ok(times) => (times, ACCEPTED),
        Err(refusal) => ([0.0; N], refusal.into()),
    };
    let words = |(times, answer): ([f32; N], Answer)| (times.map(f32::to_word), answer);
    let differs = words(given) != words(wanted);
    differs.then(|| format!("{asked:?}: port {given:?}, wanted {wanted:?}"))
}
