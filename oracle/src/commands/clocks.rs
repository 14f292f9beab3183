//! `clocks FILE`: the vectors of the clocks in three sections, for `cngtim`,
//! `geotim` and `geotim_clck`: the number of rows, then the rows of
//! little-endian u32, arguments first, then the refusal's number and place,
//! then the times.

use super::put_file;
use crate::bits::Answer;
use crate::draw::clock_kinds::{any_hour, any_longitude, any_time, few_longitudes, hours};
use crate::draw::clock_kinds::{longitudes, other_times, NO_HOURS};
use crate::draw::generator::Generator;
use crate::model::desks::Refusal;
use crate::month_file::push_words;
use crate::reference::branches::{self, Branch, Counts};
use crate::reference::clocks::{cngtim, counted_cngtim, counted_geotim, counted_geotim_clck};
use crate::reference::clocks::{geotim, geotim_clck, Direction};

const SEED: u64 = 0x636c_6f63;
/// Random rows of each function.
const RANDOM: usize = 1000;
/// Steps to the other longitude of a pair. It has no divisor with the number
/// of longitudes in common, so that each is both the first and the second.
const STRIDE: usize = 61;

/// A function's name, the words of a row and the rows.
type Section = (&'static str, usize, Vec<u32>);

pub fn run(file: &str) -> Result<(), String> {
    let (sections, counts) = sections()?;
    let mut bytes = Vec::new();
    for (name, width, rows) in &sections {
        let count = rows.len() / width;
        println!("{name:<12} {count:>6} rows");
        push_words(&mut bytes, &[count as u32]);
        push_words(&mut bytes, rows);
    }
    branches::print(&counts, is_clock);
    branches::refuse_untaken(&counts, is_clock, &[])?;
    println!("{} bytes", bytes.len());
    put_file(file, &bytes)
}

fn is_clock(branch: &Branch) -> bool {
    branch.is_clock()
}

/// The rows, and what the counted sources decided on the way.
fn sections() -> Result<([Section; 3], Counts), String> {
    branches::take();
    let sections = [
        ("cngtim", 7, cngtim_rows()?),
        ("geotim", 9, geotim_rows()?),
        ("geotim_clck", 5, geotim_clck_rows()?),
    ];
    Ok((sections, branches::counts(&branches::take())))
}

/// Number and place of the refusal, then the times; zeros for what is not
/// there.
fn told<const N: usize>(answer: Result<[f32; N], Refusal>) -> Vec<u32> {
    let mut words = vec![0; 2 + N];
    match answer {
        Ok(times) => {
            for (word, time) in words[2..].iter_mut().zip(times) {
                *word = time.to_word() as u32;
            }
        }
        Err(Refusal { number, place, .. }) => words[..2].copy_from_slice(&[number, place]),
    }
    words
}

/// The answer of the plain sources, from which the counted must not differ.
fn push_row<const N: usize>(
    rows: &mut Vec<u32>,
    arguments: &[u32],
    plain: Result<[f32; N], Refusal>,
    counted: Result<[f32; N], Refusal>,
) -> Result<(), String> {
    let answer = told(plain);
    if told(counted) != answer {
        return Err(format!("{arguments:?}: the counted sources differ"));
    }
    rows.extend(arguments);
    rows.extend(answer);
    Ok(())
}

/// Whole hours with every longitude, other times with few, random ones.
fn times_and_longitudes(random: &mut Generator) -> Vec<(f32, f32)> {
    let mut all = Vec::new();
    for hour in hours() {
        all.extend(longitudes().into_iter().map(|lon| (hour as f32, lon)));
    }
    for time in other_times() {
        all.extend(few_longitudes().into_iter().map(|lon| (time, lon)));
    }
    all.extend((0..RANDOM).map(|_| (any_time(random), any_longitude(random))));
    all
}

fn cngtim_rows() -> Result<Vec<u32>, String> {
    let mut rows = Vec::new();
    for (time, lon) in times_and_longitudes(&mut Generator::new(SEED)) {
        for direction in Direction::BOTH {
            push_row(
                &mut rows,
                &[time.to_bits(), lon.to_bits(), direction.sign() as u32],
                cngtim(time, lon, direction),
                counted_cngtim(time, lon, direction),
            )?;
        }
    }
    Ok(rows)
}

fn geotim_clck_rows() -> Result<Vec<u32>, String> {
    let mut rows = Vec::new();
    for (gmt, lon) in times_and_longitudes(&mut Generator::new(SEED + 1)) {
        push_row(
            &mut rows,
            &[gmt.to_bits(), lon.to_bits()],
            geotim_clck(gmt, lon),
            counted_geotim_clck(gmt, lon),
        )?;
    }
    Ok(rows)
}

fn geotim_rows() -> Result<Vec<u32>, String> {
    let mut rows = Vec::new();
    for (hour, local, tlong, rlong) in hours_and_pairs() {
        push_row(
            &mut rows,
            &[hour, local.into(), tlong.to_bits(), rlong.to_bits()],
            geotim(hour, local, tlong, rlong),
            counted_geotim(hour, local, tlong, rlong),
        )?;
    }
    Ok(rows)
}

/// An hour, whether it is local, and both longitudes.
type Asked = (u32, bool, f32, f32);

fn hours_and_pairs() -> Vec<Asked> {
    let mut all = Vec::new();
    let lons = longitudes();
    for hour in hours() {
        for (i, tlong) in lons.iter().enumerate() {
            for local in [false, true] {
                let other = (i + hour as usize + usize::from(local)) * STRIDE;
                all.push((hour, local, *tlong, lons[other % lons.len()]));
            }
        }
    }
    // What is refused first.
    let ends = [8.1, -21.9, 181.0, f32::NAN];
    for hour in NO_HOURS.into_iter().chain([0, 12, 24]) {
        for tlong in ends {
            for rlong in ends {
                all.extend([false, true].map(|local| (hour, local, tlong, rlong)));
            }
        }
    }
    let mut random = Generator::new(SEED + 2);
    all.extend((0..RANDOM).map(|_| {
        let [tlong, rlong] = [(); 2].map(|()| any_longitude(&mut random));
        let local = random.below(2) == 1;
        (any_hour(&mut random), local, tlong, rlong)
    }));
    all
}

#[cfg(test)]
mod tests {
    use super::{is_clock, sections, STRIDE};
    use crate::draw::clock_kinds::longitudes;
    use crate::reference::branches::refuse_untaken;

    #[test]
    fn vectors_take_every_branch_and_are_the_same_each_time() {
        let (rows, counts) = sections().expect("both variants agree");
        assert_eq!(refuse_untaken(&counts, is_clock, &[]), Ok(()));
        let total: usize = rows.iter().map(|(_, width, rows)| rows.len() / width).sum();
        assert!((20_000..60_000).contains(&total), "{total} rows");
        assert!(sections().is_ok_and(|(again, _)| again == rows));
    }

    #[test]
    fn each_longitude_is_a_second_one_too() {
        let count = longitudes().len();
        let mut places: Vec<usize> = (0..count).map(|i| i * STRIDE % count).collect();
        places.sort();
        assert!(places.into_iter().eq(0..count));
    }

    /// Every answer and every refusal comes up.
    #[test]
    fn every_refusal_is_there() {
        let (rows, _) = sections().expect("both variants agree");
        let wanted: [&[[u32; 2]]; 3] = [
            &[[0, 0], [3, 3], [5, 5]],
            &[[0, 0], [3, 3], [5, 5], [5, 7]],
            &[[0, 0], [3, 3], [5, 5]],
        ];
        for ((_, width, words), wanted) in rows.iter().zip(wanted) {
            let at = match width {
                7 => 3,
                9 => 4,
                _ => 2,
            };
            let answers = words.chunks(*width).map(|row| [row[at], row[at + 1]]);
            for answer in wanted {
                assert!(answers.clone().filter(|a| a == answer).count() > 50);
            }
            assert!(answers.clone().all(|answer| wanted.contains(&answer)));
        }
    }
}
