//! `hours FILE`: the vectors of the hour step, in sections of a record, a month
//! file and rows of 320 little-endian u32: the sunspot number, the hour, the 318
//! coefficients of the six maps.

use crate::bits::words;
use crate::commands::write_file;
use crate::draw::data_files::ladders::{flat, USUAL};
use crate::draw::data_files::{counting, named, Pair};
use crate::month_file::push_words;
use crate::reference::files::{put, read};
use crate::reference::layers::hour_maps;
use crate::reference::voacap::coefficients::F2_RECORD_BYTES;

/// The month whose record is read.
const MONTH: u32 = 1;

/// Whole numbers, at which the blends of a counting pair are exact.
const SUNSPOTS: [f32; 4] = [0.0, 10.0, 137.0, 300.0];
const HOURS: [f32; 5] = [0.0, 6.0, 12.25, 23.0, 24.0];

pub fn run(file: &str) -> Result<(), String> {
    let sections = sections();
    for (name, _) in &sections {
        println!("{name:<22} {:>3} rows", hours().count());
    }
    write_file(file, &bytes(&sections))
}

/// Each coefficient by itself, then with those beside it; and a pair with fewer
/// terms, beyond which there are zeros.
fn sections() -> Vec<(&'static str, Pair)> {
    let [_, _, (name, fewer), ..] = named();
    vec![
        ("counting, no harmonic", counting(&flat())),
        ("counting", counting(&USUAL)),
        (name, fewer),
    ]
}

fn hours() -> impl Iterator<Item = (f32, f32)> {
    let at = |ssn| HOURS.into_iter().map(move |gmt| (ssn, gmt));
    SUNSPOTS.into_iter().flat_map(at)
}

fn bytes(sections: &[(&str, Pair)]) -> Vec<u8> {
    let mut bytes = Vec::new();
    push_words(&mut bytes, &[sections.len() as u32]);
    for (_, pair) in sections {
        put(&pair.daw, &pair.month, MONTH);
        bytes.extend(&pair.daw[..F2_RECORD_BYTES]);
        bytes.extend(&pair.month);
        push_words(&mut bytes, &[hours().count() as u32]);
        for (ssn, gmt) in hours() {
            let set = read(MONTH, ssn).expect("both files are good");
            push_words(&mut bytes, &[ssn.to_bits(), gmt.to_bits()]);
            push_words(&mut bytes, &words(hour_maps(&set, gmt)));
        }
    }
    bytes
}

#[cfg(test)]
mod tests {
    use super::{bytes, hours, sections, MONTH};
    use crate::draw::data_files::counting;
    use crate::draw::data_files::ladders::flat;
    use crate::model::index_check::{answer, ROWS};
    use crate::reference::files::{put, read};
    use crate::reference::layers::hour_maps;
    use crate::reference::voacap::ionosphere::{cofion, IA, IB, IC};

    #[test]
    fn the_first_rows_are_where_each_series_starts() {
        let table = flat();
        assert_eq!(answer(&table), (0, 0));
        let pair = counting(&table);
        put(&pair.daw, &pair.month, MONTH);
        for (ssn, gmt) in hours() {
            let set = read(MONTH, ssn).expect("both files are good");
            let places = cofion(&set);
            assert!(places.iter().copied().eq((0..2604u16).map(f32::from)));
            let ab = hour_maps(&set, gmt);
            let mut next = 0;
            for (k, rows) in ROWS.into_iter().enumerate() {
                assert_eq!(IC[k] - 1, next);
                for j in 0..rows as usize {
                    assert_eq!(ab[next], (IA[k] - 1 + j * IB[k]) as f32);
                    next += 1;
                }
            }
            assert_eq!(next, ab.len());
        }
    }

    #[test]
    fn vectors_are_small_and_the_same_each_time() {
        let first = bytes(&sections());
        assert!(first.len() < 250_000, "{} bytes", first.len());
        assert!(first == bytes(&sections()));
    }
}
