//! A year file with a good directory, of whose months some can be shown and the
//! others have each its own damage.

use crate::draw::data_files::named;
use crate::draw::year_files::{packed, Parts, NO_GAPS};
use crate::model::year::MONTHS;
use crate::month_file::BYTES;
use crate::reference::voacap::coefficients::F2_RECORD_BYTES;

/// Records that are there again and again.
const RECORDS: usize = 2 * F2_RECORD_BYTES;
/// Where the index table begins, and the second marker.
const TABLE: usize = 4;
const SECOND: usize = 244;
/// The last marker.
const LAST: usize = BYTES - 4;

pub fn year() -> Vec<u8> {
    let [(_, calm_1), ..] = named();
    let good = calm_1.month;
    let cut = |length: usize| good[..length].to_vec();
    let with = |place: usize, value: u8| {
        let mut month = good.clone();
        month[place] = value;
        month
    };
    let records = calm_1.daw[..RECORDS].repeat(MONTHS / 2);
    let mut of_ccir = records[..records.len() - 1].to_vec();
    set_infinity(&mut of_ccir[9 * F2_RECORD_BYTES..]);
    let mut bad_word = good.clone();
    set_infinity(&mut bad_word[LAST - 4..]);
    let parts: Parts = [
        good.clone(),
        Vec::new(),
        cut(LAST),
        // In the middle of the third marker.
        cut(250),
        with(0, 0xf1)[..4].to_vec(),
        with(SECOND, 0)[..SECOND + 4].to_vec(),
        with(LAST, good[LAST] - 4),
        // A first word of 0 for map 1, and a last row of 22 for map 6.
        with(TABLE, 0),
        with(TABLE + 40 * 5 + 4 * 8, 22),
        // Bytes after the last marker are ignored. The first word of the CCIR record is
        // no finite number.
        [&good[..], b"more"].concat(),
        // Nor is the last word of this file.
        bad_word,
        // Its records are not there, which is said first.
        vec![0; 8],
        of_ccir,
        records[..10 * F2_RECORD_BYTES].to_vec(),
    ];
    packed(&parts, &NO_GAPS)
}

fn set_infinity(bytes: &mut [u8]) {
    bytes[..4].copy_from_slice(&f32::INFINITY.to_le_bytes());
}

#[cfg(test)]
mod tests {
    use super::year;
    use crate::model::desks::survey::survey_text;

    /// What each month is refused by with CCIR and with URSI; nothing if it can be
    /// shown.
    const WANTED: [[&str; 2]; 12] = [
        [""; 2],
        ["9 0"; 2],
        ["9 38548"; 2],
        ["9 248"; 2],
        ["10 0"; 2],
        ["10 244"; 2],
        ["10 38548"; 2],
        ["11 1"; 2],
        ["11 6"; 2],
        ["23 0", ""],
        ["23 38544", "8 0"],
        ["8 0"; 2],
    ];

    #[test]
    fn months_are_refused_as_they_are_damaged() {
        let text = survey_text(&year());
        let found = text.lines().map(|line| {
            let (_, found) = line.split_once(": ").expect("what was found");
            let refused = found.strip_prefix("refused ");
            refused.map_or("", |rest| rest.split(':').next().unwrap_or(rest))
        });
        assert!(found.eq(WANTED.as_flattened().iter().copied()), "{text}");
    }
}
