//! Document 01's index check, written from the document alone: the Rust has
//! none and trusts the file.

/// The index table `ikim`: ten words for each of the six maps.
pub type IndexTable = [[i32; 10]; 6];

pub const ROWS: [i32; 6] = [55, 61, 55, 76, 49, 22];
pub const HARMONICS: [i32; 6] = [2, 3, 2, 6, 4, 4];
const REFUSED: u32 = 11;

/// The refusal's number and place, both 0 for a table that passes.
pub fn answer(table: &IndexTable) -> (u32, u32) {
    let bad = (1..)
        .zip(table)
        .zip(ROWS.into_iter().zip(HARMONICS))
        .find(|((_, words), (rows, harmonics))| !passes(words, *rows, *harmonics));
    match bad {
        Some(((map, _), _)) => (REFUSED, map),
        None => (0, 0),
    }
}

fn passes(words: &[i32; 10], rows: i32, harmonics: i32) -> bool {
    (0..rows).contains(&words[8])
        && (0..=harmonics).contains(&words[9])
        && (1..=75).contains(&words[0])
        && climbs(&words[..9])
}

/// Even steps up to at most 75, until a word equals the one before it. The
/// step is taken in i64, where no difference of two words is too large.
fn climbs(words: &[i32]) -> bool {
    for pair in words.windows(2) {
        let step = i64::from(pair[1]) - i64::from(pair[0]);
        if step == 0 {
            return true;
        }
        if step < 0 || step % 2 != 0 || pair[1] > 75 {
            return false;
        }
    }
    true
}
