//! The year files of the journals: a good one, one whose parts are worn, and small
//! ones whose directory is refused.

use crate::draw::generator::Generator;
use crate::draw::journal_kinds::month_with_a_nan;
use crate::draw::year_files::{calm_year, packed, Gaps, Parts, NO_GAPS};
use crate::model::year::{places, MONTHS, PARTS};
use crate::reference::voacap::coefficients::F2_RECORD_BYTES;

/// Every month and model has figures of its own, of which one of each point is
/// NaN.
fn calm() -> Parts {
    let mut parts = calm_year(&mut Generator::new(901));
    for month in &mut parts[..MONTHS] {
        *month = month_with_a_nan(month);
    }
    parts
}

/// All parts, with gaps that put them at odd places too.
pub fn good() -> Vec<u8> {
    let gaps: Gaps = [0, 1, 2, 3, 0, 5, 0, 7, 0, 0, 11, 4, 1, 0, 9];
    packed(&calm(), &gaps)
}

/// Months 1, 6 and 8 can be shown with CCIR, months 1 and 6 with URSI; the others
/// have parts that are refused, or none.
pub fn worn() -> Vec<u8> {
    let mut parts = calm();
    // Ends early, in the middle of a record, where the next part follows.
    parts[1].truncate(10_001);
    // A wrong marker.
    parts[2][11_440] ^= 1;
    // Word 9 of map 3.
    parts[3][4 + 40 * 2 + 4 * 9] = 3;
    // Bytes after the last marker are ignored.
    parts[5].extend([0; 5]);
    // Words that are no finite numbers: two in September's month file, of which the
    // first is named; in October's too, whose record's word is named before them.
    for place in [IN_XPMAP, IN_XERCOF] {
        set_word(&mut parts[8], place, f32::NAN);
        set_word(&mut parts[9], place, f32::INFINITY);
    }
    set_word(&mut parts[12], 9 * F2_RECORD_BYTES + IN_RECORD, f32::NAN);
    for month in [4, 10, 11] {
        parts[month].clear();
    }
    parts[12].truncate(10 * F2_RECORD_BYTES);
    parts[13].truncate(7 * F2_RECORD_BYTES);
    let mut file = packed(&parts, &NO_GAPS);
    // What these lack stands right after their end.
    shorten(&mut file, 7, 4);
    shorten(&mut file, 14, 1);
    file
}

/// Words of a month file and of a record.
const IN_XPMAP: usize = 30_000;
const IN_XERCOF: usize = 38_544;
const IN_RECORD: usize = 5_000;

fn set_word(part: &mut [u8], place: usize, word: f32) {
    part[place..place + 4].copy_from_slice(&word.to_le_bytes());
}

/// The pair, counted from 1, leaves the last so many bytes of its part to a gap.
fn shorten(file: &mut [u8], pair: usize, bytes: u32) {
    let length = length_of(file, pair);
    set(file, pair, 1, length - bytes);
}

/// Sets offset (0) or length (1) of a pair, counted from 1.
fn set(file: &mut [u8], pair: usize, which: usize, word: u32) {
    let at = 8 * (pair - 1) + 4 * which;
    file[at..at + 4].copy_from_slice(&word.to_le_bytes());
}

fn length_of(file: &[u8], pair: usize) -> u32 {
    place(file, pair).len() as u32
}

fn offset_of(file: &[u8], pair: usize) -> u32 {
    place(file, pair).start as u32
}

/// Of a file that is still good.
fn place(file: &[u8], pair: usize) -> std::ops::Range<usize> {
    places(file).expect("a good directory")[pair - 1].clone()
}

/// A good directory whose parts are of a few bytes each, some of none.
fn small() -> Vec<u8> {
    let parts = std::array::from_fn(|k| vec![k as u8; k * 5 % 7]);
    packed(&parts, &NO_GAPS)
}

/// Files with the pair that 19 must name.
pub fn refused() -> Vec<(Vec<u8>, u32)> {
    let mut files = Vec::new();
    for pair in 1..=PARTS {
        let number = pair as u32;
        let next = (number + 1).min(PARTS as u32);
        let mut early = small();
        set(&mut early, pair, 0, offset_of(&small(), pair) - 1);
        files.push((early, number));
        // As a word the part ends at 0.
        let mut wraps = small();
        set(
            &mut wraps,
            pair,
            1,
            offset_of(&small(), pair).wrapping_neg(),
        );
        files.push((wraps, next));
        let mut highest = small();
        set(&mut highest, pair, 0, u32::MAX);
        files.push((highest, next));
        let cut = small()[..8 * pair - 1].to_vec();
        files.push((cut, number));
    }
    files.push((Vec::new(), 1));
    let whole = small();
    files.push((whole[..whole.len() - 1].to_vec(), 14));
    let mut beyond = empty();
    set(&mut beyond, PARTS, 1, 1);
    files.push((beyond, 14));
    files
}

/// A directory and nothing else.
fn empty() -> Vec<u8> {
    packed(&Parts::default(), &NO_GAPS)
}

/// Good directories over which no model has a record.
pub fn without_records() -> Vec<Vec<u8>> {
    vec![small(), empty()]
}

#[cfg(test)]
mod tests {
    use super::{good, refused, without_records, worn};
    use crate::commands::journals::by_hand::inputs;
    use crate::model::desks::fields::{moved_to, CCIR, URSI};
    use crate::model::desks::lent::Lent;
    use crate::model::desks::Refusal;
    use crate::model::year::places;
    use crate::reference::sheets::FIGURES;
    use std::collections::HashSet;

    fn shown(lent: &Lent, month: u32, model: u32) -> Result<[u32; FIGURES], Refusal> {
        let inputs = moved_to(inputs(), month, model);
        lent.figures(&inputs, FIGURES).map(|shown| shown.words)
    }

    #[test]
    fn every_month_and_model_has_figures_of_its_own() {
        let lent = Lent::year(&good());
        let mut all = HashSet::new();
        for month in 1..=12 {
            for model in [CCIR, URSI] {
                let words = shown(&lent, month, model).expect("all is good");
                assert!(words.contains(&0x7fc0_0000));
                all.insert(words);
            }
        }
        assert_eq!(all.len(), 24);
    }

    #[test]
    fn worn_parts_are_refused_as_they_are_worn() {
        let lent = Lent::year(&worn());
        let refusal = |month, model| {
            let refusal = shown(&lent, month, model).err();
            refusal.map(|refusal| (refusal.number, refusal.place))
        };
        let of_ccir: [Option<(u32, u32)>; 12] =
            std::array::from_fn(|k| refusal(k as u32 + 1, CCIR));
        let wanted = [
            None,
            Some((9, 10_000)),
            Some((10, 11_440)),
            Some((11, 3)),
            Some((9, 0)),
            None,
            Some((9, 38_548)),
            None,
            Some((23, 30_000)),
            Some((23, 5_000)),
            Some((8, 0)),
            Some((8, 0)),
        ];
        assert_eq!(of_ccir, wanted);
        // One byte is missing of the record of July.
        for month in 1..=6 {
            assert_eq!(refusal(month, URSI), wanted[month as usize - 1]);
        }
        for month in 7..=12 {
            assert_eq!(refusal(month, URSI), Some((8, 0)));
        }
    }

    #[test]
    fn directories_are_refused_as_they_shall_be() {
        let mut named = HashSet::new();
        for (file, pair) in refused() {
            let refusal = places(&file).expect_err("a bad directory");
            assert_eq!((refusal.number, refusal.place), (19, pair));
            named.insert(pair);
        }
        assert_eq!(named.len(), 14);
        for file in without_records() {
            assert!(places(&file).is_ok());
            let refusal = shown(&Lent::year(&file), 1, CCIR).expect_err("no record");
            assert_eq!(refusal.number, 8);
        }
    }
}
