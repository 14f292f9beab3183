//! Document 02's year file, written from its request 01 alone: the directory's
//! rule, and the parts that a month and a model pick.

use super::desks::fields;
use super::desks::Refusal;
use std::ops::Range;

pub const MONTHS: usize = 12;
/// Months 1 to 12, then CCIR, then URSI.
pub const PARTS: usize = MONTHS + 2;
/// Two words of four bytes for each part.
pub const DIRECTORY: usize = 8 * PARTS;

/// Where the 14 parts lie.
pub type Places = [Range<usize>; PARTS];

/// The places of the parts, unless a pair is not wholly there or breaks a rule:
/// 19 with the lowest such pair, counted from 1. Offset and length are added as
/// whole numbers: their sum need not fit a word.
pub fn places(file: &[u8]) -> Result<Places, Refusal> {
    let mut places = std::array::from_fn(|_| 0..0);
    let mut earliest = DIRECTORY as u64;
    for (number, place) in (1..).zip(&mut places) {
        let [offset, length] = pair(file, number).ok_or(broken(number))?;
        if offset < earliest {
            return Err(broken(number));
        }
        earliest = offset + length;
        *place = offset as usize..earliest as usize;
    }
    if earliest > file.len() as u64 {
        return Err(broken(PARTS));
    }
    Ok(places)
}

/// Offset and length of the pair of this number, if all its bytes are there.
fn pair(file: &[u8], number: usize) -> Option<[u64; 2]> {
    let bytes = file.get(8 * (number - 1)..8 * number)?;
    let (offset, length) = bytes.split_at(4);
    let word = |bytes: &[u8]| bytes.iter().rev().fold(0, |n, b| n << 8 | u64::from(*b));
    Some([word(offset), word(length)])
}

fn broken(number: usize) -> Refusal {
    Refusal::at(19, number as u32)
}

/// The number of a month's part among the 14, counted from 0.
pub fn of_month(month: u32) -> usize {
    month as usize - 1
}

/// The number of a model's part among the 14, counted from 0.
pub fn of_model(model: u32) -> usize {
    MONTHS + (model - fields::CCIR) as usize
}

/// Where a month's part lies; a bad month is refused before the directory.
#[cfg(any(linked, test))]
pub fn month_place(file: &[u8], month: u32) -> Result<Range<usize>, Refusal> {
    fields::check(1, &[month])?;
    Ok(places(file)?[of_month(month)].clone())
}

/// Where a model's part lies; a bad model is refused before the directory.
#[cfg(any(linked, test))]
pub fn model_place(file: &[u8], model: u32) -> Result<Range<usize>, Refusal> {
    fields::check(fields::FIELDS, &[model])?;
    Ok(places(file)?[of_model(model)].clone())
}

#[cfg(test)]
mod tests {
    use super::{model_place, month_place, places, DIRECTORY, PARTS};
    use crate::model::desks::Refusal;
    use crate::month_file::push_words;

    fn refused<T>(number: u32, place: u32) -> Result<T, Refusal> {
        Err(Refusal::at(number, place))
    }

    /// Parts of 0, 1, .. 13 bytes, one after the other.
    fn pairs() -> [[u32; 2]; PARTS] {
        let mut next = DIRECTORY as u32;
        std::array::from_fn(|k| {
            let offset = next;
            next += k as u32;
            [offset, k as u32]
        })
    }

    fn file(pairs: &[[u32; 2]; PARTS], length: usize) -> Vec<u8> {
        let mut file = Vec::new();
        push_words(&mut file, pairs.as_flattened());
        file.resize(length, 0xaa);
        file
    }

    /// The length of the shortest file with these parts.
    const SHORTEST: usize = DIRECTORY + 13 * 14 / 2;

    fn verdict(pairs: &[[u32; 2]; PARTS], length: usize) -> Result<(), Refusal> {
        places(&file(pairs, length)).map(|_| ())
    }

    #[test]
    fn a_good_directory_gives_its_parts() {
        let good = file(&pairs(), SHORTEST);
        let all = places(&good).expect("a good directory");
        assert_eq!((all[0].clone(), all[1].clone()), (112..112, 112..113));
        assert_eq!(all[13], SHORTEST - 13..SHORTEST);
        assert_eq!(month_place(&good, 1), Ok(112..112));
        assert_eq!(month_place(&good, 12), Ok(167..178));
        assert_eq!(model_place(&good, 0), Ok(178..190));
        assert_eq!(model_place(&good, 1), Ok(190..203));
    }

    #[test]
    fn a_pair_must_be_wholly_there() {
        for length in 0..DIRECTORY {
            let cut = &file(&pairs(), SHORTEST)[..length];
            let pair = length as u32 / 8 + 1;
            assert_eq!(places(cut).map(|_| ()), refused(19, pair), "{length}");
        }
    }

    #[test]
    fn a_part_starts_at_or_after_the_end_before() {
        for k in 0..PARTS {
            let mut early = pairs();
            early[k][0] -= 1;
            assert_eq!(verdict(&early, SHORTEST), refused(19, k as u32 + 1));
            let mut gap = pairs();
            for pair in &mut gap[k..] {
                pair[0] += 7;
            }
            assert_eq!(verdict(&gap, SHORTEST + 7), Ok(()));
        }
    }

    /// Also where a part in between ends beyond it: no rule of its own pair is
    /// broken.
    #[test]
    fn the_last_ends_within_the_file() {
        assert_eq!(verdict(&pairs(), SHORTEST), Ok(()));
        assert_eq!(verdict(&pairs(), SHORTEST + 1), Ok(()));
        assert_eq!(verdict(&pairs(), SHORTEST - 1), refused(19, 14));
        let mut far = pairs();
        for pair in &mut far[5..] {
            pair[0] += 10_000;
        }
        assert_eq!(verdict(&far, SHORTEST), refused(19, 14));
    }

    #[test]
    fn sums_do_not_wrap() {
        for k in 0..PARTS {
            let next = (k as u32 + 2).min(14);
            let mut wraps = pairs();
            wraps[k][1] = u32::MAX - wraps[k][0] + 1;
            assert_eq!(verdict(&wraps, SHORTEST), refused(19, next));
            wraps[k] = [u32::MAX, u32::MAX];
            assert_eq!(verdict(&wraps, SHORTEST), refused(19, next));
            wraps[k] = [u32::MAX, 0];
            assert_eq!(verdict(&wraps, SHORTEST), refused(19, next));
        }
    }

    /// The lowest broken pair decides, and a bad month or model before it.
    #[test]
    fn refusals_come_in_their_order() {
        let mut broken = pairs();
        broken[3][0] = 0;
        broken[9][0] = 0;
        let broken = file(&broken, SHORTEST);
        assert_eq!(month_place(&broken, 1), refused(19, 4));
        assert_eq!(model_place(&broken, 1), refused(19, 4));
        for word in [0, 13, 257, u32::MAX] {
            assert_eq!(month_place(&broken, word), refused(1, 1));
        }
        for word in [2, 256, 1 << 31, u32::MAX] {
            assert_eq!(model_place(&broken, word), refused(7, 15));
        }
    }
}
