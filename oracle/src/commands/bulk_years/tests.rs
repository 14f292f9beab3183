//! The comparison finds out a library that slips: another way of reading a
//! directory stands for the library, with one slip at a time.

use super::{compare, Years};
use jutetrowel::raw::{Answer, Span};

/// What may be done otherwise.
struct Slip {
    /// Offset and length added as words.
    wraps: bool,
    /// Where the first part may start.
    first: u64,
    /// How many bytes a part may begin before the end of the one before.
    overlap: u64,
    /// How many bytes the last part may end beyond the file.
    beyond: u64,
    /// Every part is held to the file's end, and not the last one alone.
    all_within: bool,
    /// Bytes of a pair that must be there.
    pair: usize,
    /// The directory is judged before month and model.
    directory_first: bool,
    /// What is refused has its start all the same.
    leaves_start: bool,
    /// The number of the first pair.
    from: u32,
}

const NONE: Slip = Slip {
    wraps: false,
    first: 112,
    overlap: 0,
    beyond: 0,
    all_within: false,
    pair: 8,
    directory_first: false,
    leaves_start: false,
    from: 1,
};

impl Slip {
    fn pair(&self, year: &[u8], k: usize) -> (u64, u64) {
        let byte = |at: usize| u32::from(*year.get(at).unwrap_or(&0));
        let word = |at: usize| (0..4).fold(0, |n, i| n | byte(at + i) << (8 * i));
        let (offset, length) = (word(8 * k), word(8 * k + 4));
        let end = match self.wraps {
            true => offset.wrapping_add(length).into(),
            false => u64::from(offset) + u64::from(length),
        };
        (offset.into(), end)
    }

    fn check(&self, year: &[u8]) -> Answer {
        let broken = (0..14).find(|k| !self.keeps(year, *k));
        let place = broken.map_or(0, |k| k as u32 + self.from);
        answer(broken.is_none(), 19, place)
    }

    fn month(&self, year: &[u8], month: u32) -> Span {
        let good = (1..=12).contains(&month);
        let k = if good { month as usize - 1 } else { 14 };
        self.part(year, k, answer(good, 1, 1))
    }

    fn model(&self, year: &[u8], model: u32) -> Span {
        let good = model <= 1;
        let k = if good { 12 + model as usize } else { 14 };
        self.part(year, k, answer(good, 7, 15))
    }

    fn keeps(&self, year: &[u8], k: usize) -> bool {
        let (offset, end) = self.pair(year, k);
        let earliest = match k {
            0 => self.first,
            _ => self.pair(year, k - 1).1.saturating_sub(self.overlap),
        };
        let within = end <= year.len() as u64 + self.beyond;
        year.len() >= 8 * k + self.pair
            && offset >= earliest
            && (within || k < 13 && !self.all_within)
    }

    fn part(&self, year: &[u8], k: usize, own: Answer) -> Span {
        let verdicts = match self.directory_first {
            true => [self.check(year), own],
            false => [own, self.check(year)],
        };
        let refusal = verdicts.into_iter().find(|verdict| verdict.number != 0);
        let (offset, end) = match k {
            0..14 => self.pair(year, k),
            _ => (0, 0),
        };
        match refusal {
            None => Span {
                start: offset as usize,
                size: end.wrapping_sub(offset) as usize,
                number: 0,
                place: 0,
            },
            Some(Answer { number, place }) => Span {
                start: if self.leaves_start {
                    offset as usize
                } else {
                    0
                },
                size: 0,
                number,
                place,
            },
        }
    }
}

fn answer(good: bool, number: u32, place: u32) -> Answer {
    match good {
        true => Answer {
            number: 0,
            place: 0,
        },
        false => Answer { number, place },
    }
}

fn with(slip: Slip) -> Result<(), String> {
    let library = Years {
        check: &|year| slip.check(year),
        month: &|year, month| slip.month(year, month),
        model: &|year, model| slip.model(year, model),
    };
    compare(&library, 20_000, 1)
}

#[test]
fn two_readings_agree() {
    assert_eq!(with(NONE), Ok(()));
}

#[test]
fn slips_are_found_out() {
    let slips = [
        Slip {
            wraps: true,
            ..NONE
        },
        Slip { first: 111, ..NONE },
        Slip { first: 113, ..NONE },
        Slip { first: 0, ..NONE },
        Slip { overlap: 1, ..NONE },
        Slip { beyond: 1, ..NONE },
        Slip {
            all_within: true,
            ..NONE
        },
        Slip { pair: 7, ..NONE },
        Slip { pair: 4, ..NONE },
        Slip {
            directory_first: true,
            ..NONE
        },
        Slip {
            leaves_start: true,
            ..NONE
        },
        Slip { from: 0, ..NONE },
    ];
    for (i, slip) in slips.into_iter().enumerate() {
        assert!(with(slip).is_err(), "slip {i}");
    }
}
