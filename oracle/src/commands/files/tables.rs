//! Tables of damaged files with the Rust's answer: rows of the table's number,
//! the length to which each file is cut, place and value of the changed byte of
//! the month file; number and place of the refusal, start and length of the
//! part in its file and its first word among those of `words.bin`.

use super::distinct;
use crate::draw::damage::{Damage, EXTRA, LONGEST};
use crate::draw::data_files::Pair;
use crate::model::desks::Refusal;
use crate::month_file::{markers, push_words, BYTES};
use crate::reference::tables::{Starts, TABLES};
use crate::reference::voacap::coefficients::F2_RECORD_BYTES;

/// Bytes after the record, which are ignored.
const LONGEST_RECORD: usize = F2_RECORD_BYTES + EXTRA.len();
/// Above 20, and some that would be a table if cut to a byte or to two.
const NO_TABLES: [u32; 7] = [21, 22, 255, 256, 65_537, 1 << 31, u32::MAX];

/// What is lent: so much of the record, and a damaged month file.
type Case = (usize, Damage);

/// A pair whose last record is lent.
pub fn rows(pair: &Pair) -> Vec<u8> {
    let record = &pair.daw[pair.daw.len() - F2_RECORD_BYTES..];
    let record = [record, &EXTRA].concat();
    let starts = Starts::of(&pair.month);
    let cases = cases(&pair.month);
    let mut bytes = Vec::new();
    push_words(&mut bytes, &[(cases.len() * numbers().count()) as u32]);
    for (length, damage) in cases {
        let month = damage.done_to(&pair.month);
        for number in numbers() {
            let answer = match starts.table(number, &record[..length], &month) {
                Ok(part) => [0, 0, part.start, part.length(), first(number, part.start)],
                Err(Refusal { number, place, .. }) => [number as usize, place as usize, 0, 0, 0],
            };
            let Damage {
                length: cut,
                place,
                value,
            } = damage;
            push_words(&mut bytes, &[number, length as u32, cut, place, value]);
            push_words(&mut bytes, &answer.map(|v| v as u32));
        }
    }
    bytes
}

fn numbers() -> impl Iterator<Item = u32> {
    (0..TABLES as u32).chain(NO_TABLES)
}

/// A table's first word among those of both files, the planes first and the
/// markers left out.
fn first(number: u32, start: usize) -> usize {
    match number {
        0 => 0,
        _ => {
            let before = markers().iter().filter(|at| **at < start).count();
            F2_RECORD_BYTES / 4 + start / 4 - before
        }
    }
}

/// Good files first, then each refusal by itself, then several at once.
fn cases(month: &[u8]) -> Vec<Case> {
    let whole = Damage::cut(BYTES);
    let wrong = |at: usize, length| Damage::change(length, at, month[at] ^ 1);
    let mut cases = vec![
        (F2_RECORD_BYTES, whole),
        (F2_RECORD_BYTES + 1, whole),
        (LONGEST_RECORD, Damage::cut(LONGEST)),
        (F2_RECORD_BYTES, Damage::cut(BYTES + 1)),
    ];
    cases.extend([0, 1, F2_RECORD_BYTES - 1].map(|length| (length, whole)));
    let cuts = [0, 1, 3, 4, 243, 244, 247, 248, 20_000, BYTES - 4, BYTES - 1];
    cases.extend(cuts.map(|length| (F2_RECORD_BYTES, Damage::cut(length))));
    for at in markers() {
        cases.push((F2_RECORD_BYTES, wrong(at, BYTES)));
    }
    cases.extend([
        (0, Damage::cut(0)),
        (F2_RECORD_BYTES - 1, Damage::cut(BYTES - 1)),
        (F2_RECORD_BYTES - 1, wrong(0, BYTES)),
        (F2_RECORD_BYTES, wrong(0, BYTES - 1)),
        (F2_RECORD_BYTES, wrong(BYTES - 4, BYTES - 1)),
        (LONGEST_RECORD, wrong(248, 250)),
        (LONGEST_RECORD, wrong(248, 252)),
        (LONGEST_RECORD, wrong(BYTES - 1, LONGEST)),
    ]);
    distinct(cases)
}

#[cfg(test)]
mod tests {
    use super::first;
    use crate::draw::data_files::named;
    use crate::reference::files::table_words;
    use crate::reference::tables::{Starts, TABLES};

    /// What stands in `words.bin` from a table's first word on is the table.
    #[test]
    fn first_words_are_those_of_the_tables() {
        let [(_, pair), ..] = named();
        let all = table_words(&pair.daw, 1, &pair.month);
        let starts = Starts::of(&pair.month);
        let mut next = 0;
        for number in 0..TABLES as u32 {
            let part = starts.table(number, &pair.daw, &pair.month);
            let part = part.expect("both files are good");
            let first = first(number, part.start);
            assert_eq!(first, next);
            next += part.words.len();
            assert_eq!(all[first..next], part.words);
        }
        assert_eq!(next, all.len());
    }
}
