//! Damaged month files with the Rust's answer: rows of length, place and
//! value of the changed byte, number and place of the refusal.

use super::distinct;
use crate::draw::damage::{Damage, LONGEST};
use crate::draw::generator::Generator;
use crate::month_file::{markers, push_words, BYTES};
use crate::reference::files::walk;

pub fn rows(file: &[u8]) -> Vec<u8> {
    let mut bytes = Vec::new();
    for damage in cases(file) {
        let (number, place) = walk(&damage.done_to(file));
        let Damage {
            length,
            place: at,
            value,
        } = damage;
        push_words(&mut bytes, &[length, at, value, number, place]);
    }
    bytes
}

fn cases(file: &[u8]) -> Vec<Damage> {
    let mut random = Generator::new(300);
    let mut cases = cuts(&mut random);
    for at in markers() {
        cases.extend(marker_changes(file, at));
        cases.extend(changes_beside(file, at));
    }
    cases.extend((0..100).map(|_| change_elsewhere(&mut random)));
    cases.extend((0..500).map(|_| Damage::any(&mut random)));
    distinct(cases)
}

/// Around both ends of every marker, which are the ends of the records too.
fn cuts(random: &mut Generator) -> Vec<Damage> {
    let mut lengths: Vec<usize> = (0..=64).collect();
    for at in markers() {
        lengths.extend(at.saturating_sub(5)..=at + 9);
    }
    lengths.extend([BYTES - 1, BYTES, BYTES + 1, LONGEST]);
    lengths.extend((0..200).map(|_| random.below(BYTES as u64) as usize));
    lengths.into_iter().map(Damage::cut).collect()
}

/// Each byte of the marker, with the file whole and with cuts before, in
/// and after the marker.
fn marker_changes(file: &[u8], at: usize) -> Vec<Damage> {
    let before = at.saturating_sub(1);
    let lengths = [BYTES, LONGEST, before, at, at + 3, at + 4, at + 5, at + 8];
    let mut cases = Vec::new();
    for (place, byte) in (at..).zip(&file[at..at + 4]) {
        for value in [byte ^ 1, byte ^ 0x80] {
            cases.extend(lengths.map(|length| Damage::change(length, place, value)));
        }
    }
    cases
}

/// The bytes next to a marker, where they belong to a table.
fn changes_beside(file: &[u8], at: usize) -> Vec<Damage> {
    let beside = [at.wrapping_sub(1), at + 4];
    let tables = beside.into_iter().filter(|place| !in_marker(*place));
    tables
        .filter(|place| *place < BYTES)
        .flat_map(|place| [1, 0x80].map(|bit| Damage::change(BYTES, place, file[place] ^ bit)))
        .collect()
}

fn in_marker(place: usize) -> bool {
    markers().iter().any(|at| (*at..at + 4).contains(&place))
}

/// A byte of a table or of what follows the last marker.
fn change_elsewhere(random: &mut Generator) -> Damage {
    loop {
        let place = random.below(LONGEST as u64) as usize;
        if !in_marker(place) {
            return Damage::change(LONGEST, place, random.below(256) as u8);
        }
    }
}

#[cfg(test)]
mod tests {
    use super::{cases, in_marker};
    use crate::draw::data_files::named;
    use crate::month_file::BYTES;
    use crate::reference::files::walk;

    #[test]
    fn changes_outside_markers_are_not_refused() {
        let [(_, calm), ..] = named();
        for damage in cases(&calm.month) {
            let (number, _) = walk(&damage.done_to(&calm.month));
            if damage.length as usize >= BYTES && !in_marker(damage.place as usize) {
                assert_eq!(number, 0);
            }
        }
    }
}
