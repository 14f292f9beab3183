//! Lines of every kind, each by itself: numbers of any size and in any spelling above
//! all, words in any order, and bytes that are others.

use super::faults::{any_words, damaged, sentence, spoiled};
use super::lines::{comment, empty, line};
use super::long_line;
use super::numbers::{any_number, any_whole};
use crate::draw::generator::Generator;
use crate::draw::sheet_kinds::one_of;

/// One line in so many is as long as a line may be, or longer.
const ONE_LONG_IN: u64 = 20_000;

/// The changes that have numbers, and how many.
const CHANGES: [(&str, usize); 4] = [("sunspot", 1), ("hour", 1), ("factors", 4), ("pole", 2)];

/// A line without its newline.
pub fn any_line(random: &mut Generator) -> Vec<u8> {
    if random.below(ONE_LONG_IN) == 0 {
        let long = long_line(random);
        return long
            .split(|byte| *byte == b'\n')
            .next()
            .unwrap_or_default()
            .to_vec();
    }
    let words = match random.below(16) {
        0 => return empty(random),
        1 => return comment(random),
        2 | 3 => return spoiled(random),
        4 => {
            let plain = sentence(random).join(" ").into_bytes();
            let count = 1 + random.below(3);
            let damaged = damaged(random, &plain, count);
            return damaged.into_iter().filter(|byte| *byte != b'\n').collect();
        }
        5 => any_words(random),
        6 | 7 => sentence(random),
        8 => open(random),
        9 => of_a_whole(random),
        10 | 11 => path(random),
        _ => change(random),
    };
    line(random, &words)
}

fn numbers(random: &mut Generator, name: &str, count: usize) -> Vec<String> {
    let numbers = (0..count).map(|_| any_number(random));
    [String::from(name)].into_iter().chain(numbers).collect()
}

/// Now and then one of its words is missing or one too many.
fn change(random: &mut Generator) -> Vec<String> {
    let (name, count) = one_of(random, &CHANGES);
    let count = match random.below(32) {
        0 => count - 1,
        1 => count + 1,
        _ => count,
    };
    [vec![any_whole(random)], numbers(random, name, count)].concat()
}

fn route(random: &mut Generator) -> Vec<String> {
    let mut words = [numbers(random, "from", 2), numbers(random, "to", 2)].concat();
    if random.below(2) == 0 {
        words.push(String::from("long"));
    }
    words
}

fn path(random: &mut Generator) -> Vec<String> {
    let start = vec![any_whole(random), String::from("path")];
    [start, route(random)].concat()
}

/// Each of its options is there or not.
fn open(random: &mut Generator) -> Vec<String> {
    let mut words = vec![
        String::from("open"),
        String::from("month"),
        any_whole(random),
    ];
    words.extend(numbers(random, "sunspot", 1));
    words.extend(numbers(random, "hour", 1));
    words.extend(route(random));
    for (name, count) in [("factors", 4), ("pole", 2)] {
        if random.below(2) == 0 {
            words.extend(numbers(random, name, count));
        }
    }
    if random.below(2) == 0 {
        let model = one_of(random, &["ccir", "ursi", "ccir", "ursi", "URSI"]);
        words.extend(["model", model].map(String::from));
    }
    words
}

fn of_a_whole(random: &mut Generator) -> Vec<String> {
    let mut words = vec![any_whole(random)];
    match random.below(2) {
        0 => words.extend([String::from("month"), any_whole(random)]),
        _ => words.push(one_of(random, &["begin", "commit", "cancel", "show"]).into()),
    }
    words
}
