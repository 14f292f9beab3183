//! `lines-in FILE`: lines of every kind, for the program `lines`. `lines FILE`: what
//! that program prints of them, by the model.

mod by_hand;

use super::answer::print;
use super::{read_file, write_file};
use crate::draw::desk_texts::each::any_line;
use crate::draw::desk_texts::faults::{every, spoiled};
use crate::draw::desk_texts::numbers::any_number;
use crate::draw::generator::Generator;
use crate::model::desks::text::said::said_text;
use std::collections::HashSet;

/// Lines with one drawn number, lines of any kind, and lines that are no calls as a
/// rule.
const NUMBERS: usize = 100;
const ANY: usize = 60;
const SPOILED: usize = 40;

pub fn run(file: &str) -> Result<(), String> {
    print(&said_text(&read_file(file)?))
}

pub fn input(file: &str) -> Result<(), String> {
    write_file(file, &text())
}

/// Every line once, and at the end one that is cut.
fn text() -> Vec<u8> {
    let mut random = Generator::new(906);
    let mut lines = [by_hand::lines(), every(), by_hand::long_lines()].concat();
    let number = |random: &mut Generator| format!("1 sunspot {}", any_number(random));
    lines.extend((0..NUMBERS).map(|_| number(&mut random).into_bytes()));
    lines.extend((0..ANY).map(|_| any_line(&mut random)));
    lines.extend((0..SPOILED).map(|_| spoiled(&mut random)));
    let mut seen = HashSet::new();
    lines.retain(|line| seen.insert(line.clone()));
    lines.push(Vec::from(by_hand::CUT));
    lines.join(&b'\n')
}

#[cfg(test)]
mod tests {
    use super::{by_hand, said_text, text};
    use crate::model::desks::text::run::lines;
    use std::collections::HashSet;

    /// Every operation, every thing that should be in a place, and the words of every
    /// place of an open.
    #[test]
    fn every_kind_comes() {
        let text = text();
        let said = said_text(&text);
        let starts: HashSet<&str> = said
            .lines()
            .filter_map(|line| line.split(' ').next())
            .collect();
        for operation in 1..=12 {
            let word: &str = &format!("{operation:08x}");
            assert!(starts.contains(word), "{operation}");
        }
        for start in ["blank", "open", "too", "line"] {
            assert!(starts.contains(start), "{start}");
        }
        for word in 1..=24 {
            let fault = format!(": no call: word {word} ");
            assert!(said.contains(&fault), "{word}");
        }
        assert_eq!(said.matches("too long\n").count(), 2);
        assert!((1000..2100).contains(&lines(&text).0.len()));
        assert!(text.ends_with(by_hand::CUT.as_bytes()));
    }

    /// Of the numbers in the middle of two some go up and some down, on both sides of 0.
    #[test]
    fn ties_go_to_the_even_one() {
        for (number, bits) in by_hand::TIES {
            let said = said_text(format!("1 hour {number}\n").as_bytes());
            assert_eq!(said, format!("00000003 00000001 {bits:08x}\n"), "{number}");
        }
    }
}
