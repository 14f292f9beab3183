//! `bulk-lines COUNT SEED PROGRAM`: the port's program `lines` beside the model over
//! random lines, every output line with the bits of all numbers.

use super::program::Compared;
use super::whole;
use crate::draw::desk_texts::each::any_line;
use crate::draw::generator::Generator;
use crate::model::desks::text::line::words;
use crate::model::desks::text::number::Decimal;
use crate::model::desks::text::run::lines;
use crate::model::desks::text::said::said_text;
use std::collections::BTreeMap;

/// Lines of one run of the program.
const LINES: u64 = 50_000;

/// The operations by their numbers, from 1 on.
const OPERATIONS: [&str; 12] = [
    "begin",
    "sunspot",
    "hour",
    "path",
    "factors",
    "pole",
    "commit",
    "cancel",
    "take back",
    "show",
    "month",
    "model",
];

pub fn run(count: &str, seed: &str, program: &str) -> Result<(), String> {
    let (count, seed) = (whole(count)?, whole(seed)?);
    let mut compared = Compared::new(program, &[]);
    let mut kinds = Kinds::default();
    for case in 0..count.div_ceil(LINES) {
        let mut random = Generator::of_case(seed, case);
        let text = text(&mut random, LINES.min(count - case * LINES));
        let wanted = said_text(&text);
        kinds.note_all(&text, &wanted);
        compared.note(&format!("text {case}"), &text, &wanted)?;
    }
    kinds.print();
    compared.report()
}

/// So many lines, and now and then one that has no end.
fn text(random: &mut Generator, count: u64) -> Vec<u8> {
    let mut text = Vec::new();
    for _ in 0..count {
        text.extend(any_line(random));
        text.push(b'\n');
    }
    if random.below(2) == 0 {
        text.extend(b"1 begin");
    }
    text
}

/// How often lines of each kind have come, and numbers of calls in the middle of two
/// f32.
#[derive(Default)]
struct Kinds {
    counts: BTreeMap<String, u64>,
    lines: u64,
    numbers: u64,
    /// The even one is nearer to 0, or further from it.
    ties: [u64; 2],
}

impl Kinds {
    fn note_all(&mut self, text: &[u8], said: &str) {
        for (line, said) in lines(text).0.into_iter().zip(said.lines()) {
            self.lines += 1;
            *self.counts.entry(kind(said)).or_insert(0) += 1;
            if !said.contains("no call") && said != "too long" {
                self.note_numbers(&words(line));
            }
        }
    }

    /// The words of a call that are printed by their bits: not a desk, nor a month.
    fn note_numbers(&mut self, words: &[&[u8]]) {
        for pair in words.windows(2).filter(|pair| pair[0] != b"month") {
            let Some(number) = Decimal::read(pair[1]) else {
                continue;
            };
            self.numbers += 1;
            if let Some(up) = number.is_tied_up() {
                self.ties[usize::from(up)] += 1;
            }
        }
    }

    fn print(&self) {
        for (kind, count) in &self.counts {
            println!("{count:>10}  {kind}");
        }
        println!("{:>10}  lines", self.lines);
        let [down, up] = self.ties;
        println!(
            "{:>10}  numbers, of which ties {down} to the nearer to 0, {up} to the further",
            self.numbers
        );
    }
}

/// Of a fault what is said of the word, whichever it is.
fn kind(line: &str) -> String {
    if let Some((_, fault)) = line.split_once(": no call: word ") {
        let (_, what) = fault
            .split_once(' ')
            .expect("a number and what is said of it");
        return format!("no call: {what}");
    }
    let first = line.split(' ').next().unwrap_or(line);
    match u32::from_str_radix(first, 16) {
        Ok(operation) => format!("call: {}", OPERATIONS[operation as usize - 1]),
        Err(_) if first == "too" => String::from("too long"),
        Err(_) => String::from(first),
    }
}

#[cfg(test)]
mod tests {
    use super::{kind, said_text, text, Kinds};
    use crate::draw::generator::Generator;

    /// Each of 12 calls, each of 12 things that are said of a word, and three more.
    #[test]
    fn all_kinds_come_often() {
        let mut kinds = Kinds::default();
        let text = text(&mut Generator::new(1), 50_000);
        kinds.note_all(&text, &said_text(&text));
        assert!(
            kinds.ties.iter().all(|count| *count > 400),
            "{:?}",
            kinds.ties
        );
        assert_eq!(kinds.counts.len(), 27, "{:?}", kinds.counts);
        let rare = kinds
            .counts
            .iter()
            .filter(|(kind, count)| **count < 20 && **kind != "too long");
        assert_eq!(rare.collect::<Vec<_>>(), []);
    }

    #[test]
    fn kinds_are_told_apart() {
        assert_eq!(kind("0000000c 00000001 00000000"), "call: model");
        assert_eq!(kind("open 00000001"), "open");
        assert_eq!(
            kind("line 7: no call: word 5 should be from"),
            "no call: should be from"
        );
        assert_eq!(kind("too long"), "too long");
        assert_eq!(kind("blank"), "blank");
    }
}
