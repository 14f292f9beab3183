//! Lines that are no calls: words that are missing, too many or others, bytes that
//! are others. Now and then one is a call all the same.

use super::lines::{call_words, line, open_words};
use super::numbers::{NO_NUMBERS, NO_WHOLES};
use crate::draw::generator::Generator;
use crate::draw::journal_kinds::year_list;
use crate::draw::sheet_kinds::{one_of, year_inputs};
use crate::model::desks::Worksheet;

/// A line of each kind of call, with all that it can say.
const SENTENCES: [&str; 16] = [
    "open month 6 sunspot 80 hour 12 from 62.47 6.15 to 64.13 -21.9",
    "open month 6 sunspot 80 hour 12 from 62.47 6.15 to 64.13 -21.9 long \
     factors 1 2 .5 1 pole 78.5 -69 model ursi",
    "1 begin",
    "1 commit",
    "1 cancel",
    "1 month 7",
    "1 sunspot 92.5",
    "1 hour 18",
    "1 model ursi",
    "1 path from 62.47 6.15 to 66 -18.1",
    "1 path from 62.47 6.15 to 66 -18.1 long",
    "1 factors 1 2 3 4",
    "1 pole 80 -70",
    "1 show",
    "show",
    "take back",
];

/// All words of a journal, and some that are none.
const VOCABULARY: [&str; 36] = [
    "open",
    "month",
    "sunspot",
    "hour",
    "from",
    "to",
    "long",
    "factors",
    "pole",
    "model",
    "ccir",
    "ursi",
    "begin",
    "commit",
    "cancel",
    "path",
    "show",
    "take",
    "back",
    "0",
    "1",
    "4",
    "5",
    "12",
    "6.5",
    "-1",
    "-0",
    "+1",
    "4294967295",
    "4294967296",
    "x",
    "Open",
    "LONG",
    "short",
    "desk",
    "\"1\"",
];

/// What parts words, and what does not.
const PARTING: [&str; 10] = [
    "\t", "\r", " \t\r ", "\u{b}", "\u{c}", "\0", "\u{85}", "\u{a0}", "\u{2003}", ",",
];

const BYTES: &[u8] = b" \t\r\n#.+-019eEn\0\x0b\x0c\x7f\x80\xff";

/// Every sentence with each of its words missing, another or one too many.
pub fn every() -> Vec<Vec<u8>> {
    let mut lines = Vec::new();
    for sentence in SENTENCES {
        let words: Vec<&str> = sentence.split(' ').collect();
        for at in 0..=words.len() {
            let (before, after) = words.split_at(at);
            lines.push(before.join(" "));
            for other in ["x", "0", "-7.5", "long", "model"] {
                lines.push([before, &[other], after].concat().join(" "));
                let rest = after.split_first().map_or(&[][..], |(_, rest)| rest);
                lines.push([before, &[other], rest].concat().join(" "));
            }
        }
    }
    for number in NO_NUMBERS.iter().chain(&NO_WHOLES) {
        lines.push(format!("1 sunspot {number}"));
        lines.push(format!("1 month {number}"));
        lines.push(format!("{number} begin"));
        lines.push(format!("{number} show"));
        lines.push(SENTENCES[0].replace("month 6", &format!("month {number}")));
    }
    for sentence in SENTENCES {
        lines.extend(PARTING.map(|between| sentence.replace(' ', between)));
        lines.extend(PARTING.map(|around| format!("{around}{sentence}{around}")));
        lines.extend(PARTING.map(|before| sentence.replacen(' ', &format!("{before}#"), 1)));
    }
    lines.into_iter().map(String::into_bytes).collect()
}

/// A line that is no call, as a rule.
pub fn spoiled(random: &mut Generator) -> Vec<u8> {
    let mut words = sentence(random);
    let at = random.below(words.len() as u64) as usize;
    match random.below(9) {
        0 => words.truncate(at),
        1 => words[at] = any_word(random),
        2 => {
            let at = random.below(words.len() as u64 + 1) as usize;
            words.insert(at, any_word(random));
        }
        3 => {
            words.remove(at);
        }
        4 => words.swap(at, at.saturating_sub(1)),
        5 => words[at] = words[at].to_uppercase(),
        6 => {
            let next = words.get(at + 1).cloned().unwrap_or_default();
            words[at] += &next;
        }
        7 => {
            let word = words[at].clone();
            let (a, b) = word.split_at(word.len() / 2);
            words.splice(at..=at, [String::from(a), String::from(b)]);
        }
        _ => {
            let plain = words.join(" ").into_bytes();
            let count = 1 + random.below(3);
            let damaged = damaged(random, &plain, count);
            return damaged.into_iter().filter(|byte| *byte != b'\n').collect();
        }
    }
    line(random, &words)
}

/// The words of any call, or of an open.
pub fn sentence(random: &mut Generator) -> Vec<String> {
    let inputs = year_inputs(random);
    if random.below(4) == 0 {
        return open_words(random, &inputs);
    }
    let opened = Worksheet::open(inputs).expect("in range");
    let call = year_list(random, &opened, 3)[2];
    call_words(random, &call)
}

/// A few words in any order.
pub fn any_words(random: &mut Generator) -> Vec<String> {
    (0..random.below(9)).map(|_| any_word(random)).collect()
}

fn any_word(random: &mut Generator) -> String {
    match random.below(3) {
        0 => String::from(one_of(random, &NO_NUMBERS)),
        _ => String::from(one_of(random, &VOCABULARY)),
    }
}

/// So many bytes that are others, are gone, or are new.
pub fn damaged(random: &mut Generator, text: &[u8], count: u64) -> Vec<u8> {
    let mut text = text.to_vec();
    for _ in 0..count {
        if text.is_empty() {
            break;
        }
        let at = random.below(text.len() as u64) as usize;
        let byte = match random.below(4) {
            0 => random.next() as u8,
            _ => one_of(random, BYTES),
        };
        match random.below(4) {
            0 => {
                text.remove(at);
            }
            1 => text.insert(at, byte),
            _ => text[at] = byte,
        }
    }
    text
}

#[cfg(test)]
mod tests {
    use super::{every, spoiled};
    use crate::draw::generator::Generator;
    use crate::model::desks::text::line::read;
    use std::collections::HashSet;

    /// Every place of every sentence is named by some line.
    #[test]
    fn each_fault_comes() {
        let faults: HashSet<String> = every()
            .iter()
            .filter_map(|line| read(line).err())
            .map(|fault| fault.to_string())
            .collect();
        for word in 2..=22 {
            let start = format!("word {word} ");
            assert!(faults.iter().any(|fault| fault.starts_with(&start)));
        }
        for what in [
            "ccir or ursi",
            "from",
            "to",
            "month",
            "sunspot",
            "hour",
            "back",
        ] {
            let end = format!(" should be {what}");
            assert!(faults.iter().any(|fault| fault.ends_with(&end)), "{what}");
        }
    }

    #[test]
    fn most_spoiled_lines_are_no_calls() {
        let mut random = Generator::new(1);
        let lines = (0..2000).map(|_| spoiled(&mut random));
        let none = lines.filter(|line| read(line).is_err()).count();
        assert!((1200..2000).contains(&none), "{none}");
    }
}
