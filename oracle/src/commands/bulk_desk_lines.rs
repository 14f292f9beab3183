//! `bulk-desk-lines COUNT SEED PROGRAM FOLDER`: lines of journals through the port's
//! program `desk`, beside the model. COUNT lines with numbers in all spellings stand
//! in few long journals, some of them shown; lines that are no calls have a journal
//! and a process each.

use super::bulk_desk::beside::{Beside, Errors};
use super::bulk_desk::lent::Files;
use super::whole;
use crate::draw::desk_texts::faults::{every, spoiled};
use crate::draw::desk_texts::lines::line;
use crate::draw::desk_texts::numbers::{dressed, near_an_end, near_middle, whole as spelled};
use crate::draw::generator::Generator;
use crate::draw::sheet_kinds::one_of;
use crate::model::desks::fields::{range, Range};
use crate::model::desks::lent::Lent;
use crate::model::desks::text::run::run_text;

/// Lines of a long journal.
const LINES: u64 = 4000;
/// Of so many lines with numbers one comes that is no call, up to a most.
const ONE_SPOILED_IN: u64 = 20;
const MOST_SPOILED: u64 = 5000;

const START: &str = "\
open month 6 sunspot 80 hour 12 from 62.47 6.15 to 64.13 -21.9
1 begin
";

/// Each change with its fields.
const CHANGES: [(&str, &[usize]); 5] = [
    ("sunspot", &[2]),
    ("hour", &[3]),
    ("path", &[4, 5, 6, 7]),
    ("factors", &[9, 10, 11, 12]),
    ("pole", &[13, 14]),
];

/// Whole numbers at the ends of their ranges.
const WHOLES: [u32; 10] = [0, 1, 4, 5, 12, 13, 256, 65_537, 1 << 31, u32::MAX];

pub fn run(count: &str, seed: &str, program: &str, folder: &str) -> Result<(), String> {
    let (count, seed) = (whole(count)?, whole(seed)?);
    let mut beside = Beside::new(program, folder);
    let files = Files::good();
    let year = files.named()[0].1.to_vec();
    beside.put_files(files)?;
    for case in 0..count.div_ceil(LINES) {
        let mut random = Generator::of_case(seed, case);
        let lines = LINES.min(count - case * LINES);
        beside.name(&format!("numbers {case}"));
        compare(&mut beside, &numbers(&mut random, lines), &year)?;
    }
    let mut random = Generator::of_case(seed, u64::MAX);
    let count = (count / ONE_SPOILED_IN).min(MOST_SPOILED);
    let drawn = (0..count).map(|_| spoiled(&mut random));
    for (number, line) in every().into_iter().chain(drawn).enumerate() {
        beside.name(&format!("line {number}"));
        let start = start_of(&line, number);
        compare(&mut beside, &alone(start, &line), &year)?;
    }
    beside.report()
}

/// What was shown of other journals is forgotten, or it would fill the memory.
fn compare(beside: &mut Beside, journal: &[u8], year: &[u8]) -> Result<(), String> {
    let wanted = run_text(journal, &Lent::year(year));
    beside.run(journal, &wanted, Errors::None)
}

/// Calls follow, which must not be answered where a line is none.
fn alone(start: &str, line: &[u8]) -> Vec<u8> {
    [start.as_bytes(), line, b"\n3 begin\n1 show\n"].concat()
}

/// Most lines come after an open and a begin, but opens and one in eight come first.
fn start_of(line: &[u8], number: usize) -> &'static str {
    match line.starts_with(b"open") || number.is_multiple_of(8) {
        true => "",
        false => START,
    }
}

/// A journal of so many lines, after its start.
fn numbers(random: &mut Generator, count: u64) -> Vec<u8> {
    let mut journal = Vec::from(START);
    let mut lines = 0;
    while lines < count {
        let next = match random.below(16) {
            0 => picture(random),
            1 => vec![of_a_whole(random)],
            _ => vec![at_an_end(random)],
        };
        for words in next {
            journal.extend(line(random, &words));
            journal.push(b'\n');
            lines += 1;
        }
    }
    journal
}

/// All numbers of a draft, each near the middle of two f32, and the draft shown. From
/// about 8 on six decimals tell one from the next.
fn picture(random: &mut Generator) -> Vec<Vec<String>> {
    let mut lines: Vec<Vec<String>> = CHANGES
        .iter()
        .map(|(name, fields)| {
            let numbers: Vec<String> = fields.iter().map(|field| middle(random, *field)).collect();
            change(name, &numbers)
        })
        .collect();
    lines.push(vec![String::from("1"), String::from("show")]);
    lines
}

/// Inside a field's range, the larger sizes more often, and zeros of both signs.
fn middle(random: &mut Generator, field: usize) -> String {
    let (low, high) = ends(field);
    if low <= 0.0 && random.below(16) == 0 {
        let zeros = ["-0", "-.0", "-0.", "+0", "-000.000000000000000000"];
        return one_of(random, &zeros).into();
    }
    let v = match random.below(4) {
        0 => random.uniform(low.into(), high.into()),
        _ if low < 0.0 => random.sign() * random.uniform(0.5, 1.0) * f64::from(high),
        _ => random.uniform(0.5, 1.0) * f64::from(high),
    };
    let v = (v as f32).clamp(low, high.next_down().next_down());
    let text = near_middle(random, v);
    dressed(random, &text)
}

fn ends(field: usize) -> (f32, f32) {
    match range(field) {
        Range::Number(low, high) => (low, high),
        Range::Whole(..) => panic!("field {field} is a whole number"),
    }
}

/// A change of which one number is near the end of its range.
fn at_an_end(random: &mut Generator) -> Vec<String> {
    let (name, fields) = one_of(random, &CHANGES);
    let chosen = one_of(random, fields);
    let numbers: Vec<String> = fields
        .iter()
        .map(|field| match *field == chosen {
            true => near_an_end(random, *field),
            false => middle(random, *field),
        })
        .collect();
    change(name, &numbers)
}

fn change(name: &str, numbers: &[String]) -> Vec<String> {
    let mut words = vec![String::from("1"), String::from(name)];
    words.extend_from_slice(numbers);
    if name == "path" {
        words.insert(2, String::from("from"));
        words.insert(5, String::from("to"));
    }
    words
}

/// A month or a desk that is one, or none.
fn of_a_whole(random: &mut Generator) -> Vec<String> {
    let number = one_of(random, &WHOLES);
    let number = spelled(random, number);
    match random.below(2) {
        0 => ["1", "month", &number].map(String::from).into(),
        _ => [&number, "hour", "12"].map(String::from).into(),
    }
}

#[cfg(test)]
mod tests {
    use super::{alone, numbers, start_of, Files};
    use crate::draw::generator::Generator;
    use crate::model::desks::text::run::{hear, lines};
    use crate::model::desks::Answer;

    /// All lines are calls; both answers are common, and drafts are shown.
    #[test]
    fn journals_of_numbers_run_to_their_end() {
        let lent = Files::good().lent();
        let journal = numbers(&mut Generator::new(1), 2000);
        let heard = hear(&lines(&journal).0, &lent);
        assert_eq!(heard.no_call, None);
        assert!(heard.heard.len() >= 2002);
        let count = |is: fn(&Answer) -> bool| heard.heard.iter().filter(|h| is(&h.answer)).count();
        assert!(count(|answer| *answer == Answer::Accepted) > 600);
        assert!(count(Answer::is_refused) > 400);
        assert!(count(|answer| matches!(answer, Answer::Points(_))) > 50);
    }

    #[test]
    fn a_line_alone_is_where_it_can_be_a_call() {
        let lent = Files::good().lent();
        for (line, ended) in [(&b"1 commit"[..], false), (b"1", true), (b"open", true)] {
            let journal = alone(start_of(line, 1), line);
            assert_eq!(hear(&lines(&journal).0, &lent).has_ended(), ended);
        }
    }
}
