//! `desk-words JOURNAL YEAR FILE`: an input of the program `replay year` with the open
//! and the calls of a journal, so that both programs are asked the same, and at its
//! end what words can say and a line cannot.

use super::journals::by_hand::{hour, model, month, path, sunspots, FAR};
use super::journals::drawn::Journal;
use super::year_journals::input;
use super::{read_file, write_file};
use crate::model::desks::lent::Lent;
use crate::model::desks::text::line::Said;
use crate::model::desks::text::run::{hear, lines};
use crate::model::desks::Call;
use crate::month_file::push_words;
use Call::{Begin, Cancel};

/// The desk whose draft is given what no line can give it.
const DESK: u32 = 2;
/// An operation that no journal knows.
const UNKNOWN: u32 = 13;

pub fn run(journal: &str, year: &str, file: &str) -> Result<(), String> {
    let words = in_words(&read_file(journal)?, &read_file(year)?)?;
    write_file(file, &words)
}

/// The journal up to what ends it.
fn in_words(journal: &[u8], year: &[u8]) -> Result<Vec<u8>, String> {
    let (lines, _) = lines(journal);
    let heard = hear(&lines, &Lent::year(year)).heard;
    let mut said = heard.iter().map(|heard| heard.said);
    let Some(Said::Open(inputs)) = said.next() else {
        return Err(String::from("the journal does not begin with an open"));
    };
    let calls = said.filter_map(|said| match said {
        Said::Call(call) => Some(call),
        Said::Open(_) => None,
    });
    let calls: Vec<Call> = calls.chain(no_lines()).collect();
    let mut words = Journal::of("a journal", inputs, &calls);
    push_words(&mut words.calls, &[UNKNOWN]);
    Ok(input(&words, year))
}

/// Flags and models that are none, a month that is an f32, and what is no number.
fn no_lines() -> [Call; 8] {
    [
        Begin(DESK),
        path(DESK, FAR, 2),
        path(DESK, FAR, u32::MAX),
        model(DESK, 2),
        month(DESK, 1f32.to_bits()),
        sunspots(DESK, f32::NAN),
        hour(DESK, f32::INFINITY),
        Cancel(DESK),
    ]
}

#[cfg(test)]
mod tests {
    use super::{in_words, no_lines, read_file};
    use crate::commands::journals::by_hand;
    use crate::commands::year::few;
    use crate::draw::desk_texts::journal;
    use crate::draw::generator::Generator;
    use crate::model::desks::lent::Lent;
    use crate::model::desks::programs::{replay_text, replay_year, replay_year_with, words};
    use crate::model::desks::text::line::Said;
    use crate::model::desks::text::run::{hear, lines, run_text, Journal, NoCall};
    use crate::model::desks::{run, Answer, Refusal, Worksheet};
    use std::collections::HashSet;

    /// A file of the gate.
    fn gate(name: &str) -> Vec<u8> {
        let crates = concat!(env!("CARGO_MANIFEST_DIR"), "/../crates");
        read_file(&format!("{crates}/{name}")).expect("a file of the gate")
    }

    /// What the gate gives to `desk run`.
    fn day() -> Vec<u8> {
        gate("desk_run/data/day.journal")
    }

    /// The answers to a journal's lines and to its words are the same, call by call:
    /// accepted, number and place of a refusal, or points and 151 figures.
    fn hold_together(text: &[u8], year: &[u8], lent: &Lent) -> Journal {
        let heard = hear(&lines(text).0, lent);
        let input = in_words(text, year).expect("words");
        let replayed = replay_year_with(lent, &input);
        let (open, calls) = heard.heard.split_first().expect("an open");
        let opened = replayed.opened.err().map(Answer::Refused);
        assert_eq!(open.answer, opened.unwrap_or(Answer::Accepted));
        if open.answer.is_refused() {
            assert!(calls.is_empty() && replayed.answers.is_empty());
            return heard;
        }
        let only_words = no_lines().len();
        assert_eq!(replayed.answers.len(), calls.len() + only_words);
        assert_eq!(replayed.stopped, Some(input.len() - 4));
        let answers = replayed.calls.iter().zip(&replayed.answers);
        for (heard, (call, answer)) in calls.iter().zip(answers) {
            assert_eq!(heard.said, Said::Call(*call), "line {}", heard.line);
            assert_eq!(heard.answer, *answer, "line {}", heard.line);
        }
        heard
    }

    #[test]
    fn words_are_answered_as_lines_are() {
        let year = few::year();
        let lent = Lent::year(&year);
        let mut random = Generator::new(11);
        let (mut journals, mut shown) = (0, 0);
        while journals < 60 {
            let text = journal(&mut random);
            let heard = hear(&lines(&text).0, &lent);
            if heard.no_call.is_some_and(|(_, why)| why == NoCall::NotOpen) {
                continue;
            }
            journals += 1;
            let heard = hold_together(&text, &year, &lent).heard;
            let is_shown = |answer: &Answer| matches!(answer, Answer::Points(_));
            shown += heard.iter().filter(|heard| is_shown(&heard.answer)).count();
        }
        assert!(shown > 100, "{shown}");
    }

    /// What the gate gives to both programs is one journal, with these answers.
    #[test]
    fn the_gate_asks_both_the_same() {
        let (day, year) = (day(), few::year());
        assert!(gate("desk_run/data/year.bin") == year);
        let words = in_words(&day, &year).expect("words");
        assert!(gate("replay_year/stdin") == words);
        let said = [
            ("desk_run/stdout", run_text(&day, &Lent::year(&year))),
            ("replay_year/stdout", replay_text(&replay_year(&words))),
        ];
        for (name, text) in said {
            assert!(gate(name) == text.into_bytes(), "{name}");
        }
    }

    /// All operations, and each refusal that lines can be given over the year file at
    /// each of its places.
    #[test]
    fn a_day_has_all_that_lines_can_say() {
        let year = few::year();
        let heard = hold_together(&day(), &year, &Lent::year(&year));
        assert!(matches!(heard.no_call, Some((_, NoCall::Fault(_)))));
        let calls = heard.heard.iter().filter_map(|heard| match &heard.said {
            Said::Call(call) => Some(words(call)[0]),
            Said::Open(_) => None,
        });
        assert_eq!(calls.collect::<HashSet<_>>(), (1..=12).collect());
        let refused = heard.heard.iter().filter_map(|heard| match heard.answer {
            Answer::Refused(Refusal { number, place, .. }) => Some((number, place)),
            _ => None,
        });
        let fields = [
            (1, 1),
            (2, 2),
            (3, 3),
            (4, 4),
            (5, 5),
            (4, 6),
            (5, 7),
            (6, 9),
            (6, 10),
            (6, 11),
            (6, 12),
            (4, 13),
            (5, 14),
        ];
        let files = [
            (8, 0),
            (9, 248),
            (10, 244),
            (11, 4),
            (23, 4000),
            (23, 23_532),
        ];
        let desks = (14..=18).map(|number| (number, 0));
        let wanted = fields.into_iter().chain(files).chain(desks);
        assert_eq!(refused.collect::<HashSet<_>>(), wanted.collect());
    }

    /// What the gate gives to `desk run` over a pair of files and over a year file that
    /// was cut, with these answers.
    #[test]
    fn the_gate_asks_over_other_files() {
        let ([record, month], cut) = (few::pair(), few::cut());
        assert!(gate("desk_pair/data/record.bin") == record);
        assert!(gate("desk_pair/data/month.bin") == month);
        assert!(gate("desk_cut/data/year.bin") == cut);
        let runs = [
            ("desk_pair", "night", Lent::pair(&record, &month)),
            ("desk_cut", "watch", Lent::year(&cut)),
        ];
        for (program, name, lent) in &runs {
            let text = run_text(&gate(&format!("{program}/data/{name}.journal")), lent);
            assert!(
                gate(&format!("{program}/stdout")) == text.into_bytes(),
                "{program}"
            );
        }
    }

    /// Over a cut year file each showing of the worksheet is refused by 19.
    #[test]
    fn nothing_is_shown_from_half_a_year() {
        let cut = few::cut();
        let heard = hear(
            &lines(&gate("desk_cut/data/watch.journal")).0,
            &Lent::year(&cut),
        );
        assert!(heard.no_call.is_none());
        let answers: Vec<_> = heard
            .heard
            .iter()
            .map(|heard| heard.answer.clone())
            .collect();
        assert!(!answers
            .iter()
            .any(|answer| matches!(answer, Answer::Points(_))));
        let nineteen = |answer: &&Answer| {
            matches!(
                answer,
                Answer::Refused(Refusal {
                    number: 19,
                    place: 14,
                    ..
                })
            )
        };
        assert_eq!(answers.iter().filter(nineteen).count(), 5);
    }

    /// A draft is begun, all that is given to it is refused, and it goes.
    #[test]
    fn what_no_line_says_is_refused() {
        let sheet = Worksheet::open(by_hand::inputs()).expect("in range");
        let (answers, last) = run(&sheet, &no_lines(), &Lent::year(&[]));
        assert_eq!(last, sheet);
        let [Answer::Accepted, given @ .., Answer::Accepted] = &answers[..] else {
            panic!("{answers:?}");
        };
        let wanted = [(7, 8), (7, 8), (7, 15), (1, 1), (2, 2), (3, 3)];
        let wanted = wanted.map(|(number, place)| Answer::Refused(Refusal::at(number, place)));
        assert_eq!(given, wanted);
    }
}
