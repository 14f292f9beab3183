use super::{
    inputs, replay, replay_text, replay_year, sheet, sheet_inputs, sheet_text, words, CALLS, HEAD,
    LONGEST_YEAR, MONTH, YEAR, YEAR_HEAD,
};
use crate::draw::data_files::{named, Pair};
use crate::draw::generator::Generator;
use crate::draw::journal_kinds::with_a_nan;
use crate::draw::sheet_kinds::{in_range, inputs as inputs_of_a_sheet};
use crate::draw::year_files::{first_months, packed, NO_GAPS};
use crate::model::desks::fields::{moved_to, FIELDS, URSI};
use crate::model::desks::lent::Lent;
use crate::model::desks::{Call, Edit, Worksheet};
use crate::month_file::push_words;
use crate::reference::sheets::FIGURES;

fn pair() -> Pair {
    let [(_, pair), ..] = named();
    pair
}

/// Inputs in range and both files.
fn start(pair: &Pair) -> Vec<u8> {
    let mut input = Vec::new();
    push_words(&mut input, &in_range(&mut Generator::new(4)).words());
    input.extend(&pair.daw[..7904]);
    input.extend(&pair.month);
    input
}

fn printed(input: &[u8]) -> String {
    sheet_text(&sheet(input))
}

fn replayed(input: &[u8]) -> String {
    replay_text(&replay(input))
}

/// `start` and these words as calls.
fn with_calls(words: &[u32]) -> Vec<u8> {
    let mut input = start(&pair());
    push_words(&mut input, words);
    input
}

#[test]
fn sheet_prints_one_refusal_or_151_lines() {
    assert_eq!(printed(&[]), "refused 1 1\n");
    let input = start(&pair());
    assert_eq!(input.len(), CALLS);
    let whole = printed(&input);
    assert_eq!(whole.len(), 151 * 9);
    let digits =
        |line: &str| line.len() == 8 && line.bytes().all(|b| b"0123456789abcdef".contains(&b));
    assert!(whole.lines().all(digits));
    let longer = [&input[..], &[0; 9]].concat();
    assert_eq!(printed(&longer), whole);
}

#[test]
fn sheet_refuses_what_is_cut() {
    let input = start(&pair());
    // The month, and then factors of 0.
    assert_eq!(printed(&input[..1]), "refused 6 9\n");
    assert_eq!(printed(&input[..55]), "refused 8 0\n");
    assert_eq!(printed(&input[..MONTH - 1]), "refused 8 0\n");
    assert_eq!(printed(&input[..MONTH]), "refused 9 0\n");
    assert_eq!(printed(&input[..MONTH + 247]), "refused 9 244\n");
    assert_eq!(printed(&input[..CALLS - 1]), "refused 9 38548\n");
}

#[test]
fn missing_bytes_count_as_nothing() {
    let input = [0x0c, 0, 0, 0, 0x11, 0x22, 0x33];
    let mut wanted = [0; FIELDS];
    wanted[..2].copy_from_slice(&[12, 0x0033_2211]);
    assert_eq!(inputs(&input), wanted);
    assert_eq!(sheet_inputs(&input), wanted);
}

/// What follows the 14 words is the record, whatever a model would be.
#[test]
fn a_sheet_has_no_model() {
    let words: Vec<u8> = (0..64).collect();
    let mut wanted = inputs(&words);
    assert_eq!(wanted[14], 0x3b3a_3938);
    wanted[14] = 0;
    assert_eq!(sheet_inputs(&words), wanted);
    assert_eq!(sheet_inputs(&words[..HEAD]), wanted);
    assert_eq!(inputs(&words[..HEAD]), wanted);
}

#[test]
fn every_nan_is_printed_alike() {
    let mut input = start(&with_a_nan(&pair()));
    input[4..8].copy_from_slice(&70f32.to_le_bytes());
    let text = printed(&input);
    assert!(text.lines().any(|line| line == "7fc00000"));
    let nan =
        |line: &str| u32::from_str_radix(line, 16).is_ok_and(|word| f32::from_bits(word).is_nan());
    assert!(text
        .lines()
        .filter(|line| nan(line))
        .all(|line| line == "7fc00000"));
}

#[test]
fn replay_prints_a_line_for_each_call() {
    let shown = sheet(&start(&pair())).expect("a good sheet");
    let figures = format!("points {}\n{}", shown.points, printed(&start(&pair())));
    let good = 30f32.to_bits();
    let bad = 301f32.to_bits();
    let input = with_calls(&[1, 1, 2, 1, good, 2, 1, bad, 7, 1, 9, 9, 10, 0, 10, 9, 8, 2]);
    let wanted = format!(
        "accepted\naccepted\nrefused 2 2\naccepted\naccepted\nrefused 18 0\n{figures}\
         refused 14 0\nrefused 16 0\n"
    );
    assert_eq!(replayed(&input), wanted);
    assert_eq!(replayed(&with_calls(&[])), "");
}

#[test]
fn replay_ends_with_a_refused_open() {
    let mut input = with_calls(&[1, 1]);
    input[28] = 2;
    assert_eq!(replayed(&input), "refused 7 8\n");
    assert_eq!(replayed(&[]), "refused 1 1\n");
}

#[test]
fn replay_judges_the_open_of_a_cut_input() {
    let mut input = with_calls(&[1, 1]);
    for length in [55, 56, 57, MONTH, CALLS - 1] {
        assert_eq!(replayed(&input[..length]), "", "{length}");
    }
    input[0] = 13;
    for length in [1, 56, MONTH, CALLS - 1, CALLS + 1] {
        assert_eq!(replayed(&input[..length]), "refused 1 1\n", "{length}");
    }
}

#[test]
fn replay_stops_at_what_is_no_call() {
    let stopped = |words: &[u32], cut: usize| {
        let input = with_calls(words);
        replayed(&input[..input.len() - cut])
    };
    let at = |off: usize| format!("stopped at {}\n", CALLS + off);
    assert_eq!(stopped(&[0], 0), at(0));
    assert_eq!(stopped(&[11, 1, 1], 0), at(0));
    assert_eq!(stopped(&[12, 1, 1], 0), at(0));
    assert_eq!(stopped(&[9], 1), at(0));
    let accepted = format!("accepted\n{}", at(8));
    assert_eq!(stopped(&[1, 1, 7, 1], 1), accepted);
    for (operation, count) in [
        (1, 2),
        (2, 3),
        (3, 3),
        (4, 7),
        (5, 6),
        (6, 4),
        (7, 2),
        (8, 2),
        (10, 2),
    ] {
        let mut call = vec![0; count];
        call[0] = operation;
        assert_eq!(stopped(&call, 1), at(0));
        assert!(!stopped(&call, 0).contains("stopped"));
    }
}

/// It is refused after desk, draft and the path's numbers, and the journal goes
/// on.
#[test]
fn replay_refuses_a_bad_flag() {
    let bad = 91f32.to_bits();
    for flag in [2, 3, 256, 257, 0x3f80_0000, 1 << 31, u32::MAX] {
        let input = with_calls(&[
            4, 1, 0, 0, 0, 0, flag, 4, 9, 0, 0, 0, 0, flag, 1, 1, 4, 1, bad, 0, 0, 0, flag, 4, 1,
            0, 0, 0, 0, flag, 7, 1,
        ]);
        let wanted = "refused 16 0\nrefused 14 0\naccepted\nrefused 4 4\nrefused 7 8\naccepted\n";
        assert_eq!(replayed(&input), wanted, "{flag}");
    }
}

#[test]
fn calls_are_read_as_they_are_written() {
    let calls = [
        Call::Begin(7),
        Call::Change(1, Edit::Sunspots(1)),
        Call::Change(2, Edit::Hour(2)),
        Call::Change(
            3,
            Edit::Path {
                ends: [3, 4, 5, 6],
                flag: 2,
            },
        ),
        Call::Change(4, Edit::Factors([7, 8, 9, 10])),
        Call::Change(5, Edit::Pole([11, 12])),
        Call::Commit(8),
        Call::Cancel(9),
        Call::TakeBack,
        Call::Show(10, 151),
        Call::Change(11, Edit::Month(13)),
        Call::Change(12, Edit::Model(14)),
    ];
    let words_of = |calls: &[Call]| calls.iter().flat_map(words).collect::<Vec<u32>>();
    let over_a_pair = &calls[..calls.len() - 2];
    let read = replay(&with_calls(&words_of(over_a_pair)));
    assert_eq!(read.calls, over_a_pair);
    let read = replay_year(&year_input(&[], &words_of(&calls)));
    assert_eq!(read.calls, calls);
    assert_eq!(read.stopped, None);
}

/// Two months.
fn year() -> Vec<u8> {
    packed(&first_months(&mut Generator::new(11), 2), &NO_GAPS)
}

/// January and URSI.
fn year_inputs() -> [u32; FIELDS] {
    moved_to(inputs_of_a_sheet(&mut Generator::new(4)), 1, URSI)
}

fn year_input(year: &[u8], calls: &[u32]) -> Vec<u8> {
    let mut input = Vec::new();
    push_words(&mut input, &year_inputs());
    push_words(&mut input, &[year.len() as u32]);
    input.extend(year);
    push_words(&mut input, calls);
    input
}

fn replayed_year(input: &[u8]) -> String {
    replay_text(&replay_year(input))
}

#[test]
fn replay_year_shows_the_month_and_model_asked_for() {
    let year = year();
    let lent = Lent::year(&year);
    let figures = |month: u32, model: u32| {
        let inputs = moved_to(year_inputs(), month, model);
        let sheet = Worksheet::open(inputs).expect("in range");
        let shown = sheet.show(0, FIGURES, &lent).expect("a good year");
        let text = sheet_text(&Ok(shown.clone()));
        format!("points {}\n{text}", shown.points)
    };
    let calls = [
        10, 0, 1, 1, 11, 1, 2, 10, 1, 12, 1, 0, 10, 1, 11, 1, 13, 12, 1, 2, 11, 1, 3, 10, 1, 13,
    ];
    let input = year_input(&year, &calls);
    let mut wanted = figures(1, 1) + "accepted\naccepted\n";
    wanted += &(figures(2, 1) + "accepted\n" + &figures(2, 0));
    wanted += "refused 1 1\nrefused 7 15\naccepted\nrefused 8 0\n";
    wanted += &format!("stopped at {}\n", input.len() - 4);
    assert_eq!(replayed_year(&input), wanted);
}

/// The open is judged by its words before anything else is looked at.
#[test]
fn replay_year_judges_the_open_first() {
    let mut input = year_input(&year(), &[1, 1]);
    input[56] = 2;
    input[60..64].fill(0xff);
    for length in [60, 61, 64, input.len()] {
        assert_eq!(replayed_year(&input[..length]), "refused 7 15\n");
    }
    // Without its bytes the model is 0.
    assert_eq!(replayed_year(&input[..56]), "");
    assert_eq!(replayed_year(&input[..1]), "refused 6 9\n");
    assert_eq!(replayed_year(&[]), "refused 1 1\n");
}

#[test]
fn replay_year_needs_a_whole_year_file() {
    let year = year();
    let input = year_input(&year, &[1, 1]);
    for length in [60, 61, 63, 64, 65, 64 + year.len() - 1, 64 + year.len()] {
        assert_eq!(replayed_year(&input[..length]), "", "{length}");
    }
    assert_eq!(replayed_year(&input), "accepted\n");
    let stopped = format!("stopped at {}\n", YEAR + year.len());
    assert_eq!(replayed_year(&input[..input.len() - 1]), stopped);
}

#[test]
fn replay_year_takes_so_long_a_file_and_no_longer() {
    let mut year = year();
    year.resize(LONGEST_YEAR, 0xaa);
    let input = year_input(&year, &[1, 1, 9, 13]);
    let stopped = format!("stopped at {}\n", YEAR + LONGEST_YEAR + 12);
    let wanted = format!("accepted\nrefused 18 0\n{stopped}");
    assert_eq!(replayed_year(&input), wanted);
    year.push(0xaa);
    let input = year_input(&year, &[1, 1]);
    for length in [YEAR, YEAR + 1, input.len()] {
        assert_eq!(replayed_year(&input[..length]), "stopped at 60\n");
    }
    assert_eq!(replayed_year(&input[..YEAR - 1]), "");
    assert_eq!(YEAR_HEAD, 60);
}

#[test]
fn replay_year_answers_without_a_directory_too() {
    for length in [0, 7, 111] {
        let input = year_input(&year()[..length], &[10, 0, 1, 1, 11, 1, 12, 7, 1, 10, 0, 0]);
        let refused = format!("refused 19 {}\n", length / 8 + 1);
        let stopped = format!("stopped at {}\n", input.len() - 4);
        let wanted = format!("{refused}accepted\naccepted\naccepted\n{refused}{stopped}");
        assert_eq!(replayed_year(&input), wanted);
    }
}

/// Each call of a year alone, cut by a byte.
#[test]
fn replay_year_stops_at_a_call_cut_short() {
    for (operation, count) in [(1, 2), (4, 7), (9, 1), (10, 2), (11, 3), (12, 3)] {
        let mut call = vec![0; count];
        call[0] = operation;
        let input = year_input(&[], &call);
        assert!(!replayed_year(&input).contains("stopped"));
        assert_eq!(replayed_year(&input[..input.len() - 1]), "stopped at 64\n");
    }
}
