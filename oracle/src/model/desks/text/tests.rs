//! Whole journals and their audits.

use super::audit::{audit_text, MOST_BYTES, MOST_CALLS, SHEET, SHORTER};
use super::run::{hear, lines, run_text};
use super::sheet::sheet;
use super::unsaid;
use crate::draw::data_files::named;
use crate::draw::desk_texts::journal;
use crate::draw::generator::Generator;
use crate::draw::year_files::{calm_year, packed, NO_GAPS};
use crate::model::desks::fields::inputs;
use crate::model::desks::lent::{Lent, Shown};
use crate::model::desks::text::line::Said;
use crate::model::desks::{Answer, Call};
use crate::reference::sheets::FIGURES;

mod audits;

pub const OPEN: &str = "open month 6 sunspot 80 hour 12 from 62.47 6.15 to 64.13 -21.9\n";

pub fn lent() -> Lent {
    Lent::year(&packed(&calm_year(&mut Generator::new(3)), &NO_GAPS))
}

/// The lines of an output that are no part of a sheet.
fn answers(journal: &str, lent: &Lent) -> Vec<String> {
    let text = run_text(journal.as_bytes(), lent);
    let lines = text.lines().filter(|line| line.starts_with("line "));
    lines.map(String::from).collect()
}

#[test]
fn a_line_for_each_call() {
    let lent = lent();
    let journal = [
        OPEN,
        "\n# a comment\n1 begin\n1 begin\n9 begin\n1 sunspot 301\n1 month 0\n",
        "2 hour 1\ntake back\n1 hour 24.5\n2 begin\n2 commit\n1 commit\n1 factors 1 1 1 9\n",
        "1 path from 1 2 to -91 200\n1 path from 1 2 to -90 200\n1 pole 91 0\n",
    ];
    let wanted = [
        "line 1: accepted",
        "line 4: accepted",
        "line 5: refused 15 0: the desk has a draft already",
        "line 6: refused 14 0: there is no such desk",
        "line 7: refused 2 2: the sunspot number is not 0 to 300",
        "line 8: refused 1 1: the month is not 1 to 12",
        "line 9: refused 16 0: the desk has no draft",
        "line 10: refused 18 0: there is nothing to take back",
        "line 11: refused 3 3: the hour is not 0 to 24",
        "line 12: accepted",
        "line 13: accepted",
        "line 14: refused 17 0: the worksheet has moved since the draft began",
        "line 15: refused 6 12: a factor is not 0.125 to 8",
        "line 16: refused 4 6: a latitude is not -90 to 90 degrees",
        "line 17: refused 5 7: a longitude is not -180 to 180 degrees",
        "line 18: refused 4 13: a latitude is not -90 to 90 degrees",
    ];
    assert_eq!(answers(&journal.concat(), &lent), wanted);
}

#[test]
fn what_ends_a_journal() {
    let lent = lent();
    let first = "open, show, take back or a desk's number";
    let second = "begin, sunspot, hour, month, model, path, factors, pole, show, commit or cancel";
    let cases = [
        (
            "show\n".into(),
            "line 1: no call: a journal begins with open",
        ),
        (
            "\nx\n".into(),
            &format!("line 2: no call: word 1 should be {first}"),
        ),
        (
            [OPEN, OPEN, "show\n"].concat(),
            "line 2: no call: the worksheet is open already",
        ),
        (
            [OPEN, "show 1\nshow\n"].concat(),
            "line 2: no call: word 2 is one too many",
        ),
        (
            [OPEN, "7 x\n"].concat(),
            &format!("line 2: no call: word 2 should be {second}"),
        ),
        (
            OPEN.replace("80", "301") + "show\n",
            "line 1: refused 2 2: the sunspot number is not 0 to 300",
        ),
        (
            OPEN.replace("6 ", "13 ") + "x\n",
            "line 1: refused 1 1: the month is not 1 to 12",
        ),
    ];
    for (journal, wanted) in cases {
        let answers = answers(&journal, &lent);
        assert_eq!(
            answers.last().map(String::as_str),
            Some(wanted),
            "{journal}"
        );
        let count = if journal.starts_with(OPEN) { 2 } else { 1 };
        assert_eq!(answers.len(), count, "{journal}");
    }
}

#[test]
fn what_stands_after_the_last_newline_is_no_line() {
    let lent = lent();
    let whole = [OPEN, "1 begin\n"].concat();
    for cut in ["1 commit", "x", " ", "# x", "\0"] {
        let journal = [&whole, cut].concat();
        let text = run_text(journal.as_bytes(), &lent);
        assert_eq!(text, run_text(whole.as_bytes(), &lent));
        assert_eq!(lines(journal.as_bytes()).1, cut.as_bytes());
    }
    assert_eq!(run_text(b"", &lent), "");
    assert_eq!(run_text(OPEN.trim_end().as_bytes(), &lent), "");
}

#[test]
fn a_line_of_65536_bytes_is_no_call() {
    let lent = lent();
    let filled = |length: usize| {
        let comment = "#".repeat(length - 8);
        [OPEN, "1 begin ", &comment, "\n1 commit\n"].concat()
    };
    assert_eq!(answers(&filled(65_535), &lent).len(), 3);
    for length in [65_536, 70_000] {
        let answers = answers(&filled(length), &lent);
        assert_eq!(
            answers[1..],
            [format!("line 2: no call: {}", unsaid::TOO_LONG)]
        );
    }
    let unended = |length: usize| [OPEN, &"#".repeat(length)].concat();
    assert_eq!(answers(&unended(65_535), &lent).len(), 1);
    let last = answers(&unended(65_536), &lent).pop();
    assert_eq!(last, Some(format!("line 2: no call: {}", unsaid::TOO_LONG)));
}

#[test]
fn a_showing_has_its_sheet_and_an_empty_line() {
    let lent = lent();
    let text = run_text([OPEN, "1 begin\n1 show\n"].concat().as_bytes(), &lent);
    let (start, sheet) = text
        .split_once("line 3: shown, 1 point\n")
        .expect("one point");
    assert_eq!(start, "line 1: accepted\nline 2: accepted\n");
    let lines: Vec<&str> = sheet.lines().collect();
    assert_eq!(lines.len(), 15 + 1 + 6 + 1 + 1 + 29 + 1);
    assert!(lines
        .iter()
        .enumerate()
        .all(|(i, line)| line.is_empty() == [15, 22, 53].contains(&i)));
    assert_eq!(lines[0], "month                                  6");
    assert_eq!(lines[1], "sunspot number                 80.000000");
    assert_eq!(
        lines[2],
        "hour                           12.000000  hours GMT"
    );
    let starts = [
        (16, "gcd "),
        (17, "gcd_km "),
        (21, "alatd "),
        (24, "rd "),
        (52, "epsilon "),
    ];
    for (line, start) in starts {
        assert!(lines[line].starts_with(start), "{}", lines[line]);
    }
    // Each number ends at its place, with its unit two blanks after it.
    for line in &lines[16..22] {
        assert!(line.len() > 31 && &line[29..31] == "  ", "{line}");
    }
}

/// The figures of a point stand in its column, whatever they are.
#[test]
fn points_stand_side_by_side() {
    let mut words = [0; FIGURES];
    for (i, word) in words.iter_mut().enumerate() {
        *word = (i as f32).to_bits();
    }
    words[6 + 29] = f32::NAN.to_bits();
    words[6 + 29 * 2] = f32::NEG_INFINITY.to_bits();
    words[7] = (-f32::MAX).to_bits();
    words[7 + 29] = 16_777_216f32.to_bits();
    let inputs = inputs(6, [1.0; 12], true);
    let text = sheet(&inputs, &Shown { points: 3, words });
    let lines: Vec<&str> = text.lines().collect();
    let columns = |line: &str| -> Vec<String> {
        let columns = (0..3).map(|i| &line[12 + 17 * i..][..17]);
        assert!(columns.clone().all(|column| column.starts_with(' ')));
        columns.map(|column| column.trim_start().into()).collect()
    };
    assert_eq!(columns(lines[23]), ["1", "2", "3"]);
    assert_eq!(columns(lines[24]), ["6.000000", "nan", "-inf"]);
    assert_eq!(
        columns(lines[25]),
        ["-16777215*2^104", "8388608*2^1", "65.000000"]
    );
    assert_eq!(columns(lines[52]), ["34.000000", "63.000000", "92.000000"]);
    assert_eq!(lines[24].len(), 12 + 51 + "  radians".len());
    assert_eq!(lines[52].len(), 12 + 51);
    assert_eq!(lines[7].split_whitespace().last(), Some("yes"));
}

/// Over a pair of files months and models are changed like any field.
#[test]
fn a_pair_of_files_does_too() {
    let [(_, pair), ..] = named();
    let lent = Lent::pair(&pair.daw, &pair.month);
    let journal = [OPEN, "1 begin\n1 month 7\n1 model ursi\n1 show\nshow\n"].concat();
    let answers = answers(&journal, &lent);
    assert_eq!(answers[2..4], ["line 3: accepted", "line 4: accepted"]);
    assert!(answers[4..]
        .iter()
        .all(|line| line.ends_with("shown, 1 point")));
    let lent = Lent::pair(&pair.daw[..7903], &pair.month);
    let text = run_text([OPEN, "show\n"].concat().as_bytes(), &lent);
    let wanted = "line 1: accepted\nline 2: refused 8 0: the F2 record of the month is not whole\n";
    assert_eq!(text, wanted);
}

/// At one place of either file.
#[test]
fn a_word_that_is_no_finite_number_is_said_of_its_file() {
    let [(_, pair), ..] = named();
    let with = |bytes: &[u8]| {
        let mut bytes = bytes.to_vec();
        bytes[400..404].copy_from_slice(&f32::INFINITY.to_le_bytes());
        bytes
    };
    let said = |record: &[u8], month: &[u8]| {
        let lent = Lent::pair(record, month);
        run_text([OPEN, "show\n"].concat().as_bytes(), &lent)
    };
    let (record, month) = (with(&pair.daw), with(&pair.month));
    let of_record = "line 2: refused 23 400: the F2 planes have no finite number at this byte\n";
    let of_month = "line 2: refused 23 400: the month file has no finite number at this byte\n";
    assert!(said(&record, &month).ends_with(of_record));
    assert!(said(&record, &pair.month).ends_with(of_record));
    assert!(said(&pair.daw, &month).ends_with(of_month));
}

/// All refusals that a journal can reach, all kinds of calls, and every end.
#[test]
fn random_journals_have_everything() {
    let mut random = Generator::new(7);
    let lent = Lent::year(&[]);
    let mut refused = [0; 20];
    let (mut ended, mut cut, mut calls) = (0, 0, 0);
    for _ in 0..400 {
        let journal = journal(&mut random);
        let (lines, rest) = lines(&journal);
        let heard = hear(&lines, &lent);
        for heard in &heard.heard {
            calls += 1;
            if let Answer::Refused(refusal) = heard.answer {
                refused[refusal.number as usize] += 1;
            }
            let again = super::line::read(heard.kept.as_bytes()).expect("a call");
            let again = again.expect("it has words");
            assert_eq!((again.said, again.kept), (heard.said, heard.kept.clone()));
        }
        ended += u32::from(heard.no_call.is_some());
        cut += u32::from(!rest.is_empty());
    }
    for number in [1, 2, 3, 4, 5, 6, 14, 15, 16, 17, 18, 19] {
        assert!(
            refused[number] > 30,
            "refusal {number}: {}",
            refused[number]
        );
    }
    assert!(
        ended > 50 && cut > 20 && calls > 20_000,
        "{ended} {cut} {calls}"
    );
}
