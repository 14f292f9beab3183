use super::{read, Said};
use crate::model::desks::fields::{inputs, moved_to, URSI};
use crate::model::desks::{Call, Edit};
use crate::reference::sheets::FIGURES;

fn fault(line: &str) -> String {
    match read(line.as_bytes()) {
        Err(fault) => fault.to_string(),
        Ok(said) => panic!("{line} is {said:?}"),
    }
}

fn said(line: &str) -> Said {
    let read = read(line.as_bytes()).unwrap_or_else(|fault| panic!("{line}: {fault}"));
    read.expect("it has words").said
}

fn kept(line: &str) -> String {
    let read = read(line.as_bytes()).expect("a call");
    read.expect("it has words").kept
}

fn change(desk: u32, edit: Edit) -> Said {
    Said::Call(Call::Change(desk, edit))
}

fn bits<const N: usize>(numbers: [f32; N]) -> [u32; N] {
    numbers.map(f32::to_bits)
}

const OPEN: &str = "open month 6 sunspot 80 hour 12 from 62.47 6.15 to 64.13 -21.9";
const BEGIN_AND_SO_ON: &str =
    "begin, sunspot, hour, month, model, path, factors, pole, show, commit or cancel";
const NUMBER: &str = "a number: digits with sign and point, at most 18 of them";

#[test]
fn every_call_of_the_document() {
    let path = |flag| Edit::Path {
        ends: bits([62.47, 6.15, 66.0, -18.1]),
        flag,
    };
    for (line, wanted) in [
        ("1 begin", Said::Call(Call::Begin(1))),
        ("2 commit", Said::Call(Call::Commit(2))),
        ("3 cancel", Said::Call(Call::Cancel(3))),
        ("4294967295 begin", Said::Call(Call::Begin(u32::MAX))),
        ("1 month 13", change(1, Edit::Month(13))),
        (
            "1 sunspot 92.5",
            change(1, Edit::Sunspots(92.5f32.to_bits())),
        ),
        ("2 hour 18", change(2, Edit::Hour(18f32.to_bits()))),
        ("4 model ccir", change(4, Edit::Model(0))),
        ("4 model ursi", change(4, Edit::Model(1))),
        (
            "1 path from 62.47 6.15 to 66 -18.1 long",
            change(1, path(1)),
        ),
        ("1 path from 62.47 6.15 to 66 -18.1", change(1, path(0))),
        (
            "1 factors 1 2 3 4",
            change(1, Edit::Factors(bits([1.0, 2.0, 3.0, 4.0]))),
        ),
        (
            "1 pole 78.5 -69",
            change(1, Edit::Pole(bits([78.5, -69.0]))),
        ),
        ("3 show", Said::Call(Call::Show(3, FIGURES))),
        ("show", Said::Call(Call::Show(0, FIGURES))),
        ("0 show", Said::Call(Call::Show(0, FIGURES))),
        ("take back", Said::Call(Call::TakeBack)),
    ] {
        assert_eq!(said(line), wanted, "{line}");
    }
}

#[test]
fn an_open_and_what_it_may_add() {
    let numbers = [
        80.0, 12.0, 62.47, 6.15, 64.13, -21.9, 1.0, 1.0, 1.0, 1.0, 78.5, -69.0,
    ];
    assert_eq!(said(OPEN), Said::Open(inputs(6, numbers, false)));
    let long = format!("{OPEN} long");
    assert_eq!(said(&long), Said::Open(inputs(6, numbers, true)));
    let ursi = moved_to(inputs(6, numbers, false), 6, URSI);
    assert_eq!(said(&format!("{OPEN} model ursi")), Said::Open(ursi));
    let mut other = numbers;
    other[10..].copy_from_slice(&[1.0, 2.0]);
    assert_eq!(
        said(&format!("{OPEN} pole 1 2")),
        Said::Open(inputs(6, other, false))
    );
    other[6..10].copy_from_slice(&[0.5, 0.5, 2.0, 3.0]);
    let all = format!("{OPEN} long factors .5 0.5 2 3 pole 1 2 model ccir");
    assert_eq!(said(&all), Said::Open(inputs(6, other, true)));
}

#[test]
fn words_are_parted_by_blanks_tabs_and_carriage_returns() {
    assert_eq!(said("\t1 \r begin\r"), Said::Call(Call::Begin(1)));
    assert_eq!(
        said("2 begin            # a comment"),
        Said::Call(Call::Begin(2))
    );
    assert_eq!(said("2 begin#1 commit"), Said::Call(Call::Begin(2)));
    for line in ["", " \t\r", "#", "# 1 begin", "  #open"] {
        assert_eq!(read(line.as_bytes()), Ok(None), "{line}");
    }
    // Nothing else parts them, and a comment does not join two.
    assert_eq!(
        fault("1\u{b}begin"),
        "word 1 should be open, show, take back or a desk's number"
    );
    assert_eq!(
        fault("1 beg#in"),
        format!("word 2 should be {BEGIN_AND_SO_ON}")
    );
    assert_eq!(
        fault("1 BEGIN"),
        format!("word 2 should be {BEGIN_AND_SO_ON}")
    );
}

#[test]
fn the_first_word() {
    let wanted = "word 1 should be open, show, take back or a desk's number";
    for line in [
        "x",
        "begin 1",
        "-1 begin",
        "1.5 begin",
        "4294967296 begin",
        "Open",
        ".",
    ] {
        assert_eq!(fault(line), wanted, "{line}");
    }
}

#[test]
fn the_word_after_a_desk() {
    let wanted = format!("word 2 should be {BEGIN_AND_SO_ON}");
    for line in ["1", "7", "1 open", "1 take back", "1 1", "1 long"] {
        assert_eq!(fault(line), wanted, "{line}");
    }
}

#[test]
fn one_word_is_possible() {
    for (line, wanted) in [
        ("take", "word 2 should be back"),
        ("take it back", "word 2 should be back"),
        ("open", "word 2 should be month"),
        ("open month 6 hour 12", "word 4 should be sunspot"),
        ("open month 6 sunspot 80", "word 6 should be hour"),
        ("open month 6 sunspot 80 hour 1 to", "word 8 should be from"),
        (
            "open month 6 sunspot 80 hour 1 from 1 2 3",
            "word 11 should be to",
        ),
        ("1 path", "word 3 should be from"),
        ("1 path 1 2", "word 3 should be from"),
        (
            "1 path from 1 2 to",
            "word 7 should be a number: digits with sign and point, at most 18 of them",
        ),
    ] {
        assert_eq!(fault(line), wanted, "{line}");
    }
}

#[test]
fn numbers_and_models() {
    for (line, word) in [
        ("1 sunspot", 3),
        ("1 sunspot much", 3),
        ("1 hour 1e1", 3),
        ("1 factors 1 2 3", 6),
        ("1 pole 1", 4),
        ("1 path from 1 2 to 3 long", 8),
        ("open month 6 sunspot x", 5),
    ] {
        assert_eq!(
            fault(line),
            format!("word {word} should be {NUMBER}"),
            "{line}"
        );
    }
    let factors = format!("{OPEN} factors 1 1 model ccir");
    assert_eq!(fault(&factors), format!("word 17 should be {NUMBER}"));
    for (line, word) in [
        ("1 month", 3),
        ("1 month 6.0", 3),
        ("1 month -6", 3),
        ("open month june", 3),
    ] {
        let wanted = format!("word {word} should be a whole number below 4294967296");
        assert_eq!(fault(line), wanted, "{line}");
    }
    assert_eq!(fault("1 model"), "word 3 should be ccir or ursi");
    assert_eq!(fault("1 model CCIR"), "word 3 should be ccir or ursi");
    assert_eq!(
        fault(&format!("{OPEN} model")),
        "word 15 should be ccir or ursi"
    );
}

#[test]
fn words_that_are_too_many() {
    for (line, word) in [
        ("show 1", 2),
        ("show show", 2),
        ("take back 1", 3),
        ("1 begin now", 3),
        ("1 sunspot 80 hour 12", 4),
        ("1 model ccir ursi", 4),
        ("1 path from 1 2 to 3 4 short", 9),
        ("1 path from 1 2 to 3 4 long long", 10),
    ] {
        assert_eq!(
            fault(line),
            format!("word {word} is one too many"),
            "{line}"
        );
    }
}

/// After an open's path the words come in their order.
#[test]
fn what_an_open_adds_comes_in_order() {
    for (more, word) in [
        ("x", 14),
        ("factors 1 1 1 1 long", 19),
        ("pole 1 2 factors 1 1 1 1", 17),
        ("model ccir pole 1 2", 16),
        ("long long", 15),
        ("model ccir x", 16),
    ] {
        let wanted = format!("word {word} is one too many");
        assert_eq!(fault(&format!("{OPEN} {more}")), wanted, "{more}");
    }
}

#[test]
fn lines_as_they_are_kept() {
    for (line, wanted) in [
        (" 1\tsunspot  092.50 # up", "1 sunspot 92.50"),
        ("+01. begin", "1 begin"),
        ("1 month 006", "1 month 6"),
        (
            "1 path from .5 -.0 to +1 2. long",
            "1 path from 0.5 -0.0 to 1 2 long",
        ),
        ("1 pole 78.5 -69", "1 pole 78.5 -69"),
        ("1 factors 1 1 1 1", "1 factors 1 1 1 1"),
        ("2 model  ursi", "2 model ursi"),
        ("00 show", "show"),
        ("show", "show"),
        ("02 show", "2 show"),
        ("take\tback", "take back"),
    ] {
        assert_eq!(kept(line), wanted);
        assert_eq!(kept(wanted), wanted);
        assert_eq!(said(line), said(wanted));
    }
    let all = format!("{OPEN} factors 1 1 1 1 pole 78.5 -69 model ccir");
    assert_eq!(kept(OPEN), all);
    assert_eq!(kept(&all), all);
    let long = format!("{OPEN} long factors 2 1 1 1 pole 78.5 -69 model ursi");
    assert_eq!(
        kept(&format!("{OPEN} long factors 2 1 1 1 model ursi")),
        long
    );
}
