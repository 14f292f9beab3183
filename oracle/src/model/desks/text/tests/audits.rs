//! Audits: the document's example, every origin, every fate, what is in the way.

use super::{audit_text, hear, lent, lines, run_text, Answer, Call, Lent, Said};
use super::{MOST_BYTES, MOST_CALLS, OPEN, SHEET, SHORTER};
use crate::draw::desk_texts::journal;
use crate::draw::generator::Generator;
use crate::model::desks::fields::FIELDS;
use std::collections::HashMap;

const WORKED: &str = "\
open month 6 sunspot 80 hour 12 from 62.47 6.15 to 64.13 -21.9
1 begin
1 sunspot 92.5
1 path from 62.47 6.15 to 66 -18.1 long
2 begin            # a comment goes to the end of the line
2 hour 18
2 cancel
1 commit
show
take back
";

/// A page's parts: origins, drafts, shorter journal, sheet.
fn parts(page: &str) -> [String; 4] {
    let (start, rest) = page
        .split_once("\nwhere its inputs come from:\n")
        .expect("origins");
    assert!(start.starts_with("audit of line ") && start.ends_with(" shown there\n"));
    let (origins, rest) = rest
        .split_once("\ndrafts that are not in it:\n")
        .expect("drafts");
    let (drafts, rest) = rest.split_once(&format!("\n{SHORTER}")).expect("a journal");
    let (shorter, sheet) = rest.split_once(&format!("\n{SHEET}")).expect("a sheet");
    [origins, drafts, shorter, sheet].map(String::from)
}

/// Of calls after the open, of which the last is at this line.
fn audited(calls: &str, lent: &Lent) -> [String; 4] {
    let journal = [OPEN, calls].concat();
    let line = journal.lines().count();
    parts(&audit_text(journal.as_bytes(), lent, line))
}

/// Where each field comes from.
fn origins(text: &str) -> Vec<&str> {
    let starts = ["opened at", "set by"];
    let lines = text.lines().map(|line| {
        let at = starts.iter().find_map(|start| line.find(start));
        &line[at.expect("an origin")..]
    });
    lines.collect()
}

#[test]
fn the_documents_example() {
    let lent = lent();
    let page = audit_text(WORKED.as_bytes(), &lent, 9);
    let start = "\
audit of line 9: the worksheet as it was shown there

where its inputs come from:
month                                  6  opened at line 1
sunspot number                 92.500000  set by desk 1 at line 3, settled at line 8
hour                           12.000000  hours GMT  opened at line 1
";
    assert!(page.starts_with(start), "{page}");
    let [origins_text, drafts, shorter, sheet] = parts(&page);
    let path = "set by desk 1 at line 4, settled at line 8";
    let origins = origins(&origins_text);
    assert_eq!(origins.len(), FIELDS);
    assert_eq!(origins[3..8], [path; 5]);
    assert_eq!(origins[8..], ["opened at line 1"; 7]);
    assert_eq!(drafts, "desk 2, begun at line 5: cancelled at line 7\n");
    let open = OPEN.trim_end();
    let rest = shorter.strip_prefix(&format!(
        "{open} factors 1 1 1 1 pole 78.5 -69 model ccir\n"
    ));
    let wanted = "\
1 begin
1 sunspot 92.5
1 path from 62.47 6.15 to 66 -18.1 long
1 commit
show
";
    assert_eq!(rest, Some(wanted));
    let run = run_text(WORKED.as_bytes(), &lent);
    let (_, rest) = run.split_once("line 9: shown, 5 points\n").expect("shown");
    assert_eq!(rest, format!("{sheet}\nline 10: accepted\n"));
}

#[test]
fn every_origin() {
    let lent = lent();
    let changes = "\
1 begin
1 month 7
1 sunspot 1
1 sunspot 2
1 sunspot 301
1 hour 3
1 commit
2 begin
2 path from 1 2 to 3 4
2 factors 1 2 3 4
2 commit
3 begin
3 pole 70 -60
3 model ursi
3 hour 4
3 commit
show
";
    let [text, drafts, ..] = audited(changes, &lent);
    let set = |desk: u32, line: u32, settled: u32| {
        format!("set by desk {desk} at line {line}, settled at line {settled}")
    };
    let path = set(2, 10, 12);
    let factors = set(2, 11, 12);
    let wanted = [
        vec![set(1, 3, 8), set(1, 5, 8), set(3, 16, 17)],
        vec![path; 5],
        vec![factors; 4],
        vec![set(3, 14, 17), set(3, 14, 17), set(3, 15, 17)],
    ];
    assert_eq!(origins(&text), wanted.concat());
    assert_eq!(drafts, "none\n");
    // Taken back, the hour is desk 1's again, and the pole the open's.
    let back = changes.replace("show\n", "take back\nshow\n");
    let [text, drafts, ..] = audited(&back, &lent);
    assert_eq!(origins(&text)[2], set(1, 7, 8));
    assert_eq!(origins(&text)[12..], ["opened at line 1"; 3]);
    let taken = "desk 3, begun at line 13: committed at line 17, taken back at line 18\n";
    assert_eq!(drafts, taken);
}

/// What is set again to what it was is set all the same, and an open need not stand
/// at line 1.
#[test]
fn the_last_change_counts() {
    let lent = lent();
    let journal =
        format!("# June\n\n{OPEN}1 begin\n1 hour 12\n1 commit\n2 begin\n2 commit\nshow\n");
    let page = audit_text(journal.as_bytes(), &lent, 9);
    let [text, ..] = parts(&page);
    let origins = origins(&text);
    assert_eq!(origins[2], "set by desk 1 at line 5, settled at line 6");
    assert_eq!(origins[0], "opened at line 3");
}

#[test]
fn every_fate() {
    let lent = lent();
    let calls = "\
1 begin
2 begin
3 begin
4 begin
4 begin
1 hour 1
1 commit
2 commit
2 commit
3 commit
3 cancel
4 cancel
1 begin
1 commit
take back
3 begin
9 begin
show
";
    let [_, drafts, shorter, _] = audited(calls, &lent);
    let wanted = "\
desk 2, begun at line 3: refused at line 10, not committed by then
desk 3, begun at line 4: refused at line 11, cancelled at line 12
desk 4, begun at line 5: cancelled at line 13
desk 1, begun at line 14: committed at line 15, taken back at line 16
desk 3, begun at line 17: not committed by then
";
    assert_eq!(drafts, wanted);
    let (open, rest) = shorter.split_once('\n').expect("an open");
    assert!(open.starts_with(OPEN.trim_end()));
    let kept = "1 begin\n1 hour 1\n1 commit\n1 begin\n1 commit\ntake back\nshow\n";
    assert_eq!(rest, kept);
}

/// What comes after the line does not count: the draft is open there, and no commit
/// has been taken back yet.
#[test]
fn later_lines_do_not_count() {
    let lent = lent();
    let calls = "1 begin\n1 hour 1\nshow\n1 commit\nshow\ntake back\nshow\n";
    let journal = [OPEN, calls].concat();
    let drafts = |line| {
        let [text, drafts, ..] = parts(&audit_text(journal.as_bytes(), &lent, line));
        (String::from(origins(&text)[2]), drafts)
    };
    let never = "desk 1, begun at line 2: not committed by then\n";
    assert_eq!(drafts(4), ("opened at line 1".into(), never.into()));
    let set = "set by desk 1 at line 3, settled at line 5";
    assert_eq!(drafts(6), (set.into(), "none\n".into()));
    let taken = "desk 1, begun at line 2: committed at line 5, taken back at line 7\n";
    assert_eq!(drafts(8), ("opened at line 1".into(), taken.into()));
}

#[test]
fn what_is_in_the_way() {
    let lent = lent();
    let journal = [OPEN, "\n1 begin\n1 show\n0 show\nx\nshow\n"].concat();
    let said = |line| audit_text(journal.as_bytes(), &lent, line);
    for line in 1..=4 {
        let text = "does not show the worksheet: an audit is of a line that says show";
        assert_eq!(said(line), format!("line {line} {text}\n"));
    }
    assert!(said(5).starts_with("audit of line 5: "));
    let no_call = "line 6: no call: word 1 should be open, show, take back or a desk's number\n";
    for line in [6, 7, 8, 100] {
        assert_eq!(said(line), no_call);
    }
    let short = [OPEN, "show\nshow"].concat();
    for line in [0, 3, 4] {
        let text = audit_text(short.as_bytes(), &lent, line);
        assert_eq!(text, format!("the journal has no line {line}\n"));
    }
    let refused = audit_text(short.as_bytes(), &Lent::year(&[]), 2);
    let wanted = "line 2: refused 19 1: the year file has a bad directory at this pair\n";
    assert_eq!(refused, wanted);
    let open = OPEN.replace("80", "301") + "show\n";
    let refused = audit_text(open.as_bytes(), &lent, 2);
    assert_eq!(
        refused,
        "line 1: refused 2 2: the sunspot number is not 0 to 300\n"
    );
}

#[test]
fn what_an_audit_holds() {
    let lent = lent();
    let longer = "the journal is longer than an audit holds, which is 1048576 bytes: \
                  audit a copy of it that ends with that line\n";
    let more = "the journal has more calls up to that line than an audit holds, which is 8192\n";
    let of_calls = |count: usize| {
        let journal = [OPEN, &"9 begin\n".repeat(count - 2), "show\n"].concat();
        audit_text(journal.as_bytes(), &lent, count)
    };
    assert!(of_calls(MOST_CALLS).starts_with("audit of line 8192: "));
    assert_eq!(of_calls(MOST_CALLS + 1), more);
    let of_bytes = |length: usize| {
        let mut journal = [OPEN, "show\n"].concat();
        journal += &"\n".repeat(length - journal.len());
        audit_text(journal.as_bytes(), &lent, 2)
    };
    assert!(of_bytes(MOST_BYTES).starts_with("audit of line 2: "));
    assert_eq!(of_bytes(MOST_BYTES + 1), longer);
}

/// Where a change stands, by another way: worksheets that carry with each field the
/// line of its change.
fn tracked(heard: &[super::super::run::Heard], line: usize) -> Vec<String> {
    let open = format!("opened at line {}", heard[0].line);
    let mut sheet = vec![open; FIELDS];
    let mut earlier = sheet.clone();
    let mut drafts: HashMap<u32, Vec<String>> = HashMap::new();
    let before = heard.iter().filter(|heard| heard.line <= line);
    for heard in before.filter(|heard| !heard.answer.is_refused()) {
        match heard.said {
            Said::Call(Call::Begin(desk)) => {
                drafts.insert(desk, sheet.clone());
            }
            Said::Call(Call::Change(desk, edit)) => {
                let draft = drafts.get_mut(&desk).expect("a draft");
                let (first, words) = edit.fields();
                let set = format!(
                    "set by desk {desk} at line {}, settled at line ",
                    heard.line
                );
                draft[first - 1..][..words.len()].fill(set);
            }
            Said::Call(Call::Commit(desk)) => {
                let draft = drafts.remove(&desk).expect("a draft");
                let settled = draft.into_iter().map(|text| match text.ends_with(' ') {
                    true => format!("{text}{}", heard.line),
                    false => text,
                });
                earlier = std::mem::replace(&mut sheet, settled.collect());
            }
            Said::Call(Call::TakeBack) => sheet.clone_from(&earlier),
            _ => {}
        }
    }
    sheet
}

/// Random journals: origins by both ways, the shorter journal shows the same sheet,
/// and all fates come.
#[test]
fn audits_of_random_journals() {
    let lent = lent();
    let mut random = Generator::new(8);
    let mut fates: HashMap<&str, u32> = HashMap::new();
    for _ in 0..60 {
        let journal = journal(&mut random);
        let heard = hear(&lines(&journal).0, &lent).heard;
        let shown = heard.iter().filter(|heard| {
            let is_shown = matches!(heard.said, Said::Call(Call::Show(0, _)));
            is_shown && matches!(heard.answer, Answer::Points(_))
        });
        for line in shown.map(|heard| heard.line) {
            let page = audit_text(&journal, &lent, line);
            let [text, drafts, shorter, sheet] = parts(&page);
            assert_eq!(origins(&text), tracked(&heard, line));
            let answers = run_text(shorter.as_bytes(), &lent);
            assert!(answers.ends_with(&format!("\n{sheet}\n")), "{page}");
            for fate in FATES {
                *fates.entry(fate).or_insert(0) += drafts.matches(fate).count() as u32;
            }
        }
    }
    assert!(FATES.iter().all(|fate| fates[fate] > 20), "{fates:?}");
}

const FATES: [&str; 6] = [
    ": cancelled at",
    ", cancelled at",
    ": committed at",
    ", taken back at",
    ": not committed by then",
    ", not committed by then",
];
