//! The page of `desk audit`: where the sheet shown at a line comes from.

use super::line::Said;
use super::run::{answer_text, hear, lines, no_call_text, Heard, Journal};
use super::settled::List;
use super::sheet::{fields, sheet};
use crate::model::desks::lent::Lent;
use crate::model::desks::{Answer, Call};

pub const MOST_CALLS: usize = 8192;
pub const MOST_BYTES: usize = 1_048_576;

/// Before the shorter journal, and before the sheet.
pub const SHORTER: &str = "the shorter journal, which gives the same sheet:\n";
pub const SHEET: &str = "the sheet:\n";

/// The standard output of `desk audit`: the page, or a line that says what is in
/// the way.
pub fn audit_text(journal: &[u8], lent: &Lent, line: usize) -> String {
    audited(journal, lent, line).unwrap_or_else(|in_the_way| in_the_way)
}

/// Of what is in the way the first counts, by lines.
fn audited(journal: &[u8], lent: &Lent, line: usize) -> Result<String, String> {
    if journal.len() > MOST_BYTES {
        return Err(format!(
            "the journal is longer than an audit holds, which is {MOST_BYTES} bytes: \
             audit a copy of it that ends with that line\n"
        ));
    }
    let (lines, _) = lines(journal);
    let before = hear(&lines[..line.min(lines.len())], lent);
    if before.heard.len() > MOST_CALLS {
        return Err(format!(
            "the journal has more calls up to that line than an audit holds, which is {MOST_CALLS}\n"
        ));
    }
    refuse_ended(&before)?;
    if !(1..=lines.len()).contains(&line) {
        return Err(format!("the journal has no line {line}\n"));
    }
    let last = before.heard.last().filter(|heard| heard.line == line);
    let showing = last.filter(|heard| matches!(heard.said, Said::Call(Call::Show(0, _))));
    let showing = showing.ok_or(format!(
        "line {line} does not show the worksheet: an audit is of a line that says show\n"
    ))?;
    page(&before.heard, showing).ok_or_else(|| answer_text(showing))
}

/// A line that is no call, or an open that was refused, as `desk run` says it.
fn refuse_ended(journal: &Journal) -> Result<(), String> {
    if let Some((line, no_call)) = &journal.no_call {
        return Err(no_call_text(*line, no_call));
    }
    match journal.heard.first() {
        Some(open) if open.answer.is_refused() => Err(answer_text(open)),
        _ => Ok(()),
    }
}

/// None of a showing that was refused.
fn page(heard: &[Heard], showing: &Heard) -> Option<String> {
    let Answer::Points(figures) = &showing.answer else {
        return None;
    };
    let (open, calls) = heard.split_first()?;
    let inputs = &showing.inputs?;
    let list = list(calls);
    let line = showing.line;
    let origins = fields(inputs).into_iter().zip(1..);
    let origins = origins.map(|(text, field)| format!("{text}  {}\n", origin(&list, open, field)));
    let text = [
        format!("audit of line {line}: the worksheet as it was shown there\n"),
        String::from("\nwhere its inputs come from:\n"),
        origins.collect(),
        String::from("\ndrafts that are not in it:\n"),
        left_out(&list),
        format!("\n{SHORTER}"),
        shorter(open, calls, &list),
        format!("\n{SHEET}"),
        sheet(inputs, figures),
    ];
    Some(text.concat())
}

fn list(calls: &[Heard]) -> List {
    let call = |heard: &Heard| match heard.said {
        Said::Call(call) => call,
        Said::Open(_) => unreachable!("a journal has one open"),
    };
    List {
        calls: calls.iter().map(call).collect(),
        answers: calls.iter().map(|heard| heard.answer.clone()).collect(),
        lines: calls.iter().map(|heard| heard.line).collect(),
    }
}

fn origin(list: &List, open: &Heard, field: usize) -> String {
    match list.origin(field) {
        Some(change) => format!(
            "set by desk {} at line {}, settled at line {}",
            change.desk, change.set, change.settled
        ),
        None => format!("opened at line {}", open.line),
    }
}

fn left_out(list: &List) -> String {
    let drafts = list.left_out();
    if drafts.is_empty() {
        return String::from("none\n");
    }
    drafts.iter().map(|draft| format!("{draft}\n")).collect()
}

/// The shorter list of demand 3, each call as `desk say` keeps it.
fn shorter(open: &Heard, calls: &[Heard], list: &List) -> String {
    let kept = list.kept().into_iter().map(|i| &calls[i]);
    [open]
        .into_iter()
        .chain(kept)
        .map(|heard| format!("{}\n", heard.kept))
        .collect()
}
