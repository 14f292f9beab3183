//! What `desk run` answers to a journal.

use super::line::{read, Fault, Line, Said};
use super::sheet::sheet;
use super::unsaid;
use crate::model::desks::fields::Inputs;
use crate::model::desks::lent::Lent;
use crate::model::desks::{Answer, Call, Refusal, Worksheet};

/// A line of so many bytes is no call.
pub const TOO_LONG: usize = 65_536;

/// A call of a journal with its answer. Lines count from 1.
#[derive(Debug, Clone)]
pub struct Heard {
    pub line: usize,
    pub said: Said,
    pub kept: String,
    pub answer: Answer,
    /// The inputs that a showing is of, if they are there.
    pub inputs: Option<Inputs>,
}

/// Why a line is no call.
#[derive(Debug, Clone, Copy, PartialEq, Eq)]
pub enum NoCall {
    Fault(Fault),
    /// 65,536 bytes or more.
    TooLong,
    OpenAlready,
    NotOpen,
}

/// What was heard of a journal until it ended.
#[derive(Debug, Default)]
pub struct Journal {
    pub heard: Vec<Heard>,
    /// The line that is no call, if there is one.
    pub no_call: Option<(usize, NoCall)>,
}

impl Journal {
    /// Whether a line ended it: one that is no call, or an open that was refused.
    pub fn has_ended(&self) -> bool {
        let open = self.heard.first();
        self.no_call.is_some() || open.is_some_and(|open| open.answer.is_refused())
    }
}

/// The lines of a journal, and what stands after the last newline; that is a line
/// too where it is too long to be one.
pub fn lines(journal: &[u8]) -> (Vec<&[u8]>, &[u8]) {
    let mut lines: Vec<&[u8]> = journal.split(|byte| *byte == b'\n').collect();
    match lines.pop().expect("there is always a last part") {
        rest if rest.len() < TOO_LONG => (lines, rest),
        rest => {
            lines.push(rest);
            (lines, b"")
        }
    }
}

/// The calls of these lines, up to what ends a journal: a line that is no call, or
/// an open that is refused.
pub fn hear(lines: &[&[u8]], lent: &Lent) -> Journal {
    let mut journal = Journal::default();
    let mut sheet = None;
    for (number, line) in (1..).zip(lines) {
        match call(line, sheet.is_some()) {
            Ok(None) => {}
            Ok(Some(line)) => {
                let heard = answered(&mut sheet, number, line, lent);
                journal.heard.push(heard);
                if sheet.is_none() {
                    break;
                }
            }
            Err(no_call) => {
                journal.no_call = Some((number, no_call));
                break;
            }
        }
    }
    journal
}

/// The first call is an open, and no other is.
fn call(line: &[u8], is_open: bool) -> Result<Option<Line>, NoCall> {
    if line.len() >= TOO_LONG {
        return Err(NoCall::TooLong);
    }
    let read = read(line).map_err(NoCall::Fault)?;
    match read.as_ref().map(|line| line.said) {
        Some(Said::Open(_)) if is_open => Err(NoCall::OpenAlready),
        Some(Said::Call(_)) if !is_open => Err(NoCall::NotOpen),
        _ => Ok(read),
    }
}

/// The worksheet is the one that the call leaves.
fn answered(sheet: &mut Option<Worksheet>, number: usize, line: Line, lent: &Lent) -> Heard {
    let (answer, inputs) = match line.said {
        Said::Open(inputs) => {
            let opened = Worksheet::open(inputs);
            *sheet = opened.ok();
            let refused = opened.err().map(Answer::Refused);
            (refused.unwrap_or(Answer::Accepted), None)
        }
        Said::Call(call) => {
            let before = sheet.expect("a call comes after the open");
            *sheet = Some(before.after(&call));
            (before.answer(&call, lent), shown(&before, &call))
        }
    };
    Heard {
        line: number,
        said: line.said,
        kept: line.kept,
        answer,
        inputs,
    }
}

fn shown(sheet: &Worksheet, call: &Call) -> Option<Inputs> {
    match call {
        Call::Show(0, _) => Some(sheet.inputs),
        Call::Show(desk @ 1..=4, _) => {
            let draft = sheet.drafts[*desk as usize - 1];
            draft.map(|draft| draft.inputs)
        }
        _ => None,
    }
}

/// The standard output of `desk run`.
pub fn run_text(journal: &[u8], lent: &Lent) -> String {
    let (lines, _) = lines(journal);
    journal_text(&hear(&lines, lent))
}

pub fn journal_text(journal: &Journal) -> String {
    let mut text: String = journal.heard.iter().map(answer_text).collect();
    if let Some((line, no_call)) = &journal.no_call {
        text += &no_call_text(*line, no_call);
    }
    text
}

pub fn answer_text(heard: &Heard) -> String {
    let line = heard.line;
    match &heard.answer {
        Answer::Accepted => format!("line {line}: accepted\n"),
        Answer::Refused(refusal) => refused_text(line, *refusal),
        Answer::Points(figures) => {
            let inputs = heard.inputs.expect("a showing has inputs");
            let points = figures.points;
            let plural = if points == 1 { "" } else { "s" };
            let sheet = sheet(&inputs, figures);
            format!("line {line}: shown, {points} point{plural}\n{sheet}\n")
        }
    }
}

fn refused_text(line: usize, refusal: Refusal) -> String {
    let Refusal { number, place, .. } = refusal;
    let reason = unsaid::reason(refusal);
    format!("line {line}: refused {number} {place}: {reason}\n")
}

pub fn no_call_text(line: usize, no_call: &NoCall) -> String {
    let why = match no_call {
        NoCall::Fault(fault) => fault.to_string(),
        NoCall::TooLong => String::from(unsaid::TOO_LONG),
        NoCall::OpenAlready => String::from("the worksheet is open already"),
        NoCall::NotOpen => String::from("a journal begins with open"),
    };
    format!("line {line}: no call: {why}\n")
}
