//! How often answers, ends of journals, origins and fates have come.

use crate::model::desks::text::run::{Journal, NoCall};
use crate::model::desks::Answer;
use std::collections::BTreeMap;

/// What an audit says of a field or a draft, by words of its line.
pub const OF_AUDITS: [(&str, &[&str]); 8] = [
    ("opened", &["opened at line"]),
    ("set", &["set by desk", "settled at line"]),
    ("none", &["none"]),
    ("cancelled", &["line", ": cancelled at line"]),
    ("taken back", &["committed at line", "taken back at line"]),
    (
        "not committed by then",
        &["line", ": not committed by then"],
    ),
    (
        "refused, cancelled",
        &["refused at line", ", cancelled at line"],
    ),
    (
        "refused, not committed by then",
        &["refused at line", ", not committed by then"],
    ),
];

/// Refusals by 23, by the file that they are about.
const OF_WORDS: [&str; 2] = ["refused 23, record", "refused 23, month file"];

#[derive(Default)]
pub struct Kinds {
    counts: BTreeMap<String, u64>,
}

impl Kinds {
    pub fn note(&mut self, journal: &Journal) {
        for heard in &journal.heard {
            self.add(match &heard.answer {
                Answer::Accepted => String::from("accepted"),
                Answer::Refused(refusal) if refusal.number == 23 => {
                    String::from(OF_WORDS[usize::from(!refusal.of_record)])
                }
                Answer::Refused(refusal) => format!("refused {:>2}", refusal.number),
                Answer::Points(shown) => format!("shown, {} points", shown.points),
            });
        }
        let end = journal.no_call.map(|(_, no_call)| match no_call {
            NoCall::Fault(_) => "a word that does not fit",
            NoCall::TooLong => "a line too long",
            NoCall::OpenAlready => "open already",
            NoCall::NotOpen => "not open",
        });
        if let Some(end) = end {
            self.add(format!("no call, {end}"));
        }
    }

    pub fn note_audit(&mut self, page: &str) {
        if !page.starts_with("audit of ") {
            return self.add(String::from("audit, in the way"));
        }
        for line in page.lines() {
            for (kind, words) in OF_AUDITS {
                if words.iter().all(|word| line.contains(word)) {
                    self.add(format!("audit, {kind}"));
                }
            }
        }
    }

    fn add(&mut self, kind: String) {
        *self.counts.entry(kind).or_insert(0) += 1;
    }

    /// An error if refusals by 23 of either file came fewer than so many times.
    pub fn refuse_rare(&self, least: u64) -> Result<(), String> {
        match OF_WORDS.into_iter().find(|kind| self.of(kind) < least) {
            Some(kind) => Err(format!("{kind} is too rare")),
            None => Ok(()),
        }
    }

    pub fn of(&self, kind: &str) -> u64 {
        self.counts.get(kind).copied().unwrap_or(0)
    }

    pub fn print(&self) {
        for (kind, count) in &self.counts {
            println!("{count:>10}  {kind}");
        }
    }
}

#[cfg(test)]
mod tests {
    use super::{Kinds, OF_AUDITS};

    /// Each line is of one kind.
    #[test]
    fn lines_of_audits_are_told_apart() {
        let page = "\
audit of line 9: the worksheet as it was shown there
hour                           12.000000  hours GMT  opened at line 1
sunspot number                 92.500000  set by desk 1 at line 3, settled at line 8
none
desk 2, begun at line 5: cancelled at line 7
desk 1, begun at line 5: committed at line 7, taken back at line 9
desk 3, begun at line 5: not committed by then
desk 3, begun at line 5: refused at line 7, not committed by then
desk 3, begun at line 5: refused at line 7, cancelled at line 8
";
        let mut kinds = Kinds::default();
        kinds.note_audit(page);
        for (kind, _) in OF_AUDITS {
            assert_eq!(kinds.of(&format!("audit, {kind}")), 1, "{kind}");
        }
    }
}
