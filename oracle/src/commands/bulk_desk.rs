//! `bulk-desk COUNT SEED PROGRAM FOLDER`: the port's program `desk` beside the model
//! over random journals, with the audits of some of their lines and the shorter
//! journals of these; whole outputs byte by byte.

pub mod beside;
mod by_hand;
mod kinds;
pub mod lent;

use super::whole;
use crate::draw::desk_texts::{damaged_journal, journal};
use crate::draw::generator::Generator;
use crate::draw::sheet_kinds::one_of;
use crate::model::desks::lent::Lent;
use crate::model::desks::text::audit::{audit_text, SHEET, SHORTER};
use crate::model::desks::text::line::Said;
use crate::model::desks::text::run::{hear, journal_text, lines, run_text, Heard, Journal};
use crate::model::desks::{Answer, Call};
use beside::{Beside, Errors};
use kinds::Kinds;
use lent::Files;

/// Journals for each year file or pair of files.
const JOURNALS: u64 = 10;
/// In so many journals a showing must be refused by 23, of the record and of the month
/// file.
const RARE: u64 = 1000;

pub fn run(count: &str, seed: &str, program: &str, folder: &str) -> Result<(), String> {
    let (count, seed) = (whole(count)?, whole(seed)?);
    let mut beside = Beside::new(program, folder);
    let mut kinds = Kinds::default();
    by_hand(&mut beside, &mut kinds)?;
    for case in 0..count.div_ceil(JOURNALS) {
        let mut random = Generator::of_case(seed, case);
        let files = Files::any(&mut random);
        let lent = files.lent();
        beside.put_files(files)?;
        for number in 0..JOURNALS.min(count - case * JOURNALS) {
            beside.name(&format!("journal {number} of case {case}"));
            let journal = match random.below(4) {
                0 => damaged_journal(&mut random),
                _ => journal(&mut random),
            };
            let heard = compare_run(&mut beside, &mut random, &journal, &lent)?;
            kinds.note(&heard);
            if let Some(line) = line_to_audit(&mut random, &heard, &journal) {
                let page = compare_audit(&mut beside, &journal, &lent, line)?;
                kinds.note_audit(&page);
            }
        }
    }
    kinds.print();
    beside.report()?;
    kinds.refuse_rare(count / RARE)
}

/// Journals that are the same each time, with lines to be audited.
fn by_hand(beside: &mut Beside, kinds: &mut Kinds) -> Result<(), String> {
    let files = Files::good();
    let lent = files.lent();
    beside.put_files(files)?;
    let mut random = Generator::new(1);
    for (name, journal, audits) in by_hand::journals() {
        beside.name(name);
        let heard = compare_run(beside, &mut random, &journal, &lent)?;
        kinds.note(&heard);
        for line in audits {
            let page = compare_audit(beside, &journal, &lent, line)?;
            kinds.note_audit(&page);
        }
    }
    Ok(())
}

/// Some journals stand on standard input.
fn compare_run(
    beside: &mut Beside,
    random: &mut Generator,
    journal: &[u8],
    lent: &Lent,
) -> Result<Journal, String> {
    let (lines, cut) = lines(journal);
    let heard = hear(&lines, lent);
    // What is said of a cut line after a line that ended the journal is left open.
    let errors = match cut {
        // That there is no line is said.
        [] if journal.is_empty() => Errors::Some,
        [] => Errors::None,
        _ if heard.has_ended() => Errors::Any,
        _ => Errors::Some,
    };
    let wanted = journal_text(&heard);
    match random.below(8) {
        0 => beside.run_from_input(journal, &wanted, errors)?,
        _ => beside.run(journal, &wanted, errors)?,
    };
    Ok(heard)
}

/// Mostly one at which the worksheet was shown; now and then any, also such as are
/// not there.
fn line_to_audit(random: &mut Generator, heard: &Journal, journal: &[u8]) -> Option<usize> {
    let shown: Vec<usize> = heard
        .heard
        .iter()
        .filter(|heard| is_shown(heard))
        .map(|heard| heard.line)
        .collect();
    let count = lines(journal).0.len() as u64;
    match random.below(8) {
        0 => Some(1 + random.below(count + 2) as usize),
        _ if shown.is_empty() => None,
        _ => Some(one_of(random, &shown)),
    }
}

fn is_shown(heard: &Heard) -> bool {
    let shows = matches!(heard.said, Said::Call(Call::Show(0, _)));
    shows && matches!(heard.answer, Answer::Points(_))
}

/// The page, and the journal that is cut out of it. Gives the model's.
fn compare_audit(
    beside: &mut Beside,
    journal: &[u8],
    lent: &Lent,
    line: usize,
) -> Result<String, String> {
    let wanted = audit_text(journal, lent, line);
    let given = beside.audit(journal, line, &wanted)?;
    let Some((shorter, sheet)) = cut_out(&given) else {
        return Ok(wanted);
    };
    let answers = beside.run_shorter(shorter, &run_text(shorter.as_bytes(), lent))?;
    if last_sheet(&answers) != Some(sheet) {
        beside.differs(&format!(
            "the shorter journal of line {line} shows another sheet"
        ));
    }
    Ok(wanted)
}

/// The shorter journal and the sheet of a page.
fn cut_out(page: &str) -> Option<(&str, &str)> {
    let (_, rest) = page.split_once(SHORTER)?;
    rest.split_once(&format!("\n{SHEET}"))
}

/// The sheet of the last answer, which ends with an empty line.
fn last_sheet(answers: &str) -> Option<&str> {
    let at = answers.rfind("\nline ")?;
    let (first, sheet) = answers[at + 1..].split_once('\n')?;
    let sheet = sheet.strip_suffix('\n')?;
    first.contains(": shown, ").then_some(sheet)
}

#[cfg(test)]
mod tests {
    use super::{by_hand, cut_out, last_sheet, lent::Files, line_to_audit};
    use crate::draw::desk_texts::journal;
    use crate::draw::generator::Generator;
    use crate::model::desks::text::audit::audit_text;
    use crate::model::desks::text::run::{hear, lines, run_text};

    #[test]
    fn the_shorter_journal_is_cut_out() {
        let lent = Files::good().lent();
        let page = audit_text(by_hand::WORKED.as_bytes(), &lent, 9);
        let (shorter, sheet) = cut_out(&page).expect("a page");
        assert!(shorter.starts_with("open ") && shorter.ends_with("\n1 commit\nshow\n"));
        let answers = run_text(shorter.as_bytes(), &lent);
        assert_eq!(last_sheet(&answers), Some(sheet));
        let more = run_text((String::from(shorter) + "1 begin\n").as_bytes(), &lent);
        assert_eq!(last_sheet(&more), None);
        assert_eq!(cut_out("the journal has no line 9\n"), None);
    }

    /// A page for most of the lines chosen, and something in the way of some.
    #[test]
    fn lines_to_audit_are_mostly_shown() {
        let lent = Files::good().lent();
        let mut random = Generator::new(2);
        let (mut pages, mut others) = (0, 0);
        for _ in 0..200 {
            let journal = journal(&mut random);
            let heard = hear(&lines(&journal).0, &lent);
            if let Some(line) = line_to_audit(&mut random, &heard, &journal) {
                match cut_out(&audit_text(&journal, &lent, line)) {
                    Some(_) => pages += 1,
                    None => others += 1,
                }
            }
        }
        assert!(pages > 120 && others > 5, "{pages} and {others}");
    }
}
