//! Journals that chance hardly gives: the document's own, those of no line, lines and
//! journals as long as they may be, every fate of a draft.

use crate::model::desks::text::audit::{MOST_BYTES, MOST_CALLS};
use crate::model::desks::text::run::TOO_LONG;

const OPEN: &str = "open month 6 sunspot 80 hour 12 from 62.47 6.15 to 64.13 -21.9\n";

/// The journal that docs/PROGRAMS.md has.
pub const WORKED: &str = "\
open month 6 sunspot 80 hour 12 from 62.47 6.15 to 64.13 -21.9
1 begin
1 sunspot 92.5
1 path from 62.47 6.15 to 66 -18.1 long
2 begin            # a comment goes to the end of the line
2 hour 18
2 cancel
1 commit
show
take back
";

/// Each fate of a draft, and each field from an open and from a change.
const FATES: &str = "\
1 begin
2 begin
3 begin
4 begin
1 month 3
1 model ursi
1 factors 1 2 .5 0.125
2 pole 70 -60
1 commit
2 commit
2 commit
2 cancel
3 commit
1 begin
1 path from 1 2 to 3 4 long
1 commit
take back
show
4 cancel
4 begin
4 hour 4.
4 hour 5.50
4 commit
1 begin
show
take back
show
";

/// Name, journal and lines to be audited.
pub fn journals() -> Vec<(&'static str, Vec<u8>, Vec<usize>)> {
    let mut journals = vec![
        ("the document's", Vec::from(WORKED), (1..=12).collect()),
        ("fates", after_open(FATES), (1..=28).collect()),
        ("no byte", Vec::new(), vec![1]),
        ("no line", Vec::from("open month 6"), vec![1]),
        ("no word", Vec::from("\n \t\r\n# show\n"), vec![1, 2, 3, 4]),
        ("comments first", commented(), (1..=6).collect()),
        (
            "0 show",
            after_open("0 show\n00. show\n5 show\n"),
            vec![2, 3, 4],
        ),
        (
            "refused open",
            Vec::from(OPEN.replace("80", "301") + "show\n"),
            vec![1, 2, 3],
        ),
        (
            "second open",
            [WORKED, OPEN, "show\n"].concat().into(),
            vec![9, 11, 12],
        ),
        ("not open", Vec::from("show\n"), vec![1, 2]),
    ];
    journals.extend(long_lines());
    journals.extend(long_journals());
    journals
}

fn after_open(calls: &str) -> Vec<u8> {
    [OPEN, calls].concat().into_bytes()
}

fn commented() -> Vec<u8> {
    ["# June\n\n", OPEN, "# nothing yet\nshow # now\n"]
        .concat()
        .into_bytes()
}

/// A comment fills the line up to so many bytes, its newline not counted.
fn long_lines() -> Vec<(&'static str, Vec<u8>, Vec<usize>)> {
    let lengths = [
        ("a line of 65,535 bytes", TOO_LONG - 1),
        ("a line of 65,536 bytes", TOO_LONG),
        ("a line of 65,537 bytes", TOO_LONG + 1),
    ];
    let line = |(name, length): (&'static str, usize)| {
        let line = String::from("show ") + &"#".repeat(length - 5) + "\nshow\n";
        (name, after_open(&line), vec![2, 3])
    };
    lengths.map(line).into()
}

/// So many calls, the open among them, or so many bytes.
fn long_journals() -> Vec<(&'static str, Vec<u8>, Vec<usize>)> {
    let calls = [
        ("8,192 calls", MOST_CALLS),
        ("8,193 calls", MOST_CALLS + 1),
        ("8,194 calls", MOST_CALLS + 2),
    ];
    let of_calls = |(name, count): (&'static str, usize)| {
        let journal = after_open(&("1 begin\n".repeat(count - 2) + "show\n"));
        (name, journal, vec![count, count + 1])
    };
    let bytes = [
        ("1,048,576 bytes", MOST_BYTES),
        ("1,048,577 bytes", MOST_BYTES + 1),
    ];
    let of_bytes = |(name, length): (&'static str, usize)| {
        let mut journal = after_open("show\n");
        while journal.len() < length {
            let line = (length - journal.len()).min(1000);
            journal.resize(journal.len() + line - 1, b'#');
            journal.push(b'\n');
        }
        (name, journal, vec![2])
    };
    calls
        .map(of_calls)
        .into_iter()
        .chain(bytes.map(of_bytes))
        .collect()
}
