//! What the program `lines` prints: what each line of a text is, its numbers as the
//! words that `replay year` would be given.

use super::line::{read, words, Said};
use super::number::Decimal;
use super::run::{lines, no_call_text, NoCall, TOO_LONG};
use crate::model::desks::programs;

/// All lines, each by itself: a wrong one ends nothing.
pub fn said_text(text: &[u8]) -> String {
    let (lines, _) = lines(text);
    let lines = (1..).zip(lines);
    lines
        .map(|(number, line)| line_text(number, line))
        .collect()
}

fn line_text(number: usize, line: &[u8]) -> String {
    if line.len() >= TOO_LONG {
        return String::from("too long\n");
    }
    words(line).into_iter().for_each(hold_to_the_library);
    match read(line) {
        Err(fault) => no_call_text(number, &NoCall::Fault(fault)),
        Ok(None) => String::from("blank\n"),
        Ok(Some(line)) => match line.said {
            Said::Open(inputs) => format!("open {}\n", digits(&inputs)),
            Said::Call(call) => digits(&programs::words(&call)) + "\n",
        },
    }
}

fn digits(words: &[u32]) -> String {
    let words: Vec<String> = words.iter().map(|word| format!("{word:08x}")).collect();
    words.join(" ")
}

/// A number is read once more, by the library, which rounds correctly too.
fn hold_to_the_library(word: &[u8]) {
    let Some(number) = Decimal::read(word) else {
        return;
    };
    let text = String::from_utf8_lossy(word);
    let read: f32 = text.parse().expect("a number");
    assert_eq!(number.bits(), read.to_bits(), "{text}");
}

#[cfg(test)]
mod tests {
    use super::said_text;

    #[test]
    fn a_line_for_each() {
        let long = "#".repeat(65_536);
        let text = format!(
            "open month 6 sunspot 80 hour -0 from 1 2 to 3 4 long model ursi\n\t# a comment\n{long}\n\
             7 path from 1 2 to 3 -.5\n1 show 2\ntake back\n0 show\n4 month 4294967295\n{}\n1 begin",
            &long[1..]
        );
        let wanted = "\
open 00000006 42a00000 80000000 3f800000 40000000 40400000 40800000 00000001 \
3f800000 3f800000 3f800000 3f800000 429d0000 c28a0000 00000001
blank
too long
00000004 00000007 3f800000 40000000 40400000 bf000000 00000000
line 5: no call: word 3 is one too many
00000009
0000000a 00000000
0000000b 00000004 ffffffff
blank
";
        assert_eq!(said_text(text.as_bytes()), wanted);
    }
}
