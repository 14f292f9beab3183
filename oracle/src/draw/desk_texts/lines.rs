//! Lines of a journal: the words of calls, and blanks and comments around them.

use super::numbers::{near, whole};
use crate::draw::generator::Generator;
use crate::draw::sheet_kinds::one_of;
use crate::model::desks::fields::Inputs;
use crate::model::desks::{Call, Edit};

const BLANKS: [&str; 8] = [" ", " ", " ", "  ", "\t", "\r", " \t ", "\r\r"];
/// What may stand before the first word and after the last.
const AROUND: [&str; 8] = ["", "", "", "", " ", "\t", "\r", "  \t\r"];
const COMMENTS: [&str; 8] = [
    "#",
    "# a comment",
    "#1 begin",
    "## open month 6",
    "#\tlong \r",
    "# caf\u{e9} \u{2764}",
    "# 2 # 3",
    "#\0",
];

/// A call as a journal says it. Flags and models that are none, which no journal can
/// say, become one that is.
pub fn call_words(random: &mut Generator, call: &Call) -> Vec<String> {
    let (desk, what) = match *call {
        Call::TakeBack => return words(&["take", "back"]),
        Call::Show(0, _) if random.below(6) > 0 => return words(&["show"]),
        Call::Show(desk, _) => (desk, words(&["show"])),
        Call::Begin(desk) => (desk, words(&["begin"])),
        Call::Commit(desk) => (desk, words(&["commit"])),
        Call::Cancel(desk) => (desk, words(&["cancel"])),
        Call::Change(desk, edit) => (desk, edit_words(random, &edit)),
    };
    [vec![whole(random, desk)], what].concat()
}

pub fn edit_words(random: &mut Generator, edit: &Edit) -> Vec<String> {
    match *edit {
        Edit::Sunspots(word) => named(random, "sunspot", &[word]),
        Edit::Hour(word) => named(random, "hour", &[word]),
        Edit::Path { ends, flag } => {
            let path = path_words(random, &ends, flag);
            [words(&["path"]), path].concat()
        }
        Edit::Factors(factors) => named(random, "factors", &factors),
        Edit::Pole(pole) => named(random, "pole", &pole),
        Edit::Month(month) => vec![String::from("month"), whole(random, month)],
        Edit::Model(model) => words(&["model", model_word(model)]),
    }
}

/// What an open may leave out is now and then left out, whatever the inputs have.
pub fn open_words(random: &mut Generator, inputs: &Inputs) -> Vec<String> {
    let mut line = words(&["open", "month"]);
    line.push(whole(random, inputs[0]));
    line.extend(named(random, "sunspot", &inputs[1..2]));
    line.extend(named(random, "hour", &inputs[2..3]));
    line.extend(path_words(random, &inputs[3..7], inputs[7]));
    if random.below(4) > 0 {
        line.extend(named(random, "factors", &inputs[8..12]));
    }
    if random.below(4) > 0 {
        line.extend(named(random, "pole", &inputs[12..14]));
    }
    if random.below(4) > 0 {
        line.extend(words(&["model", model_word(inputs[14])]));
    }
    line
}

fn words(words: &[&str]) -> Vec<String> {
    words.iter().map(|word| String::from(*word)).collect()
}

fn model_word(model: u32) -> &'static str {
    ["ccir", "ursi"][model as usize % 2]
}

fn path_words(random: &mut Generator, ends: &[u32], flag: u32) -> Vec<String> {
    let mut line = named(random, "from", &ends[..2]);
    line.extend(named(random, "to", &ends[2..]));
    if flag % 2 == 1 {
        line.push(String::from("long"));
    }
    line
}

fn named(random: &mut Generator, name: &str, numbers: &[u32]) -> Vec<String> {
    let numbers = numbers.iter().map(|word| near(random, *word));
    [String::from(name)].into_iter().chain(numbers).collect()
}

/// Mostly with one blank between words and nothing else.
pub fn line(random: &mut Generator, words: &[String]) -> Vec<u8> {
    if random.below(4) > 0 {
        return words.join(" ").into_bytes();
    }
    let mut line = Vec::from(one_of(random, &AROUND));
    for (i, word) in words.iter().enumerate() {
        if i > 0 {
            line.extend(one_of(random, &BLANKS).bytes());
        }
        line.extend(word.bytes());
    }
    line.extend(one_of(random, &AROUND).bytes());
    if random.below(3) == 0 {
        line.extend(comment(random));
    }
    line
}

/// A comment, some of them of any bytes.
pub fn comment(random: &mut Generator) -> Vec<u8> {
    if random.below(4) > 0 {
        return Vec::from(one_of(random, &COMMENTS));
    }
    let bytes = (0..random.below(40)).map(|_| random.next() as u8);
    let mut comment: Vec<u8> = bytes.filter(|byte| *byte != b'\n').collect();
    comment.insert(0, b'#');
    comment
}

/// A line without a word.
pub fn empty(random: &mut Generator) -> Vec<u8> {
    Vec::from(one_of(random, &AROUND))
}
