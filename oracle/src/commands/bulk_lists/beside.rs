//! One list of calls, run by a library and by the model beside it.

use super::drawn::{List, Start};
use crate::bits::F32;
use crate::commands::buffer::Buffer;
use crate::draw::generator::Generator;
use crate::model::desks::lent::Lent;
use crate::model::desks::library::{Desks, Files, Told};
use crate::model::desks::programs::Replayed;
use crate::model::desks::words::{self, Words, WORDS};
use crate::model::desks::{Answer, Call};

/// What the model answers, and where the library first differs.
pub fn run(
    desks: &impl Desks,
    random: &mut Generator,
    list: &List,
    files: &Files,
    lent: &Lent,
) -> (Replayed, Option<String>) {
    let (mut given, mut first) = started(desks, random, &list.start);
    let mut replayed = Replayed::of(list.start.worksheet());
    let Ok(mut sheet) = replayed.opened else {
        return (replayed, first);
    };
    for call in &list.calls {
        let answer = sheet.answer(call, lent);
        sheet = sheet.after(call);
        let text = one_call(desks, random, &mut given, call, files, &answer)
            .or_else(|| differing_words(&given, &words::of(&sheet)));
        let number = replayed.calls.len();
        let named = |text| format!("call {number}, {call:?}: {text}");
        first = first.or_else(|| text.map(named));
        replayed.calls.push(*call);
        replayed.answers.push(answer);
    }
    (replayed, first)
}

/// The words of a worksheet at its start, and how an open differs.
fn started(desks: &impl Desks, random: &mut Generator, start: &Start) -> (Words, Option<String>) {
    let before: Words = std::array::from_fn(|_| random.next() as u32);
    let bytes = match start {
        Start::Held(sheet) => return (words::of(sheet), None),
        Start::Open(bytes) => bytes,
    };
    let mut given = before;
    let told = desks.open(bytes, &mut given);
    let (wanted, after) = match start.worksheet() {
        Ok(sheet) => (Told::ACCEPTED, words::of(&sheet)),
        Err(refusal) => (Told::refused(refusal), before),
    };
    let text = differing(told, wanted).or_else(|| differing_words(&given, &after));
    (given, text.map(|text| format!("open {bytes:?}: {text}")))
}

/// Answer and buffer of one call.
fn one_call(
    desks: &impl Desks,
    random: &mut Generator,
    sheet: &mut Words,
    call: &Call,
    files: &Files,
    answer: &Answer,
) -> Option<String> {
    let Call::Show(_, length) = call else {
        let told = desks.call(sheet, call, files, &mut []);
        return differing(told, Told::wanted(answer));
    };
    let mut buffer = Buffer::holding(*length, |count| words_before(random, count));
    let told = desks.call(sheet, call, files, buffer.lent());
    differing(told, Told::wanted(answer)).or_else(|| match answer {
        Answer::Points(shown) => buffer.differs_from(&shown.words),
        _ => buffer.changes(),
    })
}

/// What a buffer may hold before: every second word is a NaN of any bits.
fn words_before(random: &mut Generator, count: usize) -> Vec<u32> {
    let word = |_| match random.next() {
        word if word >> 63 == 0 => word as u32,
        word => word as u32 | F32.infinity() as u32 | 1,
    };
    (0..count).map(word).collect()
}

fn differing(given: Told, wanted: Told) -> Option<String> {
    (given != wanted).then(|| format!("answers {given:?}, wanted {wanted:?}"))
}

fn differing_words(given: &Words, wanted: &Words) -> Option<String> {
    let at = (0..WORDS).find(|i| given[*i] != wanted[*i])?;
    let [given, wanted] = [given[at], wanted[at]];
    Some(format!(
        "word {at} of the worksheet is {given:08x}, wanted {wanted:08x}"
    ))
}
