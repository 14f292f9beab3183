//! The worksheet of four desks, against the journals of a model written from the documents over the
//! Rust's figures, and against the documents' paragraphs.

mod common;

use common::{data, lines, Reader, MONTH_FILE, RECORD, WORDS};
use jutetrowel::raw::OPEN_BYTES;
use jutetrowel::{Change, Factors, Path, Pole, Refusal, Sheet, Worksheet, CCIR, URSI};

fn refused(number: u32, place: u32) -> Result<(), Refusal> {
    Err(Refusal { number, place })
}

/// What is lent to the calls of a journal.
#[derive(Clone, Copy)]
enum Lent<'a> {
    Pair(&'a [u8], &'a [u8]),
    Year(&'a [u8]),
}

impl Lent<'_> {
    /// What a call's words after its operation are, in bytes; a journal over a pair of files has no
    /// changes of month and model.
    fn size(self, operation: u32) -> Option<usize> {
        match (operation, self) {
            (1 | 7 | 8 | 10, _) => Some(4),
            (2 | 3, _) => Some(8),
            (4, _) => Some(24),
            (5, _) => Some(20),
            (6, _) => Some(12),
            (9, _) => Some(0),
            (11 | 12, Lent::Year(_)) => Some(8),
            _ => None,
        }
    }

    /// Where the first call stands in the program's input.
    fn start(self) -> usize {
        match self {
            Lent::Pair(..) => WORDS + RECORD + MONTH_FILE,
            Lent::Year(year) => OPEN_BYTES + 4 + year.len(),
        }
    }

    fn show(self, worksheet: &Worksheet, desk: u32) -> Result<Sheet, Refusal> {
        match self {
            Lent::Pair(f2, file) => worksheet.show(desk, f2, file),
            Lent::Year(year) => worksheet.show_year(desk, year),
        }
    }
}

fn float(call: &mut Reader) -> f32 {
    f32::from_bits(call.word())
}

fn change(operation: u32, call: &mut Reader) -> Change {
    match operation {
        2 => Change::Sunspots(float(call)),
        3 => Change::Hour(float(call)),
        4 => {
            let [tlat, tlong, rlat, rlong] = [(); 4].map(|()| float(call));
            let long = match call.word() {
                0 => false,
                1 => true,
                _ => unreachable!("`has_bad_flag`"),
            };
            Change::Path(Path {
                tlat,
                tlong,
                rlat,
                rlong,
                long,
            })
        }
        5 => {
            let [e, f1, f2, es] = [(); 4].map(|()| float(call));
            Change::Factors(Factors { e, f1, f2, es })
        }
        6 => {
            let [lat, lon] = [(); 2].map(|()| float(call));
            Change::Pole(Pole { lat, lon })
        }
        11 => Change::Month(call.word()),
        _ => Change::Model(call.word()),
    }
}

/// What a call answers.
fn said(worksheet: &mut Worksheet, operation: u32, mut call: Reader, lent: Lent) -> String {
    let before = worksheet.clone();
    let desk = if operation == 9 { 0 } else { call.word() };
    let answer = match operation {
        1 => worksheet.begin(desk),
        2..=6 | 11 | 12 => worksheet.change(desk, change(operation, &mut call)),
        7 => worksheet.commit(desk),
        8 => worksheet.cancel(desk),
        9 => worksheet.take_back(),
        _ => {
            return match lent.show(worksheet, desk) {
                Ok(s) => format!("points {}\n{}", s.points, lines(&s.bits())),
                Err(refusal) => format!("{refusal}\n"),
            }
        }
    };
    match answer {
        Ok(()) => String::from("accepted\n"),
        Err(refusal) => {
            assert_eq!(*worksheet, before);
            format!("{refusal}\n")
        }
    }
}

/// What the program `replay` prints for a journal.
fn replay(words: &[u8], calls: &[u8], lent: Lent) -> String {
    let mut worksheet = match Worksheet::open_words(words) {
        Ok(worksheet) => worksheet,
        Err(refusal) => return format!("{refusal}\n"),
    };
    let mut text = String::new();
    let mut at = 0;
    while at < calls.len() {
        let start = lent.start() + at;
        let left = &calls[at..];
        let operation = left.first_chunk().map_or(0, |w| u32::from_le_bytes(*w));
        let Some(size) = lent.size(operation).filter(|size| 4 + size <= left.len()) else {
            text.push_str(&format!("stopped at {start}\n"));
            break;
        };
        at += 4 + size;
        let call = Reader(&left[4..4 + size]);
        text.push_str(&said(&mut worksheet, operation, call, lent));
    }
    text
}

/// A flag that is neither 0 nor 1, which the wrapper's `Path` cannot hold: the C example tries it.
fn has_bad_flag(mut calls: &[u8], lent: Lent) -> bool {
    while let Some(operation) = calls.first_chunk().map(|w| u32::from_le_bytes(*w)) {
        let Some(size) = lent.size(operation).filter(|size| 4 + size <= calls.len()) else {
            return false;
        };
        if operation == 4 && Reader(&calls[24..28]).word() > 1 {
            return true;
        }
        calls = &calls[4 + size..];
    }
    false
}

/// The next so many journals, with words of so many bytes; how many were compared.
fn compare(from: &mut Reader, count: u32, words: usize, lent: Lent) -> u32 {
    let mut compared = 0;
    for journal in 0..count {
        let words = from.bytes(words);
        let calls = from.part();
        let wanted = String::from_utf8_lossy(from.part()).into_owned();
        if !has_bad_flag(calls, lent) {
            assert_eq!(replay(words, calls, lent), wanted, "journal {journal}");
            compared += 1;
        }
    }
    compared
}

#[test]
fn journals_of_the_model() {
    let all = data("crates/journals/data/journals.bin");
    let mut from = Reader(&all);
    let count = from.word();
    let lent = Lent::Pair(from.bytes(RECORD), from.bytes(MONTH_FILE));
    let compared = compare(&mut from, count, WORDS, lent);
    assert!(compared > 200 && from.is_empty(), "{compared} compared");
}

#[test]
fn journals_over_years_of_the_model() {
    let all = data("crates/journals/data/year-journals.bin");
    let mut from = Reader(&all);
    let mut compared = 0;
    for _ in 0..from.word() {
        let lent = Lent::Year(from.part());
        let count = from.word();
        compared += compare(&mut from, count, OPEN_BYTES, lent);
    }
    assert!(compared > 200 && from.is_empty(), "{compared} compared");
}

fn opened() -> Worksheet {
    Worksheet::open_words(&data("crates/sheet/stdin")[..WORDS]).expect("in range")
}

/// The words as they are written: a worksheet that is opened has its inputs and nothing else.
#[test]
fn the_words_of_an_opened_worksheet() {
    let input = data("crates/sheet/stdin");
    let mut from = Reader(&input);
    let mut wanted = [0; 96];
    wanted[0] = 1;
    for word in &mut wanted[1..15] {
        *word = from.word();
    }
    assert_eq!(*opened().words(), wanted);
}

/// Where the header has them: words 1 and 15 of the worksheet, 17 + 16 * desk and 31 + 16 * desk of a
/// draft.
#[test]
fn the_words_of_month_and_model() {
    let mut worksheet = opened();
    for desk in 1..=4 {
        assert_eq!(worksheet.begin(desk), Ok(()));
        assert_eq!(worksheet.change(desk, Change::Month(desk + 6)), Ok(()));
        assert_eq!(worksheet.change(desk, Change::Model(URSI)), Ok(()));
        let [month, model] = [17, 31].map(|word| worksheet.words()[word + 16 * desk as usize]);
        assert_eq!([month, model], [desk + 6, URSI]);
    }
    assert_eq!(worksheet.commit(3), Ok(()));
    assert_eq!([1, 15].map(|word| worksheet.words()[word]), [9, URSI]);
}

/// The model is the 15th word; without it, as in what `sheet` reads, it is 0.
#[test]
fn an_open_reads_fifteen_words() {
    let mut words = data("crates/sheet/stdin")[..WORDS].to_vec();
    let model = |words: &[u8]| Worksheet::open_words(words).map(|w| w.words()[15]);
    assert_eq!(model(&words), Ok(CCIR));
    words.extend([1, 0, 0]);
    assert_eq!(model(&words), Ok(URSI));
    words.push(0);
    assert_eq!(words.len(), OPEN_BYTES);
    assert_eq!(model(&words), Ok(URSI));
    words.push(9);
    assert_eq!(model(&words), Ok(URSI));
    words[56] = 2;
    assert_eq!(
        model(&words),
        Err(Refusal {
            number: 7,
            place: 15
        })
    );
}

/// Refused after desk and draft; a month is field 1 and a model field 15.
#[test]
fn months_and_models_are_changes() {
    let mut worksheet = opened();
    assert_eq!(worksheet.change(5, Change::Month(13)), refused(14, 0));
    assert_eq!(worksheet.change(1, Change::Month(13)), refused(16, 0));
    assert_eq!(worksheet.change(1, Change::Model(2)), refused(16, 0));
    assert_eq!(worksheet.begin(1), Ok(()));
    let begun = worksheet.clone();
    for month in [0, 13, 257, u32::MAX] {
        assert_eq!(worksheet.change(1, Change::Month(month)), refused(1, 1));
    }
    for model in [2, 256, 257, u32::MAX] {
        assert_eq!(worksheet.change(1, Change::Model(model)), refused(7, 15));
    }
    assert_eq!(worksheet, begun);
    assert_eq!(worksheet.change(1, Change::Month(12)), Ok(()));
    assert_eq!(worksheet.change(1, Change::Model(URSI)), Ok(()));
    let mut wanted = *begun.words();
    (wanted[33], wanted[47]) = (12, URSI);
    assert_eq!(*worksheet.words(), wanted);
}

/// 'a cancelled edit had once put back the route and kept the new sunspot number'
#[test]
fn a_cancelled_edit_leaves_nothing() {
    let mut worksheet = opened();
    let before = worksheet.clone();
    assert_eq!(worksheet.begin(3), Ok(()));
    assert_eq!(worksheet.change(3, Change::Sunspots(150.0)), Ok(()));
    assert_ne!(worksheet, before);
    assert_eq!(worksheet.cancel(3), Ok(()));
    assert_eq!(worksheet, before);
}

#[test]
fn a_commit_and_a_take_back() {
    let mut worksheet = opened();
    let first = worksheet.words()[1..16].to_vec();
    assert_eq!(worksheet.take_back(), refused(18, 0));
    assert_eq!(worksheet.begin(1), Ok(()));
    assert_eq!(worksheet.begin(4), Ok(()));
    assert_eq!(worksheet.change(1, Change::Hour(6.5)), Ok(()));
    assert_eq!(worksheet.commit(1), Ok(()));
    let words = *worksheet.words();
    assert_eq!(words[3], 6.5f32.to_bits());
    assert_eq!((words[16], &words[17..32]), (1, &first[..]));
    assert_eq!(words[32..48], [0; 16]);
    assert_eq!((words[80], &words[81..]), (2, &first[..]));
    assert_eq!(worksheet.commit(4), refused(17, 0));
    assert_eq!(worksheet.take_back(), Ok(()));
    assert_eq!(worksheet.words()[1..16], first);
    assert_eq!(worksheet.words()[16..32], [0; 16]);
}

/// Any words are a worksheet, and a refusal leaves them to the bit.
#[test]
fn words_that_nobody_wrote() {
    let words: [u32; 96] = std::array::from_fn(|k| 0x7f80_0001 + 0x0123_4567 * k as u32);
    let mut worksheet = Worksheet::from_words(words);
    let unsure = worksheet.clone();
    for desk in [0, 5, u32::MAX] {
        assert_eq!(worksheet.begin(desk), refused(14, 0));
        assert_eq!(worksheet.commit(desk), refused(14, 0));
    }
    for desk in 1..=4 {
        assert_eq!(worksheet.begin(desk), refused(15, 0));
        assert_eq!(worksheet.commit(desk), refused(17, 0));
        assert_eq!(
            worksheet.change(desk, Change::Hour(f32::NAN)),
            refused(3, 3)
        );
    }
    assert_eq!(worksheet, unsure);
    // The first word of a stale draft becomes 2, that of the earlier set 1.
    assert_eq!(worksheet.cancel(1), Ok(()));
    let written = worksheet.words();
    let firsts = [0, 16, 32, 48, 64, 80].map(|k| written[k]);
    assert_eq!(firsts, [1, 1, 0, 2, 2, 2]);
}
