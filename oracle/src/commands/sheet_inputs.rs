//! `sheet-inputs DIR` and `sheets-in FILE`: inputs of the program `sheet` with
//! what it prints for them, as files and in a compact form.

mod cases;

use crate::commands::journals::counts::Counts;
use crate::commands::{put, write_file};
use crate::draw::data_files::{extreme, named, wild_1, Pair};
use crate::draw::generator::Generator;
use crate::draw::journal_kinds::with_a_nan;
use crate::draw::sheet_kinds::in_range;
use crate::model::desks::fields::SHEET_FIELDS;
use crate::model::desks::programs::{sheet, sheet_text, CALLS};
use crate::month_file::push_words;
use crate::reference::voacap::coefficients::F2_RECORD_BYTES;
use cases::{cases, Case};

/// Sheets of each further pair of files.
const FURTHER: usize = 2;
/// At most so many bytes in all inputs.
const MOST: usize = 9_000_000;

/// One figure of each point is NaN, and all nine words of each ladder count.
fn pair() -> Pair {
    let [_, (_, calm_2), ..] = named();
    with_a_nan(&calm_2)
}

pub fn files(folder: &str) -> Result<(), String> {
    let inputs = inputs();
    let bytes: usize = inputs.iter().map(Vec::len).sum();
    if bytes > MOST {
        return Err(format!("{bytes} bytes are too many"));
    }
    let mut counts = Counts::default();
    for (number, input) in (1..).zip(&inputs) {
        let answer = sheet(input);
        counts.note_sheet(&answer);
        let text = sheet_text(&answer);
        put(folder, &format!("{number:03}.in"), input)?;
        put(folder, &format!("{number:03}.out"), text.as_bytes())?;
    }
    counts.print();
    println!("{} inputs, {bytes} bytes", inputs.len());
    Ok(())
}

pub fn compact(file: &str) -> Result<(), String> {
    let (bytes, counts) = vectors();
    counts.print();
    write_file(file, &bytes)
}

/// Those of the compact form, then good ones of every pair of files, and of one that
/// is refused for its words.
fn inputs() -> Vec<Vec<u8>> {
    let pair = pair();
    let mut inputs: Vec<Vec<u8>> = cases(&pair).iter().map(|case| case.input(&pair)).collect();
    let mut random = Generator::new(701);
    for (_, pair) in named()
        .iter()
        .chain(&extreme())
        .chain(&[("wild-1", wild_1())])
    {
        for _ in 0..FURTHER {
            let mut input = Vec::with_capacity(CALLS);
            push_words(&mut input, &in_range(&mut random).words());
            input.extend(&pair.daw[..F2_RECORD_BYTES]);
            input.extend(&pair.month);
            inputs.push(input);
        }
    }
    inputs
}

/// The compact file's bytes: the number of cases, both files, then the cases.
fn vectors() -> (Vec<u8>, Counts) {
    let pair = pair();
    let cases = cases(&pair);
    let mut counts = Counts::default();
    let mut bytes = Vec::new();
    push_words(&mut bytes, &[cases.len() as u32]);
    bytes.extend(&pair.daw);
    bytes.extend(&pair.month);
    for case in cases {
        let answer = sheet(&case.input(&pair));
        counts.note_sheet(&answer);
        let text = sheet_text(&answer);
        let Case {
            fields,
            record,
            month,
            place,
            value,
            total,
        } = case;
        push_words(&mut bytes, &fields[..SHEET_FIELDS]);
        push_words(&mut bytes, &[record, month, place, value, total]);
        push_words(&mut bytes, &[text.len() as u32]);
        bytes.extend(text.as_bytes());
    }
    (bytes, counts)
}

#[cfg(test)]
mod tests {
    use super::{inputs, pair, vectors, MOST};
    use crate::commands::journals::counts::NO_FINITE_NUMBER;
    use crate::model::desks::programs::{sheet, sheet_text};

    /// No case changes a byte of the record.
    const OF_MONTH_FILE: &str = NO_FINITE_NUMBER[1];

    #[test]
    fn every_refusal_is_there_and_the_bytes_are_the_same_each_time() {
        let (bytes, counts) = vectors();
        assert!(bytes == vectors().0);
        let mut keys = vec![String::from("refused 8 0")];
        keys.extend([1, 3, 5].map(|points| format!("points {points}")));
        keys.extend([9, 10].map(|number| format!("refused {number} at a byte")));
        keys.push(String::from(OF_MONTH_FILE));
        keys.extend((1..=6).map(|map| format!("refused 11 {map}")));
        let fields = [1, 2, 3, 4, 5, 4, 5, 7, 6, 6, 6, 6, 4, 5];
        keys.extend(
            (1..)
                .zip(fields)
                .map(|(place, number)| format!("refused {number} {place}")),
        );
        for key in keys {
            assert!(counts.of("sheet", &key) >= 2, "{key}");
        }
    }

    #[test]
    fn inputs_are_many_and_not_too_large() {
        let inputs = inputs();
        assert!(inputs.len() >= 60);
        assert!(inputs.iter().map(Vec::len).sum::<usize>() <= MOST);
        assert!(inputs.contains(&Vec::new()));
    }

    #[test]
    fn one_figure_of_each_point_is_nan() {
        let pair = pair();
        let cases = super::cases(&pair);
        let text = sheet_text(&sheet(&cases[0].input(&pair)));
        let nans = text.lines().filter(|line| *line == "7fc00000").count();
        assert_eq!(nans, 3);
    }
}
