//! Whole sheets and the files, against what the Rust gave and what document 01 asks for.

mod common;

use common::{data, lines, Reader, MONTH_FILE, RECORD, WORDS};
use jutetrowel::{
    file_check, month_file_check, month_record, sheet, sheet_of_words, table, Factors, Inputs,
    Path, Pole, Refusal, CCIR, URSI,
};

fn refused<T>(number: u32, place: u32) -> Result<T, Refusal> {
    Err(Refusal { number, place })
}

/// Inputs in range.
fn usual() -> Inputs {
    Inputs {
        month: 2,
        sunspots: 70.0,
        hour: 14.0,
        path: Path {
            tlat: 53.87,
            tlong: 8.71,
            rlat: 66.5,
            rlong: -20.25,
            long: false,
        },
        factors: Factors {
            e: 1.0,
            f1: 1.0,
            f2: 1.0,
            es: 0.7,
        },
        pole: Pole {
            lat: 78.5,
            lon: -69.0,
        },
        model: CCIR,
    }
}

/// The documents' order of the fields, with a number of its own for each.
#[test]
fn fields_in_their_order() {
    let inputs = Inputs {
        month: 1,
        sunspots: 2.0,
        hour: 3.0,
        path: Path {
            tlat: 4.0,
            tlong: 5.0,
            rlat: 6.0,
            rlong: 7.0,
            long: true,
        },
        factors: Factors {
            e: 0.5,
            f1: 1.5,
            f2: 2.5,
            es: 3.5,
        },
        pole: Pole {
            lat: 13.0,
            lon: 14.0,
        },
        model: 15,
    };
    let floats = |all: &[f32]| all.iter().flat_map(|x| x.to_le_bytes()).collect();
    let path: Vec<u8> = floats(&[2.0, 3.0, 4.0, 5.0, 6.0, 7.0]);
    let rest: Vec<u8> = floats(&[0.5, 1.5, 2.5, 3.5, 13.0, 14.0]);
    let parts = [
        &[1, 0, 0, 0][..],
        &path,
        &[1, 0, 0, 0],
        &rest,
        &[15, 0, 0, 0],
    ];
    assert_eq!(inputs.words()[..], parts.concat());
}

#[test]
fn the_example_of_sheet() {
    let input = data("crates/sheet/stdin");
    let (words, files) = input.split_at(WORDS);
    let (f2, file) = files.split_at(RECORD);
    let wanted = String::from_utf8(data("crates/sheet/stdout")).expect("text");
    assert_eq!(words, &usual().words()[..WORDS]);
    let shown = sheet(&usual(), f2, file).expect("a sheet");
    assert_eq!(lines(&shown.bits()), wanted);
    // A sheet has no model: its word is not read.
    for model in [URSI, 2, u32::MAX] {
        let other = Inputs { model, ..usual() };
        assert_eq!(sheet(&other, f2, file).map(|s| s.bits()), Ok(shown.bits()));
    }
}

#[test]
fn inputs_of_sheet_from_the_rust() {
    let all = data("crates/journals/data/sheets-in.bin");
    let mut from = Reader(&all);
    let count = from.word();
    let record = from.bytes(RECORD);
    let month = from.bytes(MONTH_FILE);
    for case in 0..count {
        let words = from.bytes(WORDS);
        let (r, m) = (from.word() as usize, from.word() as usize);
        let (at, byte, t) = (from.word() as usize, from.word(), from.word() as usize);
        let mut file = month.to_vec();
        file.resize(m, 0xaa);
        if at < MONTH_FILE && at < m {
            file[at] = byte as u8;
        }
        let mut input = [words, &record[..r], &file].concat();
        input.truncate(t);
        let length = from.word() as usize;
        let wanted = String::from_utf8_lossy(from.bytes(length)).into_owned();
        let (words, files) = input.split_at(WORDS.min(t));
        let (f2, file) = files.split_at(RECORD.min(files.len()));
        let given = match sheet_of_words(words, f2, file) {
            Ok(sheet) => lines(&sheet.bits()),
            Err(refusal) => format!("{refusal}\n"),
        };
        assert_eq!(given, wanted, "case {case}");
    }
    assert!(count > 200 && from.is_empty());
}

#[test]
fn sheets_from_the_rust() {
    let all = data("crates/vectors/data/sheets.bin");
    let mut from = Reader(&all);
    let mut shown = 0;
    for _ in 0..from.word() {
        let f2 = from.bytes(RECORD);
        let file = from.bytes(MONTH_FILE);
        for _ in 0..from.word() {
            let words = from.bytes(WORDS);
            let points = from.word();
            let wanted: Vec<u32> = (0..151).map(|_| from.word()).collect();
            // Some rows have fields outside document 01's ranges: those are refused by a field.
            match sheet_of_words(words, f2, file) {
                Ok(sheet) => {
                    assert_eq!(sheet.points, points);
                    assert_eq!(sheet.bits()[..], wanted);
                    shown += 1;
                }
                Err(refusal) => assert!((1..=7).contains(&refusal.number), "{refusal}"),
            }
        }
    }
    assert!(shown > 300 && from.is_empty(), "{shown}");
}

/// One bad field after the other, with document 01's number and the field's.
#[test]
fn the_first_bad_field_decides() {
    let f2 = [0; RECORD];
    let bad: [(u32, [u32; 2]); 14] = [
        (1, [0, 13]),
        (2, [(-1.0f32).to_bits(), 300.5f32.to_bits()]),
        (3, [24.5f32.to_bits(), f32::NAN.to_bits()]),
        (4, [(-90.5f32).to_bits(), 90.5f32.to_bits()]),
        (5, [(-180.5f32).to_bits(), 180.5f32.to_bits()]),
        (4, [(-90.5f32).to_bits(), f32::INFINITY.to_bits()]),
        (5, [(-180.5f32).to_bits(), 180.5f32.to_bits()]),
        (7, [2, 0xffff_ffff]),
        (6, [0.0f32.to_bits(), 8.5f32.to_bits()]),
        (6, [0.12f32.to_bits(), f32::NAN.to_bits()]),
        (6, [(-1.0f32).to_bits(), 9.0f32.to_bits()]),
        (6, [0.0f32.to_bits(), 8.5f32.to_bits()]),
        (4, [(-91.0f32).to_bits(), 91.0f32.to_bits()]),
        (5, [(-181.0f32).to_bits(), 181.0f32.to_bits()]),
    ];
    let mut words = usual().words();
    for (field, (number, values)) in bad.iter().enumerate().rev() {
        for value in values {
            words[4 * field..4 * field + 4].copy_from_slice(&value.to_le_bytes());
            let place = field as u32 + 1;
            assert_eq!(sheet_of_words(&words, &f2, &[]), refused(*number, place));
        }
    }
    assert_eq!(sheet_of_words(&[], &[], &[]), refused(1, 1));
}

#[test]
fn files_after_the_fields() {
    let input = data("crates/sheet/stdin");
    let f2 = &input[WORDS..WORDS + RECORD];
    let file = &input[WORDS + RECORD..];
    let with = |f2: &[u8], file: &[u8]| sheet(&usual(), f2, file).map(|_| ());
    assert_eq!(with(f2, file), Ok(()));
    assert_eq!(with(&f2[..RECORD - 1], &[]), refused(8, 0));
    assert_eq!(with(f2, &[]), refused(9, 0));
    assert_eq!(with(f2, &file[..38551]), refused(9, 38548));
    let mut wrong = file.to_vec();
    wrong[38548] ^= 1;
    assert_eq!(with(f2, &wrong), refused(10, 38548));
    assert_eq!(month_file_check(&wrong), refused(10, 38548));
    assert_eq!(file_check(&wrong), refused(10, 38548));
    assert_eq!(file_check(&[]), refused(9, 0));
    assert_eq!(month_file_check(file), Ok(()));
    let mut wrong = file.to_vec();
    // Word 0 of map 2 is 0, which is below 1.
    wrong[44..48].fill(0);
    assert_eq!(with(f2, &wrong), refused(11, 2));
    assert_eq!(month_file_check(&wrong), Ok(()));
    assert_eq!(file_check(&wrong), refused(11, 2));
    assert_eq!(file_check(file), Ok(()));
}

#[test]
fn month_records() {
    let daw: Vec<u8> = (0..12 * RECORD).map(|k| (k % 251) as u8).collect();
    let last = month_record(&daw, 12).expect("a record");
    assert_eq!(last.as_ptr(), daw[86944..].as_ptr());
    assert_eq!(last.len(), RECORD);
    assert_eq!(month_record(&daw, 0), refused(1, 1));
    assert_eq!(month_record(&daw, 13), refused(1, 1));
    assert_eq!(month_record(&daw[..94847], 12), refused(8, 0));
}

#[test]
fn month_records_from_the_rust() {
    let daw = data("crates/vectors/data/calm.daw");
    let rows = data("crates/vectors/data/records.bin");
    let mut from = Reader(&rows);
    let mut found = 0;
    while !from.is_empty() {
        let length = from.word() as usize;
        let month = from.word();
        let (number, place, start) = (from.word(), from.word(), from.word() as usize);
        let wanted = match number {
            0 => Ok(&daw[start..start + RECORD]),
            _ => refused(number, place),
        };
        found += u32::from(number == 0);
        assert_eq!(month_record(&daw[..length], month), wanted);
    }
    assert!(found > 10, "{found}");
}

/// The tables as the Rust reads them: the F2 planes of month 2, then the 20 tables in the file's order.
#[test]
fn tables_from_the_rust() {
    let words = data("crates/vectors/data/words.bin");
    let mut from = Reader(&words);
    for name in ["calm", "wild", "huge"] {
        let daw = data(&format!("crates/vectors/data/{name}.daw"));
        let f2 = month_record(&daw, 2).expect("a record");
        let file = data(&format!("crates/vectors/data/{name}.month"));
        for number in 0..=20 {
            let bytes = table(number, f2, &file).expect("a table");
            for (k, given) in bytes.chunks(4).enumerate() {
                let wanted = from.word().to_le_bytes();
                let is_nan = |b: &[u8]| f32::from_le_bytes(b.try_into().unwrap()).is_nan();
                let alike = given == wanted || (is_nan(given) && is_nan(&wanted));
                assert!(alike, "{name}, table {number}, word {k}");
            }
        }
    }
    assert!(from.is_empty());
}

#[test]
fn tables_by_document_01() {
    let input = data("crates/sheet/stdin");
    let (f2, file) = input[WORDS..].split_at(RECORD);
    let start = |number| {
        let bytes = table(number, f2, file).expect("a table").as_ptr();
        bytes as usize - file.as_ptr() as usize
    };
    // (e) and (f)
    assert_eq!(start(17), 28836);
    assert_eq!(start(15), 25388);
    assert_eq!(table(0, f2, file).map(|b| b.as_ptr()), Ok(f2.as_ptr()));
    assert_eq!(table(21, &[], &[]), refused(13, 0));
    assert_eq!(table(20, &f2[1..], &[]), refused(8, 0));
    assert_eq!(table(0, f2, &[]), refused(9, 0));
    assert_eq!(table(0, f2, &file[4..]), refused(10, 0));
}
