//! A worksheet over a year file of two months, made of a file of the form that the program `sheet`
//! reads, as `cargo run --example year ../../crates/sheet/stdin`.

use jutetrowel::raw::{DIRECTORY_BYTES, INPUT_BYTES, RECORD_BYTES};
use jutetrowel::{year_check, Change, Refusal, Worksheet};
use std::error::Error;

/// The parts of a year file, one after the other behind the directory of their offsets and lengths.
fn packed(parts: &[Vec<u8>; 14]) -> Vec<u8> {
    let mut offset = DIRECTORY_BYTES as u32;
    let mut directory = Vec::new();
    for part in parts {
        let length = part.len() as u32;
        directory.extend(offset.to_le_bytes());
        directory.extend(length.to_le_bytes());
        offset += length;
    }
    [directory, parts.concat()].concat()
}

fn main() -> Result<(), Box<dyn Error>> {
    let path = std::env::args().nth(1).ok_or("usage: year FILE")?;
    let input = std::fs::read(path)?;
    if input.len() < INPUT_BYTES + RECORD_BYTES {
        return Err("the file is too short".into());
    }
    let (words, files) = input.split_at(INPUT_BYTES);
    let (f2, month_file) = files.split_at(RECORD_BYTES);
    // The same files for January and February; of URSI there is none.
    let mut parts: [Vec<u8>; 14] = Default::default();
    parts[0] = month_file.to_vec();
    parts[1] = month_file.to_vec();
    parts[12] = f2.repeat(2);
    let year = packed(&parts);
    year_check(&year)?;

    let mut worksheet = Worksheet::open_words(words)?;
    worksheet.begin(1)?;
    for month in [1, 2] {
        worksheet.change(1, Change::Month(month))?;
        let sheet = worksheet.show_year(1, &year)?;
        // The files are the same, the sun is not.
        println!(
            "month {month}: zenith angle {} degrees",
            sheet.figures[6 + 21]
        );
    }
    worksheet.change(1, Change::Model(jutetrowel::URSI))?;
    let no_record = Refusal {
        number: 8,
        place: 0,
    };
    assert_eq!(worksheet.show_year(1, &year).err(), Some(no_record));
    Ok(())
}
