//! A morning at the desks over a file of the form that the program `sheet` reads, as
//! `cargo run --example desks ../../crates/sheet/stdin`.

use jutetrowel::raw::{INPUT_BYTES as WORDS, RECORD_BYTES as RECORD};
use jutetrowel::{Change, Refusal, Worksheet};
use std::error::Error;

fn main() -> Result<(), Box<dyn Error>> {
    let path = std::env::args().nth(1).ok_or("usage: desks FILE")?;
    let input = std::fs::read(path)?;
    if input.len() < WORDS + RECORD {
        return Err("the file is too short".into());
    }
    let (words, files) = input.split_at(WORDS);
    let (f2, month_file) = files.split_at(RECORD);
    let mut worksheet = Worksheet::open_words(words)?;
    let before = worksheet.show(0, f2, month_file)?;
    println!("{} points, {} km", before.points, before.figures[1]);

    worksheet.begin(1)?;
    worksheet.begin(2)?;
    worksheet.change(1, Change::Sunspots(110.0))?;
    worksheet.commit(1)?;
    // Desk 2 drafted on the old inputs.
    let stale = Refusal {
        number: 17,
        place: 0,
    };
    assert_eq!(worksheet.commit(2), Err(stale));
    worksheet.cancel(2)?;
    let after = worksheet.show(0, f2, month_file)?;
    println!(
        "foF2 {} MHz, then {}",
        before.figures[15], after.figures[15]
    );

    worksheet.take_back()?;
    assert_eq!(worksheet.show(0, f2, month_file)?.bits(), before.bits());
    Ok(())
}
