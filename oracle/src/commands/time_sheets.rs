//! `time-sheets`: whole sheets of one, three and five points, from the bytes
//! of both files on, and where the Rust's time goes.

use super::timing::{best, sheets, Column, Work, LENGTHS, REPEATS, ROUTES};
use crate::draw::data_files::{named, Pair};
use crate::reference::files::read;
use crate::reference::sheets::{fields, put_all_months, showing, Sheet};
use crate::reference::voacap::coefficients::{f2_planes, parse_month_file, CoefficientSet};
use crate::reference::voacap::data;
use crate::reference::voacap::geometry::PathGeometry;
use crate::reference::voacap::ionosphere::{
    cofion, esind, ground_constants, layer_parameters, virtim,
};
use crate::reference::voacap::magnetic::MagneticVars;
use std::hint::black_box;
use std::path::Path;

pub fn run() -> Result<(), String> {
    let [(_, calm_1), (_, calm_2), ..] = named();
    let mut columns = Vec::new();
    for length in LENGTHS {
        let sheets = sheets(length);
        for pair in [&calm_1, &calm_2] {
            put_all_months(&pair.daw, &pair.month);
            let mut column = whole(&sheets, pair);
            column.extend(split(&sheets, pair));
            columns.push(column);
        }
    }
    println!("microseconds for a sheet, best of {REPEATS} runs over {ROUTES} routes");
    print(&columns);
    Ok(())
}

fn print(columns: &[Column]) {
    println!("{:<24}{:>16}{:>18}{:>18}", "points", 1, 3, 5);
    println!("{:<24}{}", "files", "   calm-1   calm-2".repeat(3));
    for (row, (name, _)) in columns[0].iter().enumerate() {
        let times: Vec<String> = columns
            .iter()
            .map(|column| format!("{:>9.2}", column[row].1))
            .collect();
        println!("{name:<24}{}", times.concat());
    }
}

#[cfg(not(linked))]
fn whole(sheets: &[Sheet], _pair: &Pair) -> Column {
    best(sheets, &[("Rust", &rust)])
}

#[cfg(linked)]
fn whole(sheets: &[Sheet], pair: &Pair) -> Column {
    let port = |sheet: &Sheet| {
        let mut out = [0.0; crate::reference::sheets::FIGURES];
        // The record that stands for every month.
        crate::port::sheets::figures(sheet, &pair.daw, &pair.month, &mut out);
        black_box(out);
    };
    assert_alike(sheets, pair);
    let mut column = best(sheets, &[("port", &port), ("Rust", &rust)]);
    column.push(("ratio", column[0].1 / column[1].1));
    column
}

/// Times of wrong answers would be worth nothing.
#[cfg(linked)]
fn assert_alike(sheets: &[Sheet], pair: &Pair) {
    for sheet in sheets {
        let mut figures = showing(sheet);
        let wanted = figures.words();
        let values = &mut figures.values;
        let answer = crate::port::sheets::figures(sheet, &pair.daw, &pair.month, values);
        let wanted_answer = jutetrowel::raw::Showing {
            points: figures.points,
            number: 0,
            place: 0,
        };
        assert_eq!(answer, wanted_answer);
        assert!(figures.words() == wanted);
    }
}

fn rust(sheet: &Sheet) {
    black_box(showing(sheet));
}

/// What a part of the sheet starts from.
struct Prepared {
    sheet: Sheet,
    set: CoefficientSet,
    path: PathGeometry,
    mags: Vec<MagneticVars>,
    ab: [f32; 318],
}

fn prepared(sheet: &Sheet) -> Prepared {
    let set = read(sheet.month, sheet.ssn).expect("both files are good");
    let path = sheet.path();
    let mags = fields(&path.points);
    let ab = virtim(&cofion(&set), &set.ikim, sheet.gmt);
    Prepared {
        sheet: *sheet,
        set,
        path,
        mags,
        ab,
    }
}

/// Each part by itself, over what the others have made before.
fn split(sheets: &[Sheet], pair: &Pair) -> Column {
    let cases: Vec<Prepared> = sheets.iter().map(prepared).collect();
    let parts: [Work<Prepared>; 9] = [
        ("    finding both files", &|case| {
            let root = Path::new("");
            let month = case.sheet.month;
            black_box(data::read(root, &format!("coeffs/{}", "fof2CCIR.daw"))).ok();
            black_box(data::read(root, &format!("coeffs/coeff{month:02}w.bin"))).ok();
        }),
        ("    f2_planes", &|case| {
            black_box(f2_planes(&pair.daw, case.sheet.month, "daw")).ok();
        }),
        ("    parse_month_file", &|_| {
            black_box(parse_month_file(&pair.month, "month")).ok();
        }),
        ("  redmap", &|case| {
            black_box(read(case.sheet.month, case.sheet.ssn)).ok();
        }),
        ("  path_geometry, magvar", &|case| {
            let path = black_box(case.sheet.path());
            black_box(fields(&path.points));
        }),
        ("  cofion, virtim", &|case| {
            black_box(virtim(&cofion(&case.set), &case.set.ikim, case.sheet.gmt));
        }),
        ("  layer_parameters", &|case| {
            let Prepared { sheet, set, ab, .. } = case;
            let (points, mags) = (&case.path.points, &case.mags);
            let Sheet {
                month,
                ssn,
                gmt,
                psc,
                ..
            } = sheet;
            black_box(layer_parameters(
                set, ab, points, mags, *month, *ssn, *gmt, psc,
            ));
        }),
        ("  esind", &|case| {
            let (points, mags) = (&case.path.points, &case.mags);
            black_box(esind(&case.set, &case.ab, points, mags, &case.sheet.psc));
        }),
        ("  ground_constants", &|case| {
            black_box(ground_constants(&case.set, &case.path.points, &case.mags));
        }),
    ];
    let mut column = best(&cases, &parts);
    // The first three are parts of the fourth.
    let sum = column[3..].iter().map(|(_, time)| time).sum();
    column.push(("  its parts in all", sum));
    column
}
