//! Document 02's request 01: showings over a year file.

use super::{busy, changed_one_by_one, inputs, number, opened, refused, FIGURES, NAN};
use crate::draw::generator::Generator;
use crate::draw::year_files::{calm_year, packed, Parts, NO_GAPS};
use crate::model::desks::fields::{moved_to, sheet, CCIR, URSI};
use crate::model::desks::lent::Lent;
use crate::model::desks::{Call, Draft, Refusal, Worksheet};
use crate::month_file::BYTES;
use crate::reference::files::{put_year, read_of};
use crate::reference::sheets::{put_all_months, showing};
use crate::reference::voacap::coefficients::FoF2Model;
use std::io::ErrorKind;

fn parts() -> Parts {
    calm_year(&mut Generator::new(31))
}

fn lent(parts: &Parts) -> Lent {
    Lent::year(&packed(parts, &NO_GAPS))
}

/// Each showing is that over the pair of files of its month and model.
#[test]
fn a_showing_picks_its_parts_by_month_and_model() {
    let parts = parts();
    let lent = lent(&parts);
    for month in 1..=12 {
        for model in [CCIR, URSI] {
            let inputs = moved_to(inputs(), month, model);
            let opened = Worksheet::open(inputs).expect("in range");
            let shown = opened.show(0, FIGURES, &lent).expect("a good year");
            let record = &parts[12 + model as usize][7904 * (month as usize - 1)..];
            put_all_months(record, &parts[month as usize - 1]);
            let wanted = showing(&sheet(&inputs));
            assert_eq!(shown.points, wanted.points);
            assert!(
                shown.words == wanted.words(),
                "month {month}, model {model}"
            );
        }
    }
}

/// Each desk's draft its own.
#[test]
fn a_draft_picks_its_own_parts() {
    let lent = lent(&parts());
    let mut sheet = busy();
    let set = |draft: &mut Option<Draft>, month, model| {
        let draft = draft.as_mut().expect("open");
        draft.inputs = moved_to(inputs(), month, model);
    };
    set(&mut sheet.drafts[0], 2, URSI);
    set(&mut sheet.drafts[1], 2, CCIR);
    set(&mut sheet.drafts[3], 6, URSI);
    let shown = |desk| sheet.show(desk, FIGURES, &lent).expect("a good year");
    for desk in [1, 2, 4] {
        let mut alone = opened();
        alone.inputs = sheet.drafts[desk as usize - 1].expect("open").inputs;
        assert_eq!(Ok(shown(desk)), alone.show(0, FIGURES, &lent));
        assert_ne!(shown(desk), shown(0));
    }
    assert_ne!(shown(1), shown(2));
    assert_ne!(shown(1), shown(4));
    assert_eq!(sheet.after(&Call::Show(1, FIGURES)), sheet);
}

#[test]
fn figures_depend_on_every_field() {
    let lent = lent(&parts());
    let first = opened().show(0, FIGURES, &lent);
    for (i, other) in changed_one_by_one(&lent).into_iter().enumerate() {
        assert!(other.is_ok());
        assert_ne!(other, first, "field {}", i + 1);
    }
}

/// June is shown; each refusal is tried with those after it.
#[test]
fn show_refuses_in_this_order() {
    let mut parts = parts();
    parts[5][4 + 40] = 76;
    let odd_map = lent(&parts);
    let bad_word = NAN.to_le_bytes();
    parts[5][30_000..30_004].copy_from_slice(&bad_word);
    let bad_month = lent(&parts);
    // Places in the record count from its own start.
    parts[12][5 * 7904 + 8..][..4].copy_from_slice(&bad_word);
    let bad_record = lent(&parts);
    parts[5][BYTES - 4] ^= 1;
    let no_marker = lent(&parts);
    parts[5].truncate(BYTES - 4);
    let cut = lent(&parts);
    parts[12].truncate(6 * 7904 - 1);
    let short = lent(&parts);
    // One byte further, so that the sixth part starts before its end.
    let mut file = packed(&parts, &NO_GAPS);
    file[8 * 4] ^= 1;
    let broken = Lent::year(&file);
    let mut odd = busy();
    odd.inputs[14] = 2;
    odd.drafts[0].as_mut().expect("open").inputs[2] = NAN;
    assert_eq!(odd.show(5, 150, &broken), refused(14, 0));
    assert_eq!(odd.show(3, 150, &broken), refused(16, 0));
    assert_eq!(odd.show(0, 150, &broken), refused(7, 15));
    assert_eq!(odd.show(1, 150, &broken), refused(3, 3));
    odd.inputs[13] = number(181.0);
    assert_eq!(odd.show(0, 150, &broken), refused(5, 14));
    assert_eq!(busy().show(0, 150, &broken), refused(12, 0));
    assert_eq!(busy().show(0, 151, &broken), refused(19, 6));
    assert_eq!(busy().show(0, 151, &short), refused(8, 0));
    assert_eq!(busy().show(0, 151, &cut), refused(9, 38_548));
    assert_eq!(busy().show(0, 151, &no_marker), refused(10, 38_548));
    let of_record = Refusal::at(23, 8).about_record();
    assert_eq!(busy().show(0, 151, &bad_record), Err(of_record));
    assert_eq!(busy().show(0, 151, &bad_month), refused(23, 30_000));
    assert_eq!(busy().show(0, 151, &odd_map), refused(11, 2));
}

/// What is wrong with another month's part, or with the other model's, is not
/// looked at.
#[test]
fn other_parts_are_not_looked_at() {
    let good = parts();
    let wanted = opened().show(0, FIGURES, &lent(&good));
    assert!(wanted.is_ok());
    let mut others_gone: Parts = good.clone();
    for part in [0, 1, 2, 3, 4, 6, 7, 8, 9, 10, 11, 13] {
        others_gone[part].clear();
    }
    others_gone[12].truncate(6 * 7904);
    others_gone[12][..5 * 7904].fill(0xff);
    assert_eq!(opened().show(0, FIGURES, &lent(&others_gone)), wanted);
}

/// The Rust, asked by month and model, has no record exactly where 8 is given.
#[test]
fn a_record_is_missing_where_the_rust_has_none() {
    let good = parts();
    for (month, length) in [
        (1, 0),
        (1, 7903),
        (1, 7904),
        (7, 7 * 7904 - 1),
        (7, 7 * 7904),
        (12, 12 * 7904 - 1),
        (12, 12 * 7904),
    ] {
        for (model, family) in [(CCIR, FoF2Model::Ccir), (URSI, FoF2Model::Ursi)] {
            let mut parts = good.clone();
            parts[12 + model as usize].truncate(length);
            let inputs = moved_to(inputs(), month, model);
            let shown = lent(&parts).figures(&inputs, FIGURES).err();
            let refused = shown.map(|refusal| (refusal.number, refusal.place));
            put_year(&parts.map(|part| part.into()));
            let read = read_of(family, month, 70.0);
            match read.err().map(|error| error.kind()) {
                None => assert_eq!(refused, None),
                Some(kind) => {
                    assert_eq!(kind, ErrorKind::UnexpectedEof);
                    assert_eq!(refused, Some((8, 0)));
                }
            }
        }
    }
}
