//! One test or more for each paragraph of document 01's 'At the desks', with the
//! fields and changes of document 02's request 01.

mod over_a_year;

use super::fields::{self, Inputs, SHEET_FIELDS, URSI};
use super::lent::{Lent, Shown};
use super::{Call, Draft, Edit, Refusal, Worksheet};
use crate::draw::data_files::named;
use crate::month_file::BYTES;
use crate::reference::sheets::{put_all_months, showing, FIGURES};
use std::rc::Rc;

const NAN: u32 = 0x7fc0_0000;

fn inputs() -> Inputs {
    let numbers = [
        70.0, 12.0, 52.0, 4.0, 60.0, -5.0, 1.0, 1.0, 1.0, 0.7, 78.5, -68.0,
    ];
    fields::inputs(6, numbers, false)
}

fn opened() -> Worksheet {
    Worksheet::open(inputs()).expect("in range")
}

fn lent() -> Lent {
    let [(_, pair), ..] = named();
    Lent::pair(&pair.daw, &pair.month)
}

fn refused<T>(number: u32, place: u32) -> Result<T, Refusal> {
    Err(Refusal::at(number, place))
}

fn number(v: f32) -> u32 {
    v.to_bits()
}

fn sunspots(v: f32) -> Edit {
    Edit::Sunspots(number(v))
}

/// Each change, with words that tell all fields apart.
fn edits() -> [Edit; 7] {
    [
        sunspots(33.0),
        Edit::Hour(number(5.5)),
        Edit::Path {
            ends: [1.0, 2.0, 3.0, 4.0].map(number),
            flag: 1,
        },
        Edit::Factors([0.5, 1.5, 2.5, 3.5].map(number)),
        Edit::Pole([-11.0, 12.0].map(number)),
        Edit::Month(11),
        Edit::Model(URSI),
    ]
}

/// All fields of a worksheet, its earlier set and its drafts are different.
fn busy() -> Worksheet {
    let set = |v: f32| {
        let mut set = inputs();
        set[1] = number(v);
        set
    };
    let draft = |v: f32, stale: bool| {
        Some(Draft {
            inputs: set(v),
            stale,
        })
    };
    Worksheet {
        inputs: set(1.0),
        earlier: Some(set(2.0)),
        drafts: [draft(3.0, false), draft(4.0, true), None, draft(5.0, false)],
    }
}

#[test]
fn ranges_have_both_ends_and_no_nan() {
    let ends = [
        (2, 0.0, 300.0, 2),
        (3, 0.0, 24.0, 3),
        (4, -90.0, 90.0, 4),
        (5, -180.0, 180.0, 5),
        (6, -90.0, 90.0, 4),
        (7, -180.0, 180.0, 5),
        (9, 0.125, 8.0, 6),
        (10, 0.125, 8.0, 6),
        (11, 0.125, 8.0, 6),
        (12, 0.125, 8.0, 6),
        (13, -90.0, 90.0, 4),
        (14, -180.0, 180.0, 5),
    ];
    for (place, low, high, refusal) in ends {
        let open = |word: u32| {
            let mut inputs = inputs();
            inputs[place as usize - 1] = word;
            Worksheet::open(inputs).map(|sheet| sheet.inputs[place as usize - 1])
        };
        for v in [low, high] {
            assert_eq!(open(number(v)), Ok(number(v)));
        }
        let outside = [f32::next_down(low), f32::next_up(high), f32::INFINITY];
        for v in outside.map(number).into_iter().chain([NAN, 0xffff_ffff]) {
            assert_eq!(open(v), refused(refusal, place));
        }
    }
    let mut zero = inputs();
    zero[1] = number(-0.0);
    assert_eq!(Worksheet::open(zero).map(|sheet| sheet.inputs), Ok(zero));
}

#[test]
fn whole_fields_have_both_ends() {
    for (place, good, bad, refusal) in [
        (1, [1, 12], [0, 13, 257, u32::MAX], 1),
        (8, [0, 1], [2, 3, 256, u32::MAX], 7),
        (15, [0, 1], [2, 3, 257, u32::MAX], 7),
    ] {
        let open = |word: u32| {
            let mut inputs = inputs();
            inputs[place as usize - 1] = word;
            Worksheet::open(inputs).map(|sheet| sheet.inputs[place as usize - 1])
        };
        for word in good {
            assert_eq!(open(word), Ok(word));
        }
        for word in bad {
            assert_eq!(open(word), refused(refusal, place));
        }
    }
}

#[test]
fn open_refuses_the_first_bad_field_and_begins_with_nothing() {
    let numbers = [1, 2, 3, 4, 5, 4, 5, 7, 6, 6, 6, 6, 4, 5, 7];
    for (first, number) in numbers.into_iter().enumerate() {
        let mut inputs = inputs();
        for (i, word) in inputs.iter_mut().enumerate().skip(first) {
            *word = if i == 0 { 0 } else { NAN };
        }
        let place = first as u32 + 1;
        assert_eq!(Worksheet::open(inputs), refused(number, place));
    }
    let Worksheet {
        inputs: held,
        earlier,
        drafts,
    } = opened();
    assert_eq!((held, earlier, drafts), (inputs(), None, [None; 4]));
}

#[test]
fn begin() {
    for desk in [0, 5, 257, u32::MAX] {
        assert_eq!(busy().begin(desk), refused(14, 0));
    }
    for desk in [1, 2, 4] {
        assert_eq!(busy().begin(desk), refused(15, 0));
    }
    let mut wanted = busy();
    wanted.drafts[2] = Some(Draft {
        inputs: busy().inputs,
        stale: false,
    });
    assert_eq!(busy().begin(3), Ok(wanted));
}

#[test]
fn change() {
    for edit in edits() {
        for desk in [0, 5, u32::MAX] {
            assert_eq!(busy().change(desk, &edit), refused(14, 0));
        }
        assert_eq!(busy().change(3, &edit), refused(16, 0));
        // A stale draft too.
        for desk in [1, 2, 4] {
            let (first, words) = edit.fields();
            let mut wanted = busy();
            let draft = wanted.drafts[desk as usize - 1].as_mut().expect("open");
            draft.inputs[first - 1..first - 1 + words.len()].copy_from_slice(&words);
            assert_eq!(busy().change(desk, &edit), Ok(wanted));
        }
    }
}

#[test]
fn each_change_has_its_fields() {
    let fields = edits().map(|edit| {
        let (first, words) = edit.fields();
        (first, words.len())
    });
    let wanted = [(2, 1), (3, 1), (4, 5), (9, 4), (13, 2), (1, 1), (15, 1)];
    assert_eq!(fields, wanted);
    let (_, words) = edits()[2].fields();
    assert_eq!(words[4], 1);
}

#[test]
fn change_refuses_desk_and_draft_before_fields_and_the_first_bad_field() {
    let good = number(1.0);
    let path = |ends| Edit::Path { ends, flag: 2 };
    let bad = [
        (Edit::Sunspots(NAN), 2, 2),
        (Edit::Hour(NAN), 3, 3),
        (path([NAN; 4]), 4, 4),
        (path([good, NAN, NAN, NAN]), 5, 5),
        (path([good, good, NAN, NAN]), 4, 6),
        (path([good, good, good, NAN]), 5, 7),
        (path([good; 4]), 7, 8),
        (Edit::Factors([NAN; 4]), 6, 9),
        (Edit::Factors([good, NAN, NAN, NAN]), 6, 10),
        (Edit::Factors([good, good, NAN, NAN]), 6, 11),
        (Edit::Factors([good, good, good, NAN]), 6, 12),
        (Edit::Pole([NAN, NAN]), 4, 13),
        (Edit::Pole([good, NAN]), 5, 14),
        (Edit::Month(0), 1, 1),
        (Edit::Month(13), 1, 1),
        (Edit::Model(2), 7, 15),
    ];
    for (edit, refusal, place) in bad {
        assert_eq!(busy().change(7, &edit), refused(14, 0));
        assert_eq!(busy().change(3, &edit), refused(16, 0));
        assert_eq!(busy().change(1, &edit), refused(refusal, place));
        assert_eq!(busy().change(2, &edit), refused(refusal, place));
    }
}

/// Flags that would be 0 or 1 if only a part of the word were read.
#[test]
fn a_refused_flag_leaves_the_worksheet() {
    let path = |flag| {
        let ends = [1.0, 2.0, 3.0, 4.0].map(number);
        Edit::Path { ends, flag }
    };
    for flag in [2, 3, 256, 257, 65_537, 0x3f80_0000, 1 << 31, u32::MAX] {
        assert_eq!(busy().change(1, &path(flag)), refused(7, 8));
        assert_eq!(busy().after(&Call::Change(1, path(flag))), busy());
    }
    for flag in [0, 1] {
        let changed = busy().change(1, &path(flag)).expect("a good path");
        assert_eq!(changed.drafts[0].map(|draft| draft.inputs[7]), Some(flag));
    }
}

/// Fields that a change leaves alone are not looked at.
#[test]
fn change_of_an_odd_draft() {
    let mut odd = busy();
    odd.drafts[0].as_mut().expect("open").inputs[2] = NAN;
    let changed = odd
        .change(1, &sunspots(9.0))
        .expect("the sunspot number is good");
    assert_eq!(changed.drafts[0].map(|draft| draft.inputs[2]), Some(NAN));
}

#[test]
fn commit() {
    assert_eq!(busy().commit(0), refused(14, 0));
    assert_eq!(busy().commit(5), refused(14, 0));
    assert_eq!(busy().commit(3), refused(16, 0));
    assert_eq!(busy().commit(2), refused(17, 0));
    let mut wanted = busy();
    wanted.earlier = Some(busy().inputs);
    wanted.inputs = busy().drafts[0].expect("open").inputs;
    wanted.drafts[0] = None;
    wanted.drafts[3].as_mut().expect("open").stale = true;
    assert_eq!(busy().commit(1), Ok(wanted));
}

#[test]
fn a_commit_of_what_is_there_makes_others_stale_too() {
    let both = opened().begin(1).and_then(|sheet| sheet.begin(2));
    let after = both.and_then(|sheet| sheet.commit(1)).expect("open");
    assert_eq!(after.inputs, inputs());
    assert_eq!(after.earlier, Some(inputs()));
    assert_eq!(after.commit(2), refused(17, 0));
}

#[test]
fn cancel() {
    assert_eq!(busy().cancel(0), refused(14, 0));
    assert_eq!(busy().cancel(5), refused(14, 0));
    assert_eq!(busy().cancel(3), refused(16, 0));
    for desk in [1, 2, 4] {
        let mut wanted = busy();
        wanted.drafts[desk as usize - 1] = None;
        assert_eq!(busy().cancel(desk), Ok(wanted));
    }
}

#[test]
fn take_back() {
    assert_eq!(opened().take_back(), refused(18, 0));
    let mut wanted = busy();
    wanted.inputs = busy().earlier.expect("there is one");
    wanted.earlier = None;
    for draft in wanted.drafts.iter_mut().flatten() {
        draft.stale = true;
    }
    assert_eq!(busy().take_back(), Ok(wanted));
    assert_eq!(wanted.take_back(), refused(18, 0));
}

#[test]
fn show_gives_the_figures_of_the_desk_asked_for() {
    let [(_, pair), ..] = named();
    let lent = lent();
    let sheet = busy();
    let shown = |inputs: &Inputs| {
        put_all_months(&pair.daw, &pair.month);
        let figures = showing(&fields::sheet(inputs));
        Ok((figures.points, figures.words()))
    };
    let show = |desk| {
        let shown = sheet.show(desk, FIGURES, &lent);
        shown.map(|shown| (shown.points, shown.words))
    };
    assert_eq!(show(0), shown(&sheet.inputs));
    // Desk 2 is stale.
    for desk in [1, 2, 4] {
        let draft = sheet.drafts[desk as usize - 1].expect("open");
        assert_eq!(show(desk), shown(&draft.inputs));
        assert_ne!(show(desk), show(0));
    }
    assert_eq!(sheet.after(&Call::Show(1, FIGURES)), sheet);
}

#[test]
fn show_refuses_in_this_order() {
    let [(_, pair), ..] = named();
    let mut no_marker = pair.month.clone();
    no_marker[BYTES - 4] ^= 1;
    let mut no_ladder = pair.month.clone();
    no_ladder[4 + 3 * 40] = 76;
    let mut odd = busy();
    odd.inputs[13] = NAN;
    odd.inputs[14] = 2;
    odd.drafts[0].as_mut().expect("open").inputs[0] = 13;
    let short = Lent::pair(&pair.daw[..7903], &no_marker);
    assert_eq!(odd.show(5, 150, &short), refused(14, 0));
    assert_eq!(odd.show(u32::MAX, 150, &short), refused(14, 0));
    assert_eq!(odd.show(3, 150, &short), refused(16, 0));
    assert_eq!(odd.show(0, 150, &short), refused(5, 14));
    assert_eq!(odd.show(1, 150, &short), refused(1, 1));
    odd.inputs[13] = number(0.0);
    assert_eq!(odd.show(0, 150, &short), refused(7, 15));
    odd.inputs[7] = 2;
    assert_eq!(odd.show(0, 150, &short), refused(7, 8));
    assert_eq!(busy().show(0, 150, &short), refused(12, 0));
    assert_eq!(busy().show(1, 152, &short), refused(12, 0));
    assert_eq!(busy().show(0, 151, &short), refused(8, 0));
    let show = |month: &[u8]| {
        let lent = Lent::pair(&pair.daw, month);
        busy().show(0, 151, &lent).map(|shown| shown.points)
    };
    assert_eq!(show(&no_marker[..BYTES - 4]), refused(9, 38_548));
    assert_eq!(show(&no_marker), refused(10, 38_548));
    assert_eq!(show(&no_ladder), refused(11, 4));
    assert_eq!(show(&pair.month), Ok(1));
}

/// A word that is no finite number comes after 10 and before 11, the record's before
/// the month file's; bytes after the record do not count.
#[test]
fn show_refuses_words_that_are_no_finite_numbers() {
    let [(_, pair), ..] = named();
    let with = |bytes: &[u8], place: usize| {
        let mut bytes = bytes.to_vec();
        bytes[place..place + 4].copy_from_slice(&NAN.to_le_bytes());
        bytes
    };
    let show = |record: &[u8], month: &[u8]| {
        let lent = Lent::pair(record, month);
        busy().show(0, 151, &lent).map(|shown| shown.points)
    };
    let no_ladder = with(&pair.month, 4 + 3 * 40);
    let record = with(&pair.daw, 7900);
    let of_record = refused::<u32>(23, 7900).map_err(|why| why.about_record());
    let month = with(&no_ladder, 38_544);
    assert_eq!(show(&record, &month), of_record);
    assert_eq!(show(&record, &pair.month), of_record);
    assert_eq!(show(&pair.daw, &month), refused(23, 38_544));
    assert_eq!(show(&pair.daw, &no_ladder), refused(11, 4));
    assert_eq!(show(&record, &with(&month, BYTES - 4)), refused(10, 38_548));
    assert_eq!(show(&record, &month[..BYTES - 1]), refused(9, 38_548));
    assert_eq!(show(&record[..7903], &month), refused(8, 0));
    let lent = Lent::pair(&record, &month);
    assert_eq!(busy().show(0, 150, &lent), refused(12, 0));
    assert_eq!(show(&with(&pair.daw, 7904), &pair.month), Ok(1));
}

/// A month and a model that would be good if only a part of the word were read.
#[test]
fn a_refused_month_or_model_leaves_the_worksheet() {
    let months = [0, 13, 255, 257, 65_538, 1 << 31 | 6, u32::MAX];
    let models = [2, 256, 257, 65_537, 0x3f80_0000, 1 << 31, u32::MAX];
    let months = months.map(|word| (Edit::Month(word), 1, 1));
    let models = models.map(|word| (Edit::Model(word), 7, 15));
    for (edit, number, place) in months.into_iter().chain(models) {
        assert_eq!(busy().change(1, &edit), refused(number, place));
        assert_eq!(busy().after(&Call::Change(1, edit)), busy());
    }
}

/// Another word for each field.
fn other_words() -> Inputs {
    [
        7,
        number(71.0),
        number(13.0),
        number(50.0),
        number(9.0),
        number(61.0),
        number(-4.0),
        1,
        number(1.5),
        number(1.5),
        number(1.5),
        number(1.5),
        number(70.0),
        number(10.0),
        URSI,
    ]
}

/// The figures after each field by itself is changed.
fn changed_one_by_one(lent: &Lent) -> Vec<Result<Rc<Shown>, Refusal>> {
    let with = |(i, word): (usize, u32)| {
        let mut changed = opened();
        changed.inputs[i] = word;
        changed.show(0, FIGURES, lent)
    };
    other_words().into_iter().enumerate().map(with).collect()
}

/// Every field has a say in the figures, or a slip in one would not show; but a
/// pair of files is what it is whatever the model.
#[test]
fn figures_depend_on_every_field() {
    let lent = lent();
    let first = opened().show(0, FIGURES, &lent);
    let changed = changed_one_by_one(&lent);
    for (i, other) in changed[..SHEET_FIELDS].iter().enumerate() {
        assert_ne!(*other, first, "field {}", i + 1);
    }
    assert_eq!(changed[SHEET_FIELDS], first);
}

/// The slip that the insurer asked about.
#[test]
fn a_cancelled_edit_leaves_nothing() {
    let [spots, _, path, ..] = edits();
    let sheet = opened();
    let draft = sheet.begin(1).and_then(|sheet| sheet.change(1, &spots));
    let draft = draft.and_then(|sheet| sheet.change(1, &path));
    assert_eq!(draft.and_then(|sheet| sheet.cancel(1)), Ok(sheet));
}
