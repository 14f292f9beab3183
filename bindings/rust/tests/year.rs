//! Year files, against document 02's request 01: the directory's rule, and that month and model pick
//! their parts.

mod common;

use common::{data, Reader, MONTH_FILE, RECORD, WORDS};
use jutetrowel::raw::{DIRECTORY_BYTES as DIRECTORY, FIGURES};
use jutetrowel::{
    month_record, year_check, year_model, year_month, Change, Refusal, Worksheet, CCIR, URSI,
};

fn refused<T>(number: u32, place: u32) -> Result<T, Refusal> {
    Err(Refusal { number, place })
}

type Parts = [Vec<u8>; 14];

/// The parts one after the other, behind their directory.
fn packed(parts: &Parts) -> Vec<u8> {
    let mut offset = DIRECTORY;
    let mut directory = Vec::new();
    for part in parts {
        directory.extend((offset as u32).to_le_bytes());
        directory.extend((part.len() as u32).to_le_bytes());
        offset += part.len();
    }
    [directory, parts.concat()].concat()
}

/// Three F2 records and as many month files: those of the Rust's first sheets.
fn files() -> ([Vec<u8>; 3], [Vec<u8>; 3]) {
    let all = data("crates/vectors/data/sheets.bin");
    let mut from = Reader(&all);
    from.word();
    let mut next = || {
        let [record, file] = [RECORD, MONTH_FILE].map(|size| from.bytes(size).to_vec());
        let rows = from.word() as usize;
        from.bytes(rows * (WORDS + 4 + 4 * FIGURES));
        (record, file)
    };
    let [(r1, f1), (r2, f2), (r3, f3)] = [(); 3].map(|()| next());
    ([r1, r2, r3], [f1, f2, f3])
}

/// Two months can be shown with both models, a third and a fourth only refused.
fn parts() -> Parts {
    let ([r1, r2, r3], [f1, f2, f3]) = files();
    let mut parts = Parts::default();
    parts[2] = f3[..MONTH_FILE - 1].to_vec();
    parts[3] = f3;
    parts[3][244] ^= 1;
    (parts[0], parts[1]) = (f1, f2);
    parts[12] = [&r1[..], &r2, &r3, &r3].concat();
    parts[13] = [&r3[..], &r1, &r2[1..]].concat();
    parts
}

fn opened() -> Worksheet {
    Worksheet::open_words(&data("crates/sheet/stdin")[..WORDS]).expect("in range")
}

/// A worksheet whose desk 1 drafts a month and a model.
fn drafted(month: u32, model: u32) -> Worksheet {
    let mut worksheet = opened();
    worksheet.begin(1).expect("closed");
    let changes = [Change::Month(month), Change::Model(model)];
    for change in changes {
        worksheet.change(1, change).expect("in range");
    }
    worksheet
}

fn shown(worksheet: &Worksheet, desk: u32, year: &[u8]) -> Result<[u32; 151], Refusal> {
    worksheet.show_year(desk, year).map(|sheet| sheet.bits())
}

/// A showing is that over the record and the month file of its own month and model.
#[test]
fn month_and_model_pick_the_parts() {
    let parts = parts();
    let year = packed(&parts);
    assert_eq!(year_check(&year), Ok(()));
    let mut all = Vec::new();
    for month in [1, 2] {
        for model in [CCIR, URSI] {
            let worksheet = drafted(month, model);
            let k = month as usize - 1;
            let record = &parts[12 + model as usize][RECORD * k..RECORD * (k + 1)];
            let pair = worksheet.show(1, record, &parts[k]);
            let wanted = pair.expect("a good pair").bits();
            assert_eq!(shown(&worksheet, 1, &year), Ok(wanted));
            assert!(!all.contains(&wanted), "month {month}, model {model}");
            all.push(wanted);
        }
    }
}

/// 'Month and F2 model become changes': they are committed, taken back and cancelled as the others are.
#[test]
fn changes_pick_other_parts() {
    let year = packed(&parts());
    let mut worksheet = drafted(1, URSI);
    let before = shown(&worksheet, 0, &year);
    let draft = shown(&worksheet, 1, &year);
    assert!(before.is_ok() && draft.is_ok() && before != draft);
    assert_eq!(worksheet.begin(2), Ok(()));
    assert_eq!(worksheet.commit(1), Ok(()));
    assert_eq!(shown(&worksheet, 0, &year), draft);
    // Desk 2 drafted on the month and model before.
    assert_eq!(shown(&worksheet, 2, &year), before);
    assert_eq!(worksheet.take_back(), Ok(()));
    assert_eq!(shown(&worksheet, 0, &year), before);
    assert_eq!(worksheet.change(2, Change::Month(1)), Ok(()));
    assert_eq!(worksheet.cancel(2), Ok(()));
    assert_eq!(shown(&worksheet, 0, &year), before);
}

#[test]
fn parts_are_refused_in_their_order() {
    let year = packed(&parts());
    let show = |month, model| shown(&drafted(month, model), 1, &year).err();
    let refusal = |number, place| Some(Refusal { number, place });
    // Places count from the part's start.
    assert_eq!(show(3, CCIR), refusal(9, 38_548));
    assert_eq!(show(4, CCIR), refusal(10, 244));
    // One byte of the record is missing, whatever is wrong with the month file.
    assert_eq!(show(3, URSI), refusal(8, 0));
    assert_eq!(show(5, CCIR), refusal(8, 0));
    let broken = &year[..DIRECTORY - 1];
    assert_eq!(shown(&drafted(3, URSI), 1, broken), refused(19, 14));
    assert_eq!(shown(&opened(), 1, broken), refused(16, 0));
    assert_eq!(shown(&opened(), 5, broken), refused(14, 0));
    let mut words = *opened().words();
    words[15] = 2;
    assert_eq!(
        shown(&Worksheet::from_words(words), 0, broken),
        refused(7, 15)
    );
}

/// Sets offset (0) or length (1) of a pair, counted from 1.
fn set(year: &mut [u8], pair: usize, which: usize, word: usize) {
    let at = 8 * (pair - 1) + 4 * which;
    year[at..at + 4].copy_from_slice(&(word as u32).to_le_bytes());
}

#[test]
fn the_directorys_rule() {
    let parts: Parts = std::array::from_fn(|k| vec![k as u8; 3 + k]);
    let year = packed(&parts);
    let mut offset = DIRECTORY;
    for (k, part) in parts.iter().enumerate() {
        let (pair, next) = (k + 1, (k + 2).min(14) as u32);
        let with = |which: usize, word: usize| {
            let mut other = year.clone();
            set(&mut other, pair, which, word);
            year_check(&other)
        };
        assert_eq!(with(0, offset - 1), refused(19, pair as u32));
        assert_eq!(with(1, part.len()), Ok(()));
        assert_eq!(with(1, part.len() - 1), Ok(()));
        assert_eq!(with(1, part.len() + 1), refused(19, next));
        // The sum is 2^32, and not 0.
        assert_eq!(with(1, (1 << 32) - offset), refused(19, next));
        assert_eq!(with(0, (1 << 32) - 1), refused(19, next));
        for cut in 8 * k..8 * k + 8 {
            assert_eq!(year_check(&year[..cut]), refused(19, pair as u32));
        }
        offset += part.len();
    }
    assert_eq!(offset, year.len());
    assert_eq!(year_check(&year[..offset - 1]), refused(19, 14));
    assert_eq!(year_check(&[&year[..], &[0]].concat()), Ok(()));
    // Parts may be empty, and there may be gaps.
    assert_eq!(year_check(&packed(&Parts::default())), Ok(()));
    let mut gap = packed(&Parts::default());
    set(&mut gap, 14, 0, DIRECTORY + 9);
    assert_eq!(year_check(&gap), refused(19, 14));
    gap.resize(DIRECTORY + 9, 0);
    assert_eq!(year_check(&gap), Ok(()));
}

#[test]
fn parts_are_handed_back() {
    let parts = parts();
    let year = packed(&parts);
    for month in 1..=12 {
        assert_eq!(year_month(&year, month), Ok(&parts[month as usize - 1][..]));
    }
    for model in [CCIR, URSI] {
        let daw = year_model(&year, model).expect("a part");
        assert_eq!(daw, parts[12 + model as usize]);
        assert_eq!(month_record(daw, 2), Ok(&daw[RECORD..2 * RECORD]));
    }
    let first = year_month(&year, 1).expect("a part");
    assert_eq!(first.as_ptr(), year[DIRECTORY..].as_ptr());
    // The word is judged first, then the directory.
    for month in [0, 13, u32::MAX] {
        assert_eq!(year_month(&[], month), refused(1, 1));
    }
    for model in [2, 256, u32::MAX] {
        assert_eq!(year_model(&[], model), refused(7, 15));
    }
    assert_eq!(year_month(&[], 12), refused(19, 1));
    assert_eq!(year_model(&year[..100], URSI), refused(19, 13));
}
