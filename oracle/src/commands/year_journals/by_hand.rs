//! Lists that tell one rule each about months and models.

use crate::commands::journals::by_hand::{
    factors, hour, model, month, path, pole, show, sunspots, FAR, LONG, SHORT, SHOW,
};
use crate::model::desks::fields::{CCIR, URSI};
use crate::model::desks::Call;
use Call::{Begin, Cancel, Commit, TakeBack};

/// Some would be months or models if cut to a byte or to two, or without their
/// highest bit; one is 1.0.
const NO_MONTHS: [u32; 8] = [0, 13, 255, 257, 65_542, 0x3f80_0000, 0x8000_0006, u32::MAX];
const NO_MODELS: [u32; 8] = [2, 3, 256, 257, 65_537, 0x3f80_0000, 0x8000_0000, u32::MAX];

/// On a worksheet of June and CCIR, over a year with all months.
pub fn lists() -> Vec<Vec<Call>> {
    let mut lists = vec![
        vec![],
        // A cancel that restores the path and forgets month or model.
        vec![
            SHOW,
            Begin(1),
            month(1, 12),
            model(1, URSI),
            path(1, FAR, LONG),
            show(1),
            Cancel(1),
            SHOW,
            show(1),
        ],
        // Seen in the draft, then in the worksheet, then gone.
        vec![
            Begin(2),
            month(2, 1),
            show(2),
            model(2, URSI),
            show(2),
            SHOW,
            Commit(2),
            SHOW,
            TakeBack,
            SHOW,
            TakeBack,
        ],
        // Each desk has its own, and one of them may commit.
        vec![
            Begin(1),
            Begin(2),
            Begin(3),
            Begin(4),
            month(1, 2),
            month(2, 5),
            month(3, 9),
            model(3, URSI),
            model(4, URSI),
            show(1),
            show(2),
            show(3),
            show(4),
            Commit(3),
            Commit(1),
            show(1),
            show(4),
            SHOW,
        ],
        // A draft begun after a commit has the new month and model.
        vec![
            Begin(1),
            month(1, 11),
            model(1, URSI),
            Commit(1),
            Begin(2),
            show(2),
            model(2, CCIR),
            show(2),
            Commit(2),
            SHOW,
            TakeBack,
            SHOW,
        ],
        // There and back again: the same figures.
        vec![
            SHOW,
            Begin(4),
            month(4, 7),
            model(4, URSI),
            month(4, 6),
            model(4, CCIR),
            show(4),
            Commit(4),
            SHOW,
        ],
        // Other changes leave month and model, and these leave the others.
        vec![
            Begin(1),
            sunspots(1, 140.0),
            month(1, 3),
            hour(1, 4.5),
            model(1, URSI),
            path(1, FAR, LONG),
            show(1),
            month(1, 10),
            show(1),
        ],
        // A stale draft may be changed, and is shown as it is.
        vec![
            Begin(1),
            Begin(2),
            month(2, 8),
            Commit(2),
            month(1, 4),
            model(1, URSI),
            show(1),
            Commit(1),
            SHOW,
        ],
    ];
    lists.extend([CCIR, URSI].map(all_months));
    lists.extend(NO_MONTHS.map(bad_month));
    lists.extend(NO_MODELS.map(bad_model));
    lists
}

fn all_months(word: u32) -> Vec<Call> {
    let mut calls = vec![Begin(3), model(3, word)];
    calls.extend((1..=12).flat_map(|word| [month(3, word), show(3)]));
    calls
}

/// Refused after desk and draft; the draft stays as it was, shown and committed,
/// and the calls after it are answered.
fn refused(bad: impl Fn(u32) -> Call) -> Vec<Call> {
    vec![
        bad(5),
        bad(1),
        Begin(1),
        bad(0),
        bad(2),
        month(1, 2),
        model(1, URSI),
        bad(1),
        show(1),
        Commit(1),
        bad(1),
        SHOW,
    ]
}

fn bad_month(word: u32) -> Vec<Call> {
    refused(|desk| month(desk, word))
}

fn bad_model(word: u32) -> Vec<Call> {
    refused(|desk| model(desk, word))
}

/// Over a year whose directory is refused: showings are, all else is as ever. The
/// desk and its draft come before it.
pub fn without_a_directory() -> Vec<Call> {
    vec![
        SHOW,
        show(5),
        show(1),
        Begin(1),
        month(1, 12),
        model(1, URSI),
        show(1),
        month(1, 13),
        Commit(1),
        SHOW,
        TakeBack,
        SHOW,
    ]
}

/// Every month and model by turns, of the draft and of the worksheet, over a year
/// whose parts are worn.
pub fn over_worn_parts() -> Vec<Vec<Call>> {
    let asked = |words: [u32; 2]| {
        let [word, family] = words;
        vec![
            Begin(2),
            month(2, word),
            model(2, family),
            show(2),
            Commit(2),
            SHOW,
            Begin(2),
            model(2, 1 - family),
            show(2),
            TakeBack,
            SHOW,
        ]
    };
    let months = (1..=12).flat_map(|word| [CCIR, URSI].map(|family| asked([word, family])));
    months.collect()
}

/// September and October, whose files have words that are no finite numbers: whatever
/// else a draft or the worksheet has, the same word is named.
pub fn over_bad_words() -> Vec<Vec<Call>> {
    let asked = |word: u32, desk: u32| {
        let edits = [
            model(desk, CCIR),
            path(desk, FAR, LONG),
            path(desk, FAR, SHORT),
            sunspots(desk, 0.0),
            sunspots(desk, 300.0),
            hour(desk, 4.5),
            factors(desk, [8.0, 0.125, 1.0, 1.0]),
            pole(desk, -90.0, 180.0),
        ];
        let mut calls = vec![Begin(desk), month(desk, word), Commit(desk)];
        for edit in edits {
            calls.extend([Begin(desk), edit, show(desk), Commit(desk), SHOW]);
        }
        calls
    };
    let months = [9, 10].into_iter();
    months
        .flat_map(|word| (1..=4).map(move |desk| asked(word, desk)))
        .collect()
}
