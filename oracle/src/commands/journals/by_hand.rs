//! Lists that tell one rule each.

use crate::model::desks::fields::{self, Inputs, URSI};
use crate::model::desks::{Call, Edit};
use crate::reference::sheets::FIGURES;
use Call::{Begin, Cancel, Commit, TakeBack};

pub const SHOW: Call = show(0);

pub const fn show(desk: u32) -> Call {
    Call::Show(desk, FIGURES)
}

/// June at noon, from Hoek van Holland towards the Faroes.
pub fn inputs() -> Inputs {
    let numbers = [
        70.0, 12.0, 52.0, 4.0, 62.0, -7.0, 1.0, 1.0, 1.0, 0.7, 78.5, -68.0,
    ];
    fields::inputs(6, numbers, false)
}

pub fn sunspots(desk: u32, v: f32) -> Call {
    Call::Change(desk, Edit::Sunspots(v.to_bits()))
}

pub fn hour(desk: u32, v: f32) -> Call {
    Call::Change(desk, Edit::Hour(v.to_bits()))
}

pub fn path(desk: u32, ends: [f32; 4], flag: u32) -> Call {
    let ends = ends.map(f32::to_bits);
    Call::Change(desk, Edit::Path { ends, flag })
}

pub fn factors(desk: u32, values: [f32; 4]) -> Call {
    Call::Change(desk, Edit::Factors(values.map(f32::to_bits)))
}

pub fn pole(desk: u32, lat: f32, lon: f32) -> Call {
    Call::Change(desk, Edit::Pole([lat, lon].map(f32::to_bits)))
}

pub fn month(desk: u32, word: u32) -> Call {
    Call::Change(desk, Edit::Month(word))
}

pub fn model(desk: u32, word: u32) -> Call {
    Call::Change(desk, Edit::Model(word))
}

/// Far enough for five points.
pub const FAR: [f32; 4] = [60.0, 5.0, -30.0, 15.0];

pub const SHORT: u32 = 0;
pub const LONG: u32 = 1;
/// Some would be 0 or 1 if cut to a byte or to two, or without their highest
/// bit; one is 1.0.
const NO_FLAGS: [u32; 8] = [2, 3, 256, 257, 65_537, 0x3f80_0000, 0x8000_0000, u32::MAX];

pub fn lists() -> Vec<Vec<Call>> {
    let mut lists = vec![
        vec![],
        // A cancel that restores the path and forgets the sunspot number.
        vec![
            SHOW,
            Begin(1),
            sunspots(1, 150.0),
            path(1, FAR, SHORT),
            show(1),
            Cancel(1),
            SHOW,
            show(1),
        ],
        // Every change, seen in the draft, then in the worksheet, then gone.
        vec![
            Begin(2),
            sunspots(2, 10.5),
            show(2),
            hour(2, 0.0),
            show(2),
            path(2, FAR, LONG),
            show(2),
            factors(2, [0.125, 8.0, 2.0, 1.5]),
            show(2),
            pole(2, -90.0, 180.0),
            show(2),
            SHOW,
            Commit(2),
            SHOW,
            TakeBack,
            SHOW,
            TakeBack,
        ],
        // One earlier set, not two.
        vec![
            Begin(1),
            sunspots(1, 100.0),
            Commit(1),
            Begin(1),
            sunspots(1, 200.0),
            Commit(1),
            SHOW,
            TakeBack,
            SHOW,
            TakeBack,
            SHOW,
        ],
        // Four desks, of which one may commit.
        vec![
            Begin(1),
            Begin(2),
            Begin(3),
            Begin(4),
            hour(1, 1.0),
            hour(2, 2.0),
            hour(3, 3.0),
            hour(4, 4.0),
            Commit(3),
            Commit(1),
            Commit(2),
            Commit(4),
            SHOW,
            show(1),
            show(2),
            show(4),
            Cancel(4),
            Begin(4),
            hour(4, 24.0),
            show(4),
            Commit(4),
            SHOW,
        ],
        // A commit that changes nothing still makes others stale.
        vec![
            Begin(1),
            Begin(2),
            Commit(1),
            Commit(2),
            TakeBack,
            Commit(2),
        ],
        // A take-back makes a later draft stale too.
        vec![
            Begin(1),
            sunspots(1, 5.0),
            Commit(1),
            Begin(2),
            hour(2, 6.0),
            TakeBack,
            hour(2, 7.0),
            show(2),
            Commit(2),
            SHOW,
        ],
        // Take-backs with no draft and nothing earlier change nothing.
        vec![TakeBack, Begin(1), TakeBack, Commit(1), SHOW],
        // A refused change leaves the whole draft, its good numbers too.
        vec![
            Begin(3),
            path(3, [60.0, 5.0, -30.0, 181.0], LONG),
            factors(3, [2.0, 2.0, 2.0, 8.5]),
            pole(3, 10.0, f32::NAN),
            show(3),
            Commit(3),
            SHOW,
        ],
        // Numbers are kept as they are, the sign of a zero too.
        vec![
            Begin(4),
            sunspots(4, -0.0),
            hour(4, -0.0),
            path(4, [-0.0, -0.0, 0.0, 180.0], SHORT),
            pole(4, -0.0, -180.0),
            show(4),
            Commit(4),
            SHOW,
        ],
        // A path is set whole, its flag included.
        vec![
            Begin(1),
            path(1, FAR, LONG),
            show(1),
            path(1, FAR, SHORT),
            show(1),
            path(1, [52.0, 4.0, 62.0, -7.0], SHORT),
            show(1),
            Commit(1),
            SHOW,
        ],
        // A draft is a copy of the inputs as they were when it was begun.
        vec![
            Begin(1),
            Begin(2),
            sunspots(1, 250.0),
            Commit(1),
            show(2),
            Cancel(2),
            Begin(2),
            show(2),
        ],
        // A draft that is begun over an open one.
        vec![Begin(1), hour(1, 3.5), Begin(1), show(1), Commit(1), SHOW],
    ];
    // For desks that are none, with no draft and with one.
    for begin in [None, Some(Begin(1))] {
        for desk in [0, 5, 257, 65_537, 0x8000_0001, u32::MAX] {
            let calls = [
                Begin(desk),
                sunspots(desk, 20.0),
                hour(desk, 25.0),
                path(desk, FAR, LONG),
                factors(desk, [2.0; 4]),
                pole(desk, 60.0, 60.0),
                Commit(desk),
                Cancel(desk),
                show(desk),
                show(1),
            ];
            lists.push(begin.into_iter().chain(calls).collect());
        }
    }
    lists.extend(NO_FLAGS.map(bad_flag));
    lists
}

/// Lists that end with a whole call which only a journal over a year file knows:
/// for a desk with a draft, for one without, and for none.
pub fn of_a_year() -> Vec<Vec<Call>> {
    let desks = [1, 2, 5].into_iter();
    let last = desks.flat_map(|desk| [month(desk, 7), model(desk, URSI)]);
    last.map(|call| vec![Begin(1), hour(1, 18.0), call])
        .collect()
}

/// A bad flag is refused after desk, draft and the path's numbers; it leaves the
/// draft as it was, shown and committed, and the calls after it are answered.
fn bad_flag(flag: u32) -> Vec<Call> {
    let near = [52.0, 4.0, 62.0, -7.0];
    vec![
        path(5, FAR, flag),
        path(1, FAR, flag),
        Begin(1),
        path(0, FAR, flag),
        path(2, [91.0, 5.0, -30.0, 15.0], flag),
        path(1, [91.0, 5.0, -30.0, 15.0], flag),
        path(1, [60.0, f32::NAN, -30.0, 15.0], flag),
        path(1, [60.0, 5.0, -90.5, 15.0], flag),
        path(1, [60.0, 5.0, -30.0, 181.0], flag),
        path(1, FAR, flag),
        show(1),
        path(1, near, LONG),
        path(1, near, flag),
        show(1),
        hour(1, 6.0),
        Commit(1),
        path(1, near, flag),
        SHOW,
    ]
}
