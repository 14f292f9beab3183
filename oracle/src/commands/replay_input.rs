//! `replay-input FILE`: an input of the program `replay`.

use super::journals::by_hand::{factors, hour, month, path, show, sunspots, SHORT, SHOW};
use super::journals::drawn::Journal;
use super::journals::input;
use super::write_file;
use crate::draw::data_files::named;
use crate::model::desks::fields::{self, Inputs};
use crate::model::desks::Call;
use crate::reference::voacap::coefficients::F2_RECORD_BYTES;
use Call::{Begin, Cancel, Commit, TakeBack};

/// The month whose record is taken, which is that of the fields.
const MONTH: usize = 2;
const CUXHAVEN: [f32; 2] = [53.87, 8.71];

pub fn run(file: &str) -> Result<(), String> {
    write_file(file, &example())
}

fn example() -> Vec<u8> {
    let [(_, calm_1), ..] = named();
    let record = &calm_1.daw[(MONTH - 1) * F2_RECORD_BYTES..][..F2_RECORD_BYTES];
    let journal = Journal::of("example", inputs(), &calls());
    input(&journal, &[record, &calm_1.month[..]].concat())
}

/// February in the afternoon, from Cuxhaven to the north of Iceland.
fn inputs() -> Inputs {
    let [lat, lon] = CUXHAVEN;
    let numbers = [
        70.0, 14.0, lat, lon, 66.5, -20.25, 1.0, 1.0, 1.0, 0.7, 78.5, -69.0,
    ];
    fields::inputs(MONTH as u32, numbers, false)
}

/// A morning of three desks. What comes last is a whole call that only a journal
/// over a year file knows, for a desk with a draft.
fn calls() -> Vec<Call> {
    let [lat, lon] = CUXHAVEN;
    vec![
        SHOW,
        Begin(1),
        sunspots(1, 120.0),
        hour(1, 20.0),
        show(1),
        Begin(2),
        path(2, [lat, lon, 62.0, 6.5], SHORT),
        Begin(1),
        SHOW,
        Cancel(1),
        SHOW,
        Commit(2),
        SHOW,
        Begin(3),
        factors(3, [1.0, 1.0, 9.0, 0.7]),
        factors(3, [1.0, 1.0, 0.5, 0.7]),
        TakeBack,
        Commit(3),
        show(3),
        SHOW,
        TakeBack,
        show(9),
        month(3, 1),
    ]
}

#[cfg(test)]
mod tests {
    use super::example;
    use crate::model::desks::programs::{replay, replay_text};

    /// All other calls are answered, and of the three words of the last the first
    /// byte is named.
    #[test]
    fn the_journal_stops_at_its_last_call() {
        let input = example();
        let replayed = replay(&input);
        assert_eq!(replayed.answers.len(), 22);
        let text = replay_text(&replayed);
        assert!(text.ends_with(&format!("\nstopped at {}\n", input.len() - 12)));
        for line in ["points 3", "points 1", "accepted", "refused 15 0"] {
            assert!(text.lines().any(|other| other == line), "{line}");
        }
    }
}
