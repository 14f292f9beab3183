//! The 96 words in which the port's library keeps a worksheet: six sets of 16,
//! namely the inputs, the earlier set and the drafts of desks 1 to 4. A set's
//! first word says what it is, its fields follow, flag and model as whatever words
//! they are; of one that is not there all are 0.

use super::fields::{Inputs, FIELDS};
use super::{Draft, Worksheet};

const SET: usize = 1 + FIELDS;
pub const WORDS: usize = 6 * SET;
pub type Words = [u32; WORDS];

const THERE: u32 = 1;
const STALE: u32 = 2;

pub fn of(sheet: &Worksheet) -> Words {
    let mut words = [0; WORDS];
    let draft = |draft: Draft| {
        let what = if draft.stale { STALE } else { THERE };
        (what, draft.inputs)
    };
    let there = |inputs: Inputs| (THERE, inputs);
    let [d1, d2, d3, d4] = sheet.drafts.map(|d| d.map(draft));
    let sets = [Some(there(sheet.inputs)), sheet.earlier.map(there)];
    let sets = sets.into_iter().chain([d1, d2, d3, d4]);
    for (part, set) in words.chunks_exact_mut(SET).zip(sets) {
        if let Some((what, inputs)) = set {
            part[0] = what;
            part[1..].copy_from_slice(&inputs);
        }
    }
    words
}

#[cfg(test)]
mod tests {
    use super::{of, SET, WORDS};
    use crate::draw::generator::Generator;
    use crate::draw::sheet_kinds::year_inputs;
    use crate::model::desks::fields::FIELDS;
    use crate::model::desks::Worksheet;

    #[test]
    fn sets_stand_one_after_the_other() {
        let inputs = year_inputs(&mut Generator::new(3));
        let sheet = Worksheet::open(inputs).expect("in range");
        let sheet = sheet.begin(2).and_then(|sheet| sheet.begin(4));
        let sheet = sheet.and_then(|sheet| sheet.commit(2)).expect("open");
        let words = of(&sheet);
        assert_eq!(WORDS, 96);
        let sets: Vec<&[u32]> = words.chunks(SET).collect();
        let whats: Vec<u32> = sets.iter().map(|set| set[0]).collect();
        assert_eq!(whats, [1, 1, 0, 0, 0, 2]);
        for set in sets {
            let wanted = if set[0] == 0 { [0; FIELDS] } else { inputs };
            assert_eq!(set[1..], wanted);
        }
    }
}
