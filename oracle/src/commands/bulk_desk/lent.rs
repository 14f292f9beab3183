//! What is lent to the program `desk`: a year file, or an F2 record and a month file.

use crate::draw::damage::Damage;
use crate::draw::data_files::Pair;
use crate::draw::generator::Generator;
use crate::draw::journal_kinds::files;
use crate::draw::year_files::{any_year, calm_year, packed, NO_GAPS};
use crate::model::desks::lent::Lent;
use crate::model::desks::programs::LONGEST_YEAR;
use crate::reference::voacap::coefficients::F2_RECORD_BYTES;

pub enum Files {
    Year(Vec<u8>),
    Pair(Pair),
}

impl Files {
    /// A year in which all can be shown.
    pub fn good() -> Self {
        Self::Year(packed(&calm_year(&mut Generator::new(1001)), &NO_GAPS))
    }

    /// Half of them are good years, the others years or pairs of any kind.
    pub fn any(random: &mut Generator) -> Self {
        match random.below(4) {
            0 => Self::Pair(any_pair(random)),
            1 => {
                let mut year = any_year(random);
                year.truncate(LONGEST_YEAR);
                Self::Year(year)
            }
            _ => Self::Year(packed(&calm_year(random), &NO_GAPS)),
        }
    }

    /// The same as the model has it.
    pub fn lent(&self) -> Lent {
        match self {
            Files::Year(file) => Lent::year(file),
            Files::Pair(Pair { daw, month }) => Lent::pair(daw, month),
        }
    }

    /// With names to be written under.
    pub fn named(&self) -> Vec<(&'static str, &[u8])> {
        match self {
            Files::Year(file) => vec![("year", file)],
            Files::Pair(Pair { daw, month }) => vec![("record", daw), ("month", month)],
        }
    }
}

/// The month file of one pair in eight is damaged, and the record of one in sixteen
/// too short. Bytes after the record are ignored.
fn any_pair(random: &mut Generator) -> Pair {
    let mut pair = files(random);
    if random.below(8) == 0 {
        pair.month = Damage::any(random).done_to(&pair.month);
    }
    let length = match random.below(16) {
        0 => random.below(F2_RECORD_BYTES as u64) as usize,
        1..=4 => F2_RECORD_BYTES + random.below(9) as usize,
        _ => F2_RECORD_BYTES,
    };
    pair.daw.resize(length, 0xaa);
    pair
}
