//! The port's side: its library's functions, which bindings/rust declares.

pub mod clocks;
pub mod layers;
pub mod lists;
pub mod numbers;
pub mod sheets;

use crate::model::desks::Refusal;
use jutetrowel::raw::Answer;

/// No number and no place where nothing is refused.
pub const ACCEPTED: Answer = Answer {
    number: 0,
    place: 0,
};

impl From<Refusal> for Answer {
    fn from(Refusal { number, place, .. }: Refusal) -> Self {
        Self { number, place }
    }
}
