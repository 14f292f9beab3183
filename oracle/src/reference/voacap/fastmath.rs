//! Stands in for the original's choice of arithmetic, which only its
//! lattice asks for.

use super::con::R;

#[derive(Debug, Clone, Copy)]
pub struct Numerics {
    pub lattice_nearest: bool,
}

impl Numerics {
    pub fn lattice_deg(self) -> Option<R> {
        unreachable!("the lattice is left out")
    }
}
