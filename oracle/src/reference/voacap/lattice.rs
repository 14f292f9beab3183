//! Stands in for the original's lattice of layer parameters, which document
//! 01 leaves out. Whatever would give a number panics.

use super::con::R;
use std::marker::PhantomData;

pub trait Blend {
    fn blend(&self, other: &Self, f: R) -> Self;
}

#[derive(Debug, Clone, Copy)]
pub enum Interp {
    Nearest,
    Bilinear,
}

#[derive(Debug, Clone)]
pub struct Lattice<T> {
    nodes: PhantomData<T>,
}

impl<T> Lattice<T> {
    pub fn new(_step_deg: R, _interp: Interp) -> Self {
        unreachable!("the lattice is left out")
    }

    pub fn counts(&self) -> (u64, u64) {
        unreachable!("the lattice is left out")
    }

    pub fn at(&mut self, _lat: R, _lon: R, _node: impl Fn(R, R) -> T) -> T {
        unreachable!("the lattice is left out")
    }
}

pub fn blend1(_a: R, _b: R, _f: R) -> R {
    unreachable!("the lattice is left out")
}

pub fn blend3(_a: &[R; 3], _b: &[R; 3], _f: R) -> [R; 3] {
    unreachable!("the lattice is left out")
}
