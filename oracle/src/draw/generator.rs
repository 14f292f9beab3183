//! Random words that are the same in every run (splitmix64).

use crate::bits::{pair, Format, Kind, F32, F64};
use crate::reference::steps::power_of_two;

pub struct Generator {
    state: u64,
}

impl Generator {
    pub fn new(seed: u64) -> Self {
        Self { state: seed }
    }

    /// A seed of its own for each case, so that a case can be found again.
    pub fn of_case(seed: u64, case: u64) -> Self {
        Self::new(seed.wrapping_mul(1 << 32) ^ case)
    }

    pub fn next(&mut self) -> u64 {
        self.state = self.state.wrapping_add(0x9e37_79b9_7f4a_7c15);
        let z = self.state;
        let z = (z ^ z >> 30).wrapping_mul(0xbf58_476d_1ce4_e5b9);
        let z = (z ^ z >> 27).wrapping_mul(0x94d0_49bb_1331_11eb);
        z ^ z >> 31
    }

    /// A whole number below `limit`. The high half is used, so a bias is
    /// far too small to matter here.
    pub fn below(&mut self, limit: u64) -> u64 {
        ((u128::from(self.next()) * u128::from(limit)) >> 64) as u64
    }

    pub fn between(&mut self, low: i64, high: i64) -> i64 {
        low + self.below((high - low + 1) as u64) as i64
    }

    /// At least 0 and below 1.
    pub fn unit(&mut self) -> f64 {
        (self.next() >> 11) as f64 * power_of_two(-53)
    }

    pub fn uniform(&mut self, low: f64, high: f64) -> f64 {
        low + (high - low) * self.unit()
    }

    pub fn sign(&mut self) -> f64 {
        if self.below(2) == 0 {
            1.0
        } else {
            -1.0
        }
    }

    /// Every power of two from 2^low to 2^high is equally likely.
    pub fn scaled(&mut self, low: i64, high: i64) -> f64 {
        (1.0 + self.unit()) * power_of_two(self.between(low, high))
    }

    /// Random sign and fraction under the given exponent field.
    pub fn with_exponent(&mut self, format: Format, exponent: u64) -> u64 {
        let fraction = self.next() & (format.smallest_normal() - 1);
        let sign = if self.below(2) == 0 { 0 } else { format.sign() };
        sign | exponent << format.fraction_bits | fraction
    }

    /// Any bits whatever.
    pub fn any(&mut self, kind: Kind) -> u64 {
        match kind {
            Kind::F64 | Kind::Pair => self.next(),
            Kind::F32 | Kind::I32 => self.next() >> 32,
        }
    }

    pub fn any_word(&mut self) -> u32 {
        self.any(Kind::F32) as u32
    }

    /// An f32 of any bits.
    pub fn any_number(&mut self) -> f32 {
        f32::from_bits(self.any_word())
    }

    /// At least 2,000 words over all exponents, each in turn.
    pub fn spread(&mut self, kind: Kind) -> Vec<u64> {
        match kind {
            Kind::F64 => (0..2048).map(|e| self.with_exponent(F64, e)).collect(),
            Kind::F32 => (0..2048)
                .map(|i| self.with_exponent(F32, i % 256))
                .collect(),
            // Shorter ones are few and stand among the special values.
            Kind::I32 => (0..2400).map(|i| self.with_length(8 + i % 24)).collect(),
            Kind::Pair => (0..2048).map(|i| self.pair_near(i % 256)).collect(),
        }
    }

    /// An i32 whose size has the given number of bits.
    pub fn with_length(&mut self, bits: u64) -> u64 {
        let size = ((1u64 << bits) | self.next() & ((1 << bits) - 1)) >> 1;
        let value = size as i32;
        let value = if self.below(2) == 0 { value } else { -value };
        u64::from(value as u32)
    }

    /// Two f32 of which the second is near, equal, opposite or elsewhere.
    pub fn pair_near(&mut self, exponent: u64) -> u64 {
        let a = self.with_exponent(F32, exponent);
        let b = match self.below(6) {
            0 => a,
            1 => a ^ F32.sign(),
            2 => a ^ 1,
            3 => self.with_exponent(F32, exponent),
            4 => self.with_exponent(F32, (exponent + 1) % 256),
            _ => self.any(Kind::F32),
        };
        if self.below(2) == 0 {
            pair(a, b)
        } else {
            pair(b, a)
        }
    }
}
