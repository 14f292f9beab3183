//! Numbers as 64-bit words, as the vector files hold them.

const NAN_32: u64 = 0x7fc0_0000;
const NAN_64: u64 = 0x7ff8_0000_0000_0000;

/// What an argument word holds.
#[derive(Debug, Clone, Copy, PartialEq)]
pub enum Kind {
    F32,
    F64,
    I32,
    /// Two f32, the first in the low half.
    Pair,
}

/// A type that can be an argument.
pub trait Argument {
    const KIND: Kind;
    fn from_word(word: u64) -> Self;
}

/// A type that can be an answer. Every NaN gives one word, since no
/// definition decides the bits of a NaN.
pub trait Answer {
    fn to_word(self) -> u64;
}

impl Argument for f32 {
    const KIND: Kind = Kind::F32;
    fn from_word(word: u64) -> Self {
        f32::from_bits(word as u32)
    }
}

impl Argument for f64 {
    const KIND: Kind = Kind::F64;
    fn from_word(word: u64) -> Self {
        f64::from_bits(word)
    }
}

impl Argument for i32 {
    const KIND: Kind = Kind::I32;
    fn from_word(word: u64) -> Self {
        word as i32
    }
}

impl Argument for (f32, f32) {
    const KIND: Kind = Kind::Pair;
    fn from_word(word: u64) -> Self {
        (f32::from_word(word), f32::from_word(word >> 32))
    }
}

impl Answer for f32 {
    fn to_word(self) -> u64 {
        if self.is_nan() {
            NAN_32
        } else {
            self.to_bits().into()
        }
    }
}

impl Answer for f64 {
    fn to_word(self) -> u64 {
        if self.is_nan() {
            NAN_64
        } else {
            self.to_bits()
        }
    }
}

impl Answer for i32 {
    fn to_word(self) -> u64 {
        (self as u32).into()
    }
}

impl Answer for u64 {
    fn to_word(self) -> u64 {
        self
    }
}

impl Answer for bool {
    fn to_word(self) -> u64 {
        self.into()
    }
}

/// Numbers as the words of an answer, every NaN as one word.
pub fn words<const N: usize>(numbers: [f32; N]) -> [u32; N] {
    numbers.map(|number| number.to_word() as u32)
}

pub fn pair(a: u64, b: u64) -> u64 {
    a | b << 32
}

/// One of the two float formats, so that special values are listed once.
#[derive(Debug, Clone, Copy, PartialEq)]
pub struct Format {
    pub exponent_bits: u32,
    pub fraction_bits: u32,
}

pub const F32: Format = Format {
    exponent_bits: 8,
    fraction_bits: 23,
};
pub const F64: Format = Format {
    exponent_bits: 11,
    fraction_bits: 52,
};

impl Format {
    pub fn sign(self) -> u64 {
        1 << (self.exponent_bits + self.fraction_bits)
    }

    /// All exponent bits set.
    pub fn infinity(self) -> u64 {
        self.sign() - (1 << self.fraction_bits)
    }

    pub fn smallest_normal(self) -> u64 {
        1 << self.fraction_bits
    }

    /// The word of the number of this format nearest `v`.
    pub fn word(self, v: f64) -> u64 {
        if self == F32 {
            u64::from((v as f32).to_bits())
        } else {
            v.to_bits()
        }
    }

    /// `v` and its neighbours, for a `v` other than zero.
    pub fn around(self, v: f64) -> [u64; 3] {
        let word = self.word(v);
        [word - 1, word, word + 1]
    }

    pub fn both_signs(self, words: Vec<u64>) -> Vec<u64> {
        let negative = words.iter().map(|word| word | self.sign());
        words.iter().copied().chain(negative).collect()
    }
}
