//! The functions of the arithmetic with their numbers in the vector file.

use crate::bits::{Answer, Argument, Kind};
#[cfg(linked)]
use crate::port::numbers as port;
use crate::reference::numbers as reference;

pub struct Function {
    pub number: u64,
    pub name: &'static str,
    pub kind: Kind,
    pub rust: fn(u64) -> u64,
    /// Not there for what the port does not export.
    #[cfg(linked)]
    pub port: Option<fn(u64) -> u64>,
}

impl Function {
    /// The name without the width: `sin` for `sin32` and `sin64`.
    pub fn stem(&self) -> &'static str {
        let short = self
            .name
            .strip_suffix("32")
            .or(self.name.strip_suffix("64"));
        match self.name {
            "to_i32" | "from_i32" | "to_u64" => self.name,
            _ => short.unwrap_or(self.name),
        }
    }
}

macro_rules! exported {
    ($number:literal, $name:ident, $type:ty) => {
        Function {
            number: $number,
            name: stringify!($name),
            kind: <$type>::KIND,
            rust: |word| reference::$name(<$type>::from_word(word)).to_word(),
            #[cfg(linked)]
            port: Some(|word| port::$name(<$type>::from_word(word)).to_word()),
        }
    };
}

macro_rules! exported_pair {
    ($number:literal, $name:ident) => {
        Function {
            number: $number,
            name: stringify!($name),
            kind: Kind::Pair,
            rust: |word| {
                let (a, b) = <(f32, f32)>::from_word(word);
                reference::$name(a, b).to_word()
            },
            #[cfg(linked)]
            port: Some(|word| {
                let (a, b) = <(f32, f32)>::from_word(word);
                port::$name(a, b).to_word()
            }),
        }
    };
}

macro_rules! not_exported {
    ($number:literal, $name:ident, $type:ty) => {
        Function {
            number: $number,
            name: stringify!($name),
            kind: <$type>::KIND,
            rust: |word| reference::$name(<$type>::from_word(word)).to_word(),
            #[cfg(linked)]
            port: None,
        }
    };
}

pub const FUNCTIONS: [Function; 27] = [
    exported!(1, abs32, f32),
    exported!(2, abs64, f64),
    exported_pair!(3, min),
    exported_pair!(4, max),
    exported!(5, widen, f32),
    exported!(6, narrow, f64),
    exported!(7, sqrt64, f64),
    exported!(8, sqrt32, f32),
    exported!(9, to_i32, f32),
    exported!(10, from_i32, i32),
    exported!(11, to_u64, f64),
    not_exported!(12, is_negative, f64),
    exported_pair!(13, sign),
    exported!(20, sin64, f64),
    exported!(21, cos64, f64),
    exported!(22, atan64, f64),
    exported!(23, acos64, f64),
    exported!(24, exp64, f64),
    exported!(25, ln64, f64),
    exported!(30, sin32, f32),
    exported!(31, cos32, f32),
    exported!(32, atan32, f32),
    exported!(33, acos32, f32),
    exported!(34, exp32, f32),
    exported!(35, ln32, f32),
    not_exported!(41, to_radians, f32),
    not_exported!(42, to_degrees, f32),
];
