//! The Rust side of each function that the port exports, under the port's
//! name and calling convention. Never inlined, so that both sides of a
//! timing are calls.

use crate::reference::steps::Step;
use crate::reference::voacap::con::{D2R, R2D};
use crate::reference::voacap::geometry;

#[inline(never)]
pub extern "C" fn abs32(v: f32) -> f32 {
    v.abs()
}

#[inline(never)]
pub extern "C" fn abs64(v: f64) -> f64 {
    v.abs()
}

#[inline(never)]
pub extern "C" fn min(a: f32, b: f32) -> f32 {
    a.step_min(b)
}

#[inline(never)]
pub extern "C" fn max(a: f32, b: f32) -> f32 {
    a.step_max(b)
}

#[inline(never)]
pub extern "C" fn widen(v: f32) -> f64 {
    f64::from(v)
}

#[inline(never)]
pub extern "C" fn narrow(v: f64) -> f32 {
    v as f32
}

#[inline(never)]
pub extern "C" fn sqrt64(v: f64) -> f64 {
    v.sqrt()
}

#[inline(never)]
pub extern "C" fn sqrt32(v: f32) -> f32 {
    v.sqrt()
}

#[inline(never)]
pub extern "C" fn to_i32(v: f32) -> i32 {
    v as i32
}

#[inline(never)]
pub extern "C" fn from_i32(v: i32) -> f32 {
    v as f32
}

#[inline(never)]
pub extern "C" fn to_u64(v: f64) -> u64 {
    v as u64
}

#[inline(never)]
pub extern "C" fn is_negative(v: f64) -> bool {
    v.is_sign_negative() && !v.is_nan()
}

#[inline(never)]
pub extern "C" fn sign(a: f32, b: f32) -> f32 {
    geometry::sign(a, b)
}

macro_rules! step {
    ($name:ident, $float:ty, $method:ident) => {
        #[inline(never)]
        pub extern "C" fn $name(v: $float) -> $float {
            v.$method()
        }
    };
}

step!(sin64, f64, step_sin);
step!(cos64, f64, step_cos);
step!(atan64, f64, step_atan);
step!(acos64, f64, step_acos);
step!(exp64, f64, step_exp);
step!(ln64, f64, step_ln);
step!(sin32, f32, step_sin);
step!(cos32, f32, step_cos);
step!(atan32, f32, step_atan);
step!(acos32, f32, step_acos);
step!(exp32, f32, step_exp);
step!(ln32, f32, step_ln);

#[inline(never)]
pub extern "C" fn to_radians(v: f32) -> f32 {
    v * D2R
}

#[inline(never)]
pub extern "C" fn to_degrees(v: f32) -> f32 {
    v * R2D
}
