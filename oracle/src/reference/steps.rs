//! Document 01's elementary steps. Worked in f64, every operation rounded
//! once; an f32 call widens, works and narrows. Written from the document,
//! so that port and Rust meet only there.

// The document's digits are kept as it gives them.
#![allow(clippy::approx_constant)]

/// The steps as methods, by which the compared Rust calls them.
pub trait Step: Copy {
    fn step_sin(self) -> Self;
    fn step_cos(self) -> Self;
    fn step_atan(self) -> Self;
    fn step_acos(self) -> Self;
    fn step_exp(self) -> Self;
    fn step_ln(self) -> Self;
    /// Where one operand is NaN, the other; of equals, the left.
    fn step_min(self, other: Self) -> Self;
    fn step_max(self, other: Self) -> Self;
}

macro_rules! steps {
    ($float:ty) => {
        impl Step for $float {
            fn step_sin(self) -> Self {
                sin(f64::from(self)) as Self
            }
            fn step_cos(self) -> Self {
                cos(f64::from(self)) as Self
            }
            fn step_atan(self) -> Self {
                atan(f64::from(self)) as Self
            }
            fn step_acos(self) -> Self {
                acos(f64::from(self)) as Self
            }
            fn step_exp(self) -> Self {
                exp(f64::from(self)) as Self
            }
            fn step_ln(self) -> Self {
                ln(f64::from(self)) as Self
            }
            fn step_min(self, other: Self) -> Self {
                if self.is_nan() || other < self {
                    other
                } else {
                    self
                }
            }
            fn step_max(self, other: Self) -> Self {
                if self.is_nan() || other > self {
                    other
                } else {
                    self
                }
            }
        }
    };
}

steps!(f32);
steps!(f64);

/// 1.5 times 2^52: adding it leaves no room for a fraction.
const NEAR: f64 = 6755399441055744.0;
const TWO_OVER_PI: f64 = 0.6366197723675814;
pub const HALF_PI: f64 = 1.5707963267948966;
/// What `HALF_PI` lacks.
const HALF_PI_REST: f64 = 6.123233995736766e-17;
const LOG2_E: f64 = 1.4426950408889634;
pub const LN_2: f64 = 0.6931471805599453;

const SIN: [f64; 8] = alternating_factorials(1);
const COS: [f64; 9] = alternating_factorials(0);
const ATAN: [f64; 7] = odd_fractions(true);
const EXP: [f64; 14] = factorials();
const LN: [f64; 16] = odd_fractions(false);

const fn factorial(n: u64) -> u64 {
    if n == 0 {
        1
    } else {
        n * factorial(n - 1)
    }
}

// The last term of each: its lack would be too small for a tolerance.
const _: () = assert!(SIN[7] == -1.0 / 1307674368000.0 && COS[8] == 1.0 / 20922789888000.0);
const _: () = assert!(ATAN[6] == 1.0 / 13.0 && LN[15] == 1.0 / 31.0);
const _: () = assert!(EXP[13] == 1.0 / 6227020800.0);

// One division gives the f64 nearest the fraction only if the divisor is
// exact, so below 2^53.
const _: () = assert!(factorial(15) == 1307674368000);
const _: () = assert!(factorial(16) == 20922789888000 && factorial(16) < 1 << 53);

/// (-1)^k / (2k + first)!
const fn alternating_factorials<const N: usize>(first: u64) -> [f64; N] {
    let mut out = [0.0; N];
    let mut k = 0;
    while k < N {
        let sign = if k % 2 == 0 { 1.0 } else { -1.0 };
        out[k] = sign / factorial(2 * k as u64 + first) as f64;
        k += 1;
    }
    out
}

/// 1 / k!
const fn factorials<const N: usize>() -> [f64; N] {
    let mut out = [0.0; N];
    let mut k = 0;
    while k < N {
        out[k] = 1.0 / factorial(k as u64) as f64;
        k += 1;
    }
    out
}

/// 1 / (2k + 1), every second one negative if asked for.
const fn odd_fractions<const N: usize>(alternating: bool) -> [f64; N] {
    let mut out = [0.0; N];
    let mut k = 0;
    while k < N {
        let sign = if alternating && k % 2 == 1 { -1.0 } else { 1.0 };
        out[k] = sign / (2 * k + 1) as f64;
        k += 1;
    }
    out
}

/// From the highest term down; product and sum are rounded apart.
fn horner<const N: usize>(coefficients: &[f64; N], x: f64) -> f64 {
    let mut sum = coefficients[N - 1];
    for coefficient in coefficients[..N - 1].iter().rev() {
        sum = sum * x + coefficient;
    }
    sum
}

fn near(y: f64) -> f64 {
    (y + NEAR) - NEAR
}

/// The quarter turn, 0 to 3, and the angle left over.
fn quarter(v: f64) -> (i64, f64) {
    let n = near(v * TWO_OVER_PI);
    let r = (v - n * HALF_PI) - n * HALF_PI_REST;
    ((n as i64).rem_euclid(4), r)
}

fn sin_near_zero(r: f64) -> f64 {
    r * horner(&SIN, r * r)
}

fn cos_near_zero(r: f64) -> f64 {
    horner(&COS, r * r)
}

pub fn sin(v: f64) -> f64 {
    if v.is_nan() || v.abs() > 1000.0 {
        return f64::NAN;
    }
    match quarter(v) {
        (0, r) => sin_near_zero(r),
        (1, r) => cos_near_zero(r),
        (2, r) => -sin_near_zero(r),
        (_, r) => -cos_near_zero(r),
    }
}

pub fn cos(v: f64) -> f64 {
    if v.is_nan() || v.abs() > 1000.0 {
        return f64::NAN;
    }
    match quarter(v) {
        (0, r) => cos_near_zero(r),
        (1, r) => -sin_near_zero(r),
        (2, r) => -cos_near_zero(r),
        (_, r) => sin_near_zero(r),
    }
}

// Inlined into an f32 call, the widening waits for a register of the call
// before it and the Rust would be timed at less than half its speed.
#[inline(never)]
pub fn atan(v: f64) -> f64 {
    let inverted = v.abs() > 1.0;
    let mut a = if inverted { 1.0 / v.abs() } else { v.abs() };
    for _ in 0..3 {
        a = a / (1.0 + (1.0 + a * a).sqrt());
    }
    let eight_parts = (a * horner(&ATAN, a * a)) * 8.0;
    let angle = if inverted {
        HALF_PI - eight_parts
    } else {
        eight_parts
    };
    // The sign bit decides, so minus zero stays minus zero.
    angle.copysign(v)
}

pub fn acos(v: f64) -> f64 {
    if v.is_nan() || v.abs() > 1.0 {
        return f64::NAN;
    }
    2.0 * atan(((1.0 - v) / (1.0 + v)).sqrt())
}

pub fn exp(v: f64) -> f64 {
    if v > 700.0 {
        return f64::INFINITY;
    }
    if v < -700.0 {
        return 0.0;
    }
    let n = near(v * LOG2_E);
    let r = v - n * LN_2;
    horner(&EXP, r) * power_of_two(n as i64)
}

/// 2^n exactly; 0 below the smallest subnormal, infinity above the largest.
pub fn power_of_two(n: i64) -> f64 {
    match n {
        1024.. => f64::INFINITY,
        -1022..=1023 => f64::from_bits(((n + 1023) as u64) << 52),
        -1074..=-1023 => f64::from_bits(1 << (n + 1074)),
        _ => 0.0,
    }
}

pub fn ln(v: f64) -> f64 {
    if v.is_nan() || v < 0.0 {
        return f64::NAN;
    }
    if v == 0.0 {
        return f64::NEG_INFINITY;
    }
    if v == f64::INFINITY {
        return v;
    }
    let (m, k) = mantissa_and_exponent(v);
    let q = (m - 1.0) / (m + 1.0);
    k * LN_2 + (2.0 * q) * horner(&LN, q * q)
}

/// m and k with v = m × 2^k and 1 <= m < 2, for a finite v above 0.
fn mantissa_and_exponent(v: f64) -> (f64, f64) {
    let bits = v.to_bits();
    // A subnormal is scaled up first, which is exact.
    if bits < 1 << 52 {
        let (m, k) = mantissa_and_exponent(v * power_of_two(54));
        return (m, k - 54.0);
    }
    let m = f64::from_bits(bits & ((1 << 52) - 1) | 1023 << 52);
    (m, ((bits >> 52) as i64 - 1023) as f64)
}
