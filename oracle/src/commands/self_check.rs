//! `self-check`: the steps beside the library's functions, so that a slip
//! in writing them down shows. The library is near, never equal.

use crate::draw::generator::Generator;
use crate::reference::steps::{acos, atan, cos, exp, ln, power_of_two, sin, Step, HALF_PI, LN_2};

const COUNT: usize = 200_000;
/// A little over half a unit in the last place of 1.
const HALF_ULP: f64 = 1.2e-16;

pub fn run() -> Result<(), String> {
    near_library()?;
    singles_near_library()?;
    named_points()
}

struct Check {
    name: &'static str,
    step: fn(f64) -> f64,
    library: fn(f64) -> f64,
    low: f64,
    high: f64,
    /// What the step may be off by, from argument and answer.
    allowed: fn(f64, f64) -> f64,
}

/// The reduction of sin, cos and exp rounds n × constant, so their error
/// grows with the argument; ln cancels near 1, so its error is absolute.
const CHECKS: [Check; 12] = [
    check("sin", sin, f64::sin, 1.0, |_, _| 4.0 * HALF_ULP),
    check("sin", sin, f64::sin, 1000.0, |v, _| {
        (4.0 + 2.0 * v.abs()) * HALF_ULP
    }),
    check("cos", cos, f64::cos, 1.0, |_, _| 4.0 * HALF_ULP),
    check("cos", cos, f64::cos, 1000.0, |v, _| {
        (4.0 + 2.0 * v.abs()) * HALF_ULP
    }),
    check("atan", atan, f64::atan, 1.0, |_, answer| {
        20.0 * HALF_ULP * answer.abs()
    }),
    check("atan", atan, f64::atan, 10.0, |_, answer| {
        20.0 * HALF_ULP * answer.abs()
    }),
    check("acos", acos, f64::acos, 1.0, |_, answer| {
        30.0 * HALF_ULP * answer.abs()
    }),
    check("exp", exp, f64::exp, 1.0, |_, answer| {
        8.0 * HALF_ULP * answer
    }),
    check("exp", exp, f64::exp, 700.0, |v, answer| {
        (8.0 + 2.0 * v.abs()) * HALF_ULP * answer
    }),
    positive("ln", ln, f64::ln, 3.0, |_, answer| {
        8.0 * HALF_ULP * (1.0 + answer.abs())
    }),
    positive("ln", ln, f64::ln, 1.0e6, |_, answer| {
        8.0 * HALF_ULP * (1.0 + answer.abs())
    }),
    positive("ln", ln, f64::ln, 1.0e-300, |_, answer| {
        8.0 * HALF_ULP * answer.abs()
    }),
];

type F = fn(f64) -> f64;
/// Name, step, library, lowest and highest argument.
type Single = (&'static str, fn(f32) -> f32, F, f64, f64);

const fn check(
    name: &'static str,
    step: F,
    library: F,
    high: f64,
    allowed: fn(f64, f64) -> f64,
) -> Check {
    Check {
        name,
        step,
        library,
        low: -high,
        high,
        allowed,
    }
}

const fn positive(
    name: &'static str,
    step: F,
    library: F,
    high: f64,
    allowed: fn(f64, f64) -> f64,
) -> Check {
    Check {
        low: 0.0,
        ..check(name, step, library, high, allowed)
    }
}

fn near_library() -> Result<(), String> {
    let mut random = Generator::new(7);
    for check in CHECKS {
        let mut worst: f64 = 0.0;
        for _ in 0..COUNT {
            let v = random.uniform(check.low, check.high);
            worst = worst.max(off(&check, v)?);
        }
        let Check {
            name, low, high, ..
        } = check;
        println!(
            "{name:<5} {low:>7e} to {high:<6e} {COUNT} compared, {worst:.2} of what is allowed"
        );
    }
    Ok(())
}

/// How much of what is allowed is used up; an error where it is more.
fn off(check: &Check, v: f64) -> Result<f64, String> {
    let (step, library) = ((check.step)(v), (check.library)(v));
    let used = (step - library).abs() / (check.allowed)(v, library);
    if used <= 1.0 || step == library {
        return Ok(if step == library { 0.0 } else { used });
    }
    Err(format!(
        "{} of {v:e}: step {step:e}, library {library:e}",
        check.name
    ))
}

/// f32 answers are at most one step away from the library's.
fn singles_near_library() -> Result<(), String> {
    let rows: [Single; 6] = [
        ("sin", f32::step_sin, f64::sin, -1000.0, 1000.0),
        ("cos", f32::step_cos, f64::cos, -1000.0, 1000.0),
        ("atan", f32::step_atan, f64::atan, -100.0, 100.0),
        ("acos", f32::step_acos, f64::acos, -1.0, 1.0),
        ("exp", f32::step_exp, f64::exp, -110.0, 90.0),
        ("ln", f32::step_ln, f64::ln, 0.0, 100.0),
    ];
    let mut random = Generator::new(8);
    for (name, step, library, low, high) in rows {
        for _ in 0..COUNT {
            let v = random.uniform(low, high) as f32;
            let (ours, theirs) = (step(v), library(f64::from(v)) as f32);
            if (i64::from(ours.to_bits()) - i64::from(theirs.to_bits())).abs() > 1 {
                return Err(format!(
                    "{name} of f32 {v:e}: step {ours:e}, library {theirs:e}"
                ));
            }
        }
        println!("{name:<5} {low:>7e} to {high:<6e} {COUNT} f32 compared");
    }
    Ok(())
}

/// Points that document 01 and its readings fix to the bit.
fn named_points() -> Result<(), String> {
    let infinity = f64::INFINITY;
    expect("sin -0", sin(-0.0), -0.0)?;
    expect("sin 1000 and a step", sin(1000.0f64.next_up()), f64::NAN)?;
    // Where only the second part of pi/2 is left, and no tolerance sees it.
    expect("sin pi", sin(2.0 * HALF_PI), 1.2246467991473532e-16)?;
    expect("cos pi/2", cos(HALF_PI), 6.123233995736766e-17)?;
    expect("cos 0", cos(0.0), 1.0)?;
    expect("cos -infinity", cos(-infinity), f64::NAN)?;
    expect("atan -0", atan(-0.0), -0.0)?;
    expect("atan -infinity", atan(-infinity), -HALF_PI)?;
    expect("atan NaN", atan(-f64::NAN), f64::NAN)?;
    expect("acos 1", acos(1.0), 0.0)?;
    expect("acos -1", acos(-1.0), 2.0 * HALF_PI)?;
    expect("acos 1 and a step", acos(1.0f64.next_up()), f64::NAN)?;
    expect("exp 0", exp(0.0), 1.0)?;
    expect("exp 700 and a step", exp(700.0f64.next_up()), infinity)?;
    expect("exp -700 and a step", exp((-700.0f64).next_down()), 0.0)?;
    expect("exp NaN", exp(f64::NAN), f64::NAN)?;
    expect("ln 1", ln(1.0), 0.0)?;
    expect("ln -0", ln(-0.0), -infinity)?;
    expect("ln infinity", ln(infinity), infinity)?;
    expect("ln below 0", ln(-power_of_two(-1074)), f64::NAN)?;
    expect("ln 2^-1074", ln(power_of_two(-1074)), -1074.0 * LN_2)?;
    powers()?;
    smaller_and_larger()
}

fn powers() -> Result<(), String> {
    let mut expected = f64::from_bits(1);
    expect("2^-1075", power_of_two(-1075), 0.0)?;
    for n in -1074..=1024 {
        expect("2^n", power_of_two(n), expected)?;
        expected *= 2.0;
    }
    Ok(())
}

fn smaller_and_larger() -> Result<(), String> {
    let nan = f64::NAN;
    expect("min NaN 1", nan.step_min(1.0), 1.0)?;
    expect("min 1 NaN", 1.0.step_min(nan), 1.0)?;
    expect("min NaN NaN", nan.step_min(nan), nan)?;
    expect("min -0 0", (-0.0).step_min(0.0), -0.0)?;
    expect("min 0 -0", 0.0.step_min(-0.0), 0.0)?;
    expect("min 1 2", 1.0.step_min(2.0), 1.0)?;
    expect("min 2 1", 2.0.step_min(1.0), 1.0)?;
    expect("max NaN 1", nan.step_max(1.0), 1.0)?;
    expect("max 1 NaN", 1.0.step_max(nan), 1.0)?;
    expect("max -0 0", (-0.0).step_max(0.0), -0.0)?;
    expect("max 0 -0", 0.0.step_max(-0.0), 0.0)?;
    expect("max 1 2", 1.0.step_max(2.0), 2.0)?;
    expect("max 2 1", 2.0.step_max(1.0), 2.0)
}

fn expect(what: &str, got: f64, expected: f64) -> Result<(), String> {
    if got.to_bits() == expected.to_bits() || got.is_nan() && expected.is_nan() {
        Ok(())
    } else {
        Err(format!("{what}: {got:e} and not {expected:e}"))
    }
}

#[cfg(test)]
mod tests {
    #[test]
    fn self_check_passes() {
        assert_eq!(super::run(), Ok(()));
    }
}
