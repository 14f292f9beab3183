//! `time-numbers`: the port's exported functions and the Rust's, timed in
//! one run by one driver over the same arguments.

use crate::draw::generator::Generator;
use crate::port::numbers as port;
use crate::reference::numbers as reference;
use std::hint::black_box;
use std::time::Instant;

const ARGUMENTS: usize = 4096;
const ROUNDS: usize = 8;
const REPEATS: usize = 15;

type One<A, B> = extern "C" fn(A) -> B;
type Two = extern "C" fn(f32, f32) -> f32;

pub fn run() -> Result<(), String> {
    println!("nanoseconds for a call, best of {REPEATS}; independent calls, then a chain");
    println!("function      port    Rust   ratio      port    Rust   ratio");
    plain_functions();
    elementary_functions();
    Ok(())
}

macro_rules! time {
    ($name:ident, $arguments:expr) => {
        one(
            stringify!($name),
            port::$name,
            reference::$name,
            &$arguments,
        )
    };
}

fn plain_functions() {
    time!(abs32, singles(-1000.0, 1000.0));
    time!(abs64, doubles(-1000.0, 1000.0));
    two("min", port::min, reference::min);
    two("max", port::max, reference::max);
    two("sign", port::sign, reference::sign);
    time!(widen, singles(-1000.0, 1000.0));
    time!(narrow, doubles(-1000.0, 1000.0));
    time!(sqrt64, doubles(0.0, 1000.0));
    time!(sqrt32, singles(0.0, 1000.0));
    time!(to_i32, singles(-1.0e6, 1.0e6));
    time!(from_i32, integers());
    time!(to_u64, doubles(0.0, 1.0e6));
}

fn elementary_functions() {
    time!(sin64, doubles(-10.0, 10.0));
    time!(cos64, doubles(-10.0, 10.0));
    time!(atan64, doubles(-10.0, 10.0));
    time!(acos64, doubles(-1.0, 1.0));
    time!(exp64, doubles(-10.0, 10.0));
    time!(ln64, doubles(0.01, 100.0));
    time!(sin32, singles(-10.0, 10.0));
    time!(cos32, singles(-10.0, 10.0));
    time!(atan32, singles(-10.0, 10.0));
    time!(acos32, singles(-1.0, 1.0));
    time!(exp32, singles(-10.0, 10.0));
    time!(ln32, singles(0.01, 100.0));
}

fn doubles(low: f64, high: f64) -> Vec<f64> {
    let mut random = Generator::new(1);
    (0..ARGUMENTS).map(|_| random.uniform(low, high)).collect()
}

fn singles(low: f64, high: f64) -> Vec<f32> {
    doubles(low, high).into_iter().map(|v| v as f32).collect()
}

fn integers() -> Vec<i32> {
    doubles(-1.0e9, 1.0e9)
        .into_iter()
        .map(|v| v as i32)
        .collect()
}

fn one<A: Bits, B: Bits>(name: &str, port: One<A, B>, rust: One<A, B>, arguments: &[A]) {
    // The same closure type for both sides, so the same driver code. The
    // pointer is hidden from the compiler, so both are calls.
    let side = |f: One<A, B>| {
        let f = black_box(f);
        move |a: A| f(a)
    };
    report(name, side(port), side(rust), arguments);
}

fn two(name: &str, port: Two, rust: Two) {
    let left = singles(-1000.0, 1000.0);
    let right = left.iter().rev();
    let arguments: Vec<(f32, f32)> = left.iter().copied().zip(right.copied()).collect();
    let side = |f: Two| {
        let f = black_box(f);
        move |(a, b): (f32, f32)| f(a, b)
    };
    report(name, side(port), side(rust), &arguments);
}

fn report<A: Bits, B: Bits, F: Fn(A) -> B>(name: &str, port: F, rust: F, arguments: &[A]) {
    let (port_calls, rust_calls) = best(&port, &rust, |f| independent(f, arguments));
    let (port_chain, rust_chain) = best(&port, &rust, |f| chain(f, arguments));
    println!(
        "{name:<9} {port_calls:>8.2}{rust_calls:>8.2}{:>8.2}  {port_chain:>8.2}{rust_chain:>8.2}{:>8.2}",
        port_calls / rust_calls,
        port_chain / rust_chain,
    );
}

/// The best time of each side, taken in turn so that a slow moment of
/// the machine meets both.
fn best<F>(port: &F, rust: &F, round: impl Fn(&F)) -> (f64, f64) {
    let mut bests = (f64::INFINITY, f64::INFINITY);
    for _ in 0..REPEATS {
        bests.0 = bests.0.min(nanoseconds(port, &round));
        bests.1 = bests.1.min(nanoseconds(rust, &round));
    }
    bests
}

#[inline(never)]
fn nanoseconds<F>(f: &F, round: &impl Fn(&F)) -> f64 {
    let start = Instant::now();
    for _ in 0..ROUNDS {
        round(f);
    }
    start.elapsed().as_secs_f64() * 1.0e9 / (ROUNDS * ARGUMENTS) as f64
}

#[inline(never)]
fn independent<A: Bits, B: Bits>(f: &impl Fn(A) -> B, arguments: &[A]) {
    let mut sum = 0;
    for a in arguments {
        sum ^= f(*a).bits();
    }
    black_box(sum);
}

/// Each argument waits for the answer before it: the answer's bits under
/// a mask of 0 that the compiler cannot know.
#[inline(never)]
fn chain<A: Bits, B: Bits>(f: &impl Fn(A) -> B, arguments: &[A]) {
    let mask = black_box(0);
    let mut last = 0;
    for a in arguments {
        last = f(a.mixed(last & mask)).bits();
    }
    black_box(last);
}

/// Bits without the folding of NaNs, which would cost time.
trait Bits: Copy {
    fn bits(self) -> u64;
    fn mixed(self, bits: u64) -> Self;
}

impl Bits for f32 {
    fn bits(self) -> u64 {
        self.to_bits().into()
    }
    fn mixed(self, bits: u64) -> Self {
        f32::from_bits(self.to_bits() ^ bits as u32)
    }
}

impl Bits for f64 {
    fn bits(self) -> u64 {
        self.to_bits()
    }
    fn mixed(self, bits: u64) -> Self {
        f64::from_bits(self.to_bits() ^ bits)
    }
}

impl Bits for i32 {
    fn bits(self) -> u64 {
        self as u64
    }
    fn mixed(self, bits: u64) -> Self {
        self ^ bits as i32
    }
}

impl Bits for u64 {
    fn bits(self) -> u64 {
        self
    }
    fn mixed(self, bits: u64) -> Self {
        self ^ bits
    }
}

impl Bits for (f32, f32) {
    fn bits(self) -> u64 {
        self.0.bits() ^ self.1.bits()
    }
    fn mixed(self, bits: u64) -> Self {
        (self.0.mixed(bits), self.1.mixed(bits))
    }
}
