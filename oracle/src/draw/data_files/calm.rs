//! Coefficients of plausible size, so that sheets look like sheets. They are
//! sums, products and quotients only: every machine makes the same bytes.

use crate::draw::generator::Generator;
use crate::model::index_check::IndexTable;
use crate::reference::voacap::coefficients::RawMonthFile;
use std::array::from_fn;

/// A map at the lower and the higher of its two sunspot numbers.
pub type Planes<const I: usize, const J: usize> = [[[f32; I]; J]; 2];

/// What a map gives, in its own unit.
struct Shape {
    mean: f64,
    /// Comes on top at noon on the equator and is missing at midnight.
    day: f64,
    /// Comes on top at the poles.
    poles: f64,
    /// The size of all other terms before they fall off.
    rest: f64,
    /// From the lower to the higher of the two sunspot numbers. Near 1,
    /// since a sunspot number of 300 lies two or three times as far out.
    growth: f64,
}

const F2: Shape = shape(6.0, 1.8, -0.8, 0.5, 1.12);
const M3000: Shape = shape(3.0, 0.2, 0.1, 0.2, 0.99);
/// At midnight just above or below what the Rust takes for a bad value.
const E: Shape = shape(1.8, 1.4, -0.2, 0.08, 1.06);
/// The Rust takes map 1, the file's lower decile, for the upper one.
const ES_1: Shape = shape(4.4, 0.6, 0.2, 0.3, 1.05);
const ES_2: Shape = shape(3.1, 0.6, 0.2, 0.3, 1.05);
const ES_3: Shape = shape(2.0, 0.4, 0.1, 0.2, 1.05);

const fn shape(mean: f64, day: f64, poles: f64, rest: f64, growth: f64) -> Shape {
    Shape {
        mean,
        day,
        poles,
        rest,
        growth,
    }
}

pub fn f2_planes(random: &mut Generator, ikim: &IndexTable) -> Planes<13, 76> {
    planes(random, &F2, &ikim[3])
}

pub fn month(random: &mut Generator, ikim: &IndexTable) -> RawMonthFile {
    RawMonthFile {
        ikim: *ikim,
        fakp: noise(random, 20.0),
        fakabp: from_fn(|_| [40.0, -5.0].map(|v| around(random, v))),
        dud: noise(random, 2.0),
        fam: noise::<14, 12, 1>(random, 1.0)[0],
        sys: noise(random, 10.0),
        xfm3cf: planes(random, &M3000, &ikim[4]),
        f2d: noise(random, 1.0),
        perr: noise(random, 3.0),
        // Critical frequency of F1, 3 to 6 MHz over all cosines.
        anew: [3.1, 1.2, -0.2].map(|v| around(random, v)),
        bnew: [0.002, 0.004, -0.0005].map(|v| around(random, v)),
        // Largest zenith angle of F1, 70 to 90 degrees over all dips.
        achi: [73.5, 8.0].map(|v| around(random, v)),
        bchi: [0.01, 0.005].map(|v| around(random, v)),
        // Longitude decides, or the whole world might be of land.
        fakmap: series(random, 2.0, 0.5),
        abmap: [[-0.5, 0.1], [3.2, 0.1], [1.0, 1.0]].map(|row| row.map(|v| around(random, v))),
        xesmcf: planes(random, &ES_2, &ikim[1]),
        xpmap: height_ratio(random),
        xeslcf: planes(random, &ES_1, &ikim[0]),
        xesucf: planes(random, &ES_3, &ikim[2]),
        xercof: planes(random, &E, &ikim[5]),
    }
}

/// At most a twentieth away from `v`.
fn around(random: &mut Generator, v: f64) -> f32 {
    (v * random.uniform(0.95, 1.05)) as f32
}

/// No figure of document 01 comes from the noise tables; only their words
/// are compared.
fn noise<const I: usize, const J: usize, const K: usize>(
    random: &mut Generator,
    size: f64,
) -> [[[f32; I]; J]; K] {
    from_fn(|_| from_fn(|_| from_fn(|_| random.uniform(-size, size) as f32)))
}

fn planes<const I: usize, const J: usize>(
    random: &mut Generator,
    shape: &Shape,
    ladder: &[i32; 10],
) -> Planes<I, J> {
    let lower: [[f64; I]; J] = plane(random, shape, ladder);
    let higher = from_fn(|row| {
        from_fn(|i| {
            lower[row][i] * shape.growth + small_term(random, 0.1 * shape.rest, row, i.div_ceil(2))
        })
    });
    [lower, higher].map(|plane| plane.map(|row: [f64; I]| row.map(|v| v as f32)))
}

/// A row is a geographic function's: its mean, then sine and cosine of each
/// harmonic of the time.
fn plane<const I: usize, const J: usize>(
    random: &mut Generator,
    shape: &Shape,
    ladder: &[i32; 10],
) -> [[f64; I]; J] {
    let mut rows: [[f64; I]; J] =
        from_fn(|row| from_fn(|i| small_term(random, shape.rest, row, i.div_ceil(2))));
    rows[0][0] = shape.mean * random.uniform(0.95, 1.05);
    if ladder[0] >= 2 {
        rows[2][0] += shape.poles;
    }
    // cos(longitude) and sin(longitude) follow the powers of the sine; with
    // the time they make the cosine of the local hour. A table that is to be
    // refused may hold any word.
    let east = ladder[0].max(0) as usize + 1;
    if east + 1 < J {
        rows[east][2] += shape.day;
        rows[east + 1][1] -= shape.day;
    }
    rows
}

fn small_term(random: &mut Generator, size: f64, row: usize, harmonic: usize) -> f64 {
    random.uniform(-size, size) / ((1 + row) * (1 + harmonic)) as f64
}

/// Coefficients of `noisy`: a row for each harmonic of half the longitude,
/// and the last one without it. Of the first, which keeps its sign around
/// the world, and of the last the size is `even`.
fn series(random: &mut Generator, size: f64, even: f64) -> [[f32; 29]; 16] {
    from_fn(|k| {
        let (size, k) = match k {
            0 | 15 => (even, 0),
            _ => (size, k),
        };
        from_fn(|j| small_term(random, size, k, j) as f32)
    })
}

fn height_ratio(random: &mut Generator) -> Planes<29, 16> {
    let lower = series(random, 0.9, 0.9);
    let change = series(random, 0.05, 0.05);
    let higher = from_fn(|k| from_fn(|j| lower[k][j] + change[k][j]));
    [lower, higher]
}
