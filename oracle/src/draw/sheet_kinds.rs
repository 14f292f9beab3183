//! Random sheets: fields in document 01's ranges, their ends more often than
//! chance would have them, and fields outside.

use crate::draw::generator::Generator;
use crate::draw::route_kinds::of_any_kind;
use crate::model::desks::fields::{check, with_model, Inputs, CCIR, URSI};
use crate::reference::sheets::Sheet;

/// What is in no range of document 01, or only just.
const OUTSIDE: [f32; 16] = [
    f32::NAN,
    f32::INFINITY,
    f32::NEG_INFINITY,
    f32::MAX,
    -0.0,
    0.0,
    1.0e-40,
    -1.0,
    24.000002,
    -103.0,
    181.0,
    -540.0,
    300.00003,
    57_295.0,
    1.0e10,
    -1.0e30,
];

pub fn in_range(random: &mut Generator) -> Sheet {
    Sheet {
        month: random.between(1, 12) as u32,
        ssn: sunspots(random),
        gmt: hour(random),
        route: of_any_kind(random),
        psc: factors(random),
    }
}

/// The same as a worksheet's inputs, with the model of a sheet over a pair of
/// files.
pub fn inputs(random: &mut Generator) -> Inputs {
    with_model(in_range(random).words(), CCIR)
}

/// With either model.
pub fn year_inputs(random: &mut Generator) -> Inputs {
    let model = one_of(random, &[CCIR, URSI]);
    with_model(in_range(random).words(), model)
}

/// Whether every field is in its range.
pub fn is_in_range(sheet: &Sheet) -> bool {
    check(1, &sheet.words()).is_ok()
}

/// Some are those at which a blend takes one plane alone.
fn sunspots(random: &mut Generator) -> f32 {
    match random.below(6) {
        0 => one_of(random, &[0.0, 300.0]),
        1 => one_of(random, &[10.0, 25.0, 100.0, 125.0, 150.0]),
        2 => random.between(0, 300) as f32,
        _ => random.uniform(0.0, 300.0) as f32,
    }
}

fn hour(random: &mut Generator) -> f32 {
    match random.below(4) {
        0 => one_of(random, &[0.0, 12.0, 24.0]),
        1 => random.between(0, 24) as f32,
        _ => random.uniform(0.0, 24.0) as f32,
    }
}

fn factors(random: &mut Generator) -> [f32; 4] {
    match random.below(3) {
        0 => [1.0; 4],
        _ => [(); 4].map(|()| factor(random)),
    }
}

fn factor(random: &mut Generator) -> f32 {
    match random.below(4) {
        0 => one_of(random, &[0.125, 1.0, 8.0]),
        1 => random.scaled(-3, 2) as f32,
        _ => random.uniform(0.5, 2.0) as f32,
    }
}

pub fn one_of<T: Copy>(random: &mut Generator, values: &[T]) -> T {
    values[random.below(values.len() as u64) as usize]
}

/// One number or more replaced, which leaves the ranges as a rule.
fn replaced(random: &mut Generator, mut draw: impl FnMut(&mut Generator) -> f32) -> Sheet {
    let mut sheet = in_range(random);
    // One alone more often, or hardly a figure would be left.
    let chosen = match random.below(3) {
        0 => 1 + random.below((1 << 12) - 1),
        _ => 1 << random.below(12),
    };
    for (i, number) in sheet.numbers().into_iter().enumerate() {
        if chosen >> i & 1 == 1 {
            *number = draw(random);
        }
    }
    sheet
}

pub fn outside(random: &mut Generator) -> Sheet {
    replaced(random, |random| one_of(random, &OUTSIDE))
}

pub fn any_bits(random: &mut Generator) -> Sheet {
    replaced(random, Generator::any_number)
}

#[cfg(test)]
mod tests {
    use super::{any_bits, in_range, is_in_range, outside};
    use crate::draw::generator::Generator;

    #[test]
    fn sheets_are_in_range_where_they_shall_be() {
        let mut random = Generator::new(1);
        for _ in 0..10_000 {
            assert!(is_in_range(&in_range(&mut random)));
        }
        for draw in [outside, any_bits] {
            let inside = (0..1000).filter(|_| is_in_range(&draw(&mut random)));
            assert!(inside.count() < 300);
        }
    }
}
