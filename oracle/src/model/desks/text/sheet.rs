//! A sheet as `desk` prints it: the 15 fields in words, the six figures of the
//! path, and those of the points side by side.

use super::unsaid;
use crate::model::desks::fields::{range, Inputs, Range, FIELDS};
use crate::model::desks::lent::Shown;
use crate::model::desks::page::{decimals, Named, PATH, POINT};
use crate::reference::sheets::ROW;

pub fn sheet(inputs: &Inputs, shown: &Shown) -> String {
    let parts = [fields(inputs), path(shown), points(shown)];
    parts.map(|lines| lines.join("\n") + "\n").join("\n")
}

/// A line for each field, without its end.
pub fn fields(inputs: &Inputs) -> Vec<String> {
    let line = |(field, named): (usize, Named)| {
        let value = value(field, inputs[field - 1]);
        row(unsaid::FIELD_NAME, named, &[value], unsaid::NUMBER)
    };
    (1..=FIELDS).zip(unsaid::FIELDS).map(line).collect()
}

/// Flag and model in words; both are 0 or 1 in what is shown.
fn value(field: usize, word: u32) -> String {
    match (field, range(field)) {
        (8, _) => String::from(unsaid::FLAGS[word as usize]),
        (FIELDS, _) => String::from(unsaid::MODELS[word as usize]),
        (_, Range::Whole(..)) => word.to_string(),
        (_, Range::Number(..)) => decimals(word),
    }
}

fn path(shown: &Shown) -> Vec<String> {
    let figures = PATH.iter().zip(shown.words);
    let line =
        |(named, word): (&Named, u32)| figures_row(unsaid::PATH_NAME, *named, &[decimals(word)]);
    figures.map(line).collect()
}

/// Under a line with the points' numbers.
fn points(shown: &Shown) -> Vec<String> {
    let points = 1..=shown.points as usize;
    let numbers: Vec<String> = points.clone().map(|number| number.to_string()).collect();
    let mut lines = vec![figures_row(
        unsaid::POINT_NAME,
        (unsaid::POINTS, ""),
        &numbers,
    )];
    for (k, named) in POINT.iter().enumerate() {
        let figure = |point: usize| decimals(shown.words[PATH.len() + ROW * (point - 1) + k]);
        let figures: Vec<String> = points.clone().map(figure).collect();
        lines.push(figures_row(unsaid::POINT_NAME, *named, &figures));
    }
    lines
}

/// The same with a blank before each of the figures.
fn figures_row(width: usize, named: Named, figures: &[String]) -> String {
    row(width, named, figures, unsaid::NUMBER + 1)
}

/// A name, values each at the end of so many characters, and the unit if there is
/// one.
fn row(width: usize, (name, unit): Named, values: &[String], number: usize) -> String {
    let values: String = values
        .iter()
        .map(|value| format!("{value:>number$}"))
        .collect();
    let blanks = if unit.is_empty() { "" } else { "  " };
    format!("{name:<width$}{values}{blanks}{unit}")
}
