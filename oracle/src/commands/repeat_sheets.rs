//! `repeat-sheets SIDE KIND COUNT`: COUNT sheets of one kind, or one part of
//! as many, or maps at an hour, or paths near the poles or anywhere, by one side,
//! and nothing else that depends on COUNT, for a tool that counts instructions.

use crate::commands::parts::{Part, Parts};
use crate::commands::sides::{Sides, Wrong};
use crate::commands::time_hours::{Hours, KINDS};
use crate::commands::time_paths::{by_port, by_rust, paths};
use crate::commands::whole;
use crate::draw::data_files::named;

pub fn run(side: &str, kind: &str, count: &str) -> Result<(), String> {
    let count = whole(count)?;
    let port = match side {
        "port" => true,
        "rust" => false,
        _ => return Err(format!("{side} is no side: port or rust")),
    };
    if let Some(part) = Part::named(kind) {
        let [(_, pair), ..] = named();
        let parts = Parts::of(pair);
        repeat(&parts.cases, count, |case| match port {
            true => parts.port(part, case),
            false => parts.rust(part, case),
        });
        return Ok(());
    }
    if let Some(paths) = kind.strip_prefix("path ").and_then(paths) {
        repeat(&paths, count, |case| match port {
            true => by_port(case),
            false => by_rust(case),
        });
        return Ok(());
    }
    if let Some(hours) = kind.strip_prefix("hour ").and_then(Hours::of) {
        repeat(&hours.cases, count, |case| match port {
            true => hours.port(case),
            false => hours.rust(case),
        });
        return Ok(());
    }
    let sides = sides(kind)?;
    sides.assert_alike();
    repeat(&sides.cases, count, |case| match port {
        true => sides.port(case),
        false => sides.rust(case),
    });
    Ok(())
}

fn sides(kind: &str) -> Result<Sides, String> {
    let [(_, pair), ..] = named();
    let sides = match kind {
        "marker" => Sides::refused(pair, Wrong::Marker),
        "half" => Sides::refused(pair, Wrong::Half),
        points => Sides::whole(pair, whole(points)? as u32),
    };
    sides.ok_or_else(|| {
        let hours = KINDS.map(|kind| format!("hour {kind}")).join(", ");
        format!("{kind} is no kind: 1, 3, 5, marker, half, a part's name, path near poles, path anywhere, {hours}")
    })
}

/// The same cases again and again, in their order.
fn repeat<T>(cases: &[T], count: u64, one: impl Fn(&T)) {
    for case in cases.iter().cycle().take(count as usize) {
        one(case);
    }
}
