//! What the conditions of the counted sources decide.

use std::cell::RefCell;

/// A condition of the counted sources.
#[derive(Debug)]
pub struct Branch {
    pub file: &'static str,
    pub line: u32,
    pub function: &'static str,
    pub condition: &'static str,
}

impl Branch {
    /// Of the clocks, which no sheet asks.
    pub fn is_clock(&self) -> bool {
        ["cngtim", "geotim"].contains(&self.function)
    }
}

// `BRANCHES`, as `build.rs` found them.
include!(concat!(env!("OUT_DIR"), "/branches.rs"));

/// The number of a condition, and whether it held.
pub type Side = (usize, bool);

thread_local! {
    static TRAIL: RefCell<Vec<Side>> = const { RefCell::new(Vec::new()) };
}

/// Stands around each condition of the counted sources.
pub fn note(branch: usize, holds: bool) -> bool {
    TRAIL.with_borrow_mut(|trail| trail.push((branch, holds)));
    holds
}

/// What was decided since the last call, in its order.
pub fn take() -> Vec<Side> {
    TRAIL.take()
}

/// For each condition, how often it was false and how often true.
pub type Counts = [[u64; 2]; BRANCHES.len()];

pub fn counts(trail: &[Side]) -> Counts {
    let mut counts = [[0; 2]; BRANCHES.len()];
    add(&mut counts, trail);
    counts
}

pub fn add(counts: &mut Counts, trail: &[Side]) {
    for (branch, holds) in trail {
        counts[*branch][usize::from(*holds)] += 1;
    }
}

/// Which conditions a command runs.
pub type Part = fn(&Branch) -> bool;

/// The conditions of a part with their counts.
fn within(counts: &Counts, part: Part) -> impl Iterator<Item = (&'static Branch, [u64; 2])> + '_ {
    let all = BRANCHES.iter().zip(counts.iter().copied());
    all.filter(move |(branch, _)| part(branch))
}

pub fn print(counts: &Counts, part: Part) {
    println!("{:<18} {:>7} {:>7}  condition", "line", "true", "false");
    for (branch, [no, yes]) in within(counts, part) {
        let Branch {
            file,
            line,
            condition,
            ..
        } = branch;
        println!("{file:<13} {line:>4} {yes:>7} {no:>7}  {condition}");
    }
}

/// Every condition must have gone both ways, except that the sides in `never`
/// cannot be taken and must not have been.
pub fn refuse_untaken(counts: &Counts, part: Part, never: &[(&str, bool)]) -> Result<(), String> {
    for (branch, sides) in within(counts, part) {
        let Branch {
            file,
            line,
            condition,
            ..
        } = branch;
        for (holds, count) in [false, true].into_iter().zip(sides) {
            let possible = !never.contains(&(condition, holds));
            if possible != (count > 0) {
                return Err(format!(
                    "{file}:{line}: {condition} is {holds} {count} times"
                ));
            }
        }
    }
    Ok(())
}
