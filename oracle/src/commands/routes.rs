//! `routes FILE`: the vectors of path geometry and magnetic field, in rows of
//! 49 little-endian u32: the route, the six numbers of the path, the number
//! of points, the five points.

mod edges;
mod odd;
mod ordinary;
mod searched;

use super::put_file;
use crate::month_file::push_words;
use crate::reference::branches::{self, Branch, Counts};
use crate::reference::routes::{counted, plain, Route};

const WORDS: usize = 49;
/// The first word of a heading: a NaN with which no route starts.
const HEADING: u32 = u32::MAX;
const NAME_BYTES: usize = 32;

/// A group's name and its routes.
type Group = (&'static str, Vec<Route>);

fn is_counted(branch: &Branch) -> bool {
    ["magnetic.rs", "geometry.rs"].contains(&branch.file)
}

pub fn run(file: &str) -> Result<(), String> {
    let groups = groups();
    let (bytes, counts) = vectors(&groups)?;
    print_groups(&groups);
    branches::print(&counts, is_counted);
    branches::refuse_untaken(&counts, is_counted, &[])?;
    println!("{} rows, {} bytes", bytes.len() / 4 / WORDS, bytes.len());
    put_file(file, &bytes)
}

fn groups() -> Vec<Group> {
    let mut groups = ordinary::groups();
    groups.extend(edges::groups());
    groups.extend(searched::groups());
    let rare = searched::rare(&groups);
    groups.push(("branches seldom taken", rare));
    groups.extend(odd::groups());
    groups
}

/// The file's bytes, and what the counted sources decided on the way.
fn vectors(groups: &[Group]) -> Result<(Vec<u8>, Counts), String> {
    let mut bytes = Vec::new();
    // The searches have left notes.
    branches::take();
    for (name, routes) in groups {
        push_heading(&mut bytes, name);
        for route in routes {
            push_words(&mut bytes, &row(route)?);
        }
    }
    Ok((bytes, branches::counts(&branches::take())))
}

/// The name's bytes, filled up with zeros.
pub fn push_heading(bytes: &mut Vec<u8>, name: &str) {
    assert!(name.len() <= NAME_BYTES, "{name} is too long");
    let end = bytes.len() + 4 * WORDS;
    push_words(bytes, &[HEADING]);
    bytes.extend(name.as_bytes());
    bytes.resize(end, 0);
}

/// The answers of the plain sources, from which the counted must not differ.
pub fn row(route: &Route) -> Result<Vec<u32>, String> {
    let (path, other) = (plain(route), counted(route));
    let words = path.words();
    if (other.points, other.words()) != (path.points, words) {
        return Err(format!("{route:?}: the counted sources differ"));
    }
    let (ends, points) = words.split_at(6);
    Ok([&route.words(), ends, &[path.points], points].concat())
}

fn print_groups(groups: &[Group]) {
    for (name, routes) in groups {
        println!("{name:<NAME_BYTES$} {:>4} routes", routes.len());
    }
    let total: usize = groups.iter().map(|(_, routes)| routes.len()).sum();
    println!("{:<NAME_BYTES$} {total:>4} routes", "in all");
}

#[cfg(test)]
mod tests {
    use super::{groups, is_counted, vectors, HEADING};
    use crate::reference::branches::refuse_untaken;

    #[test]
    fn vectors_take_every_branch_and_are_the_same_each_time() {
        let groups = groups();
        let (bytes, counts) = vectors(&groups).expect("both variants agree");
        assert_eq!(refuse_untaken(&counts, is_counted, &[]), Ok(()));
        assert!(bytes.len() < 200_000, "{} bytes", bytes.len());
        for (_, routes) in groups {
            assert!(routes.iter().all(|route| route.words()[0] != HEADING));
        }
        assert!(vectors(&super::groups()).is_ok_and(|(again, _)| again == bytes));
    }
}
