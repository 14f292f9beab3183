//! `bulk-lists COUNT SEED` and `bulk-year-lists COUNT SEED`: lists of calls through
//! the port's library beside the model of the desks, over pairs of files and over
//! year files: every answer, every buffer, and the worksheet's words after each
//! call.

mod beside;
mod compared;
mod drawn;
#[cfg(test)]
mod tests;

#[cfg(linked)]
pub fn over_pairs(count: &str, seed: &str) -> Result<(), String> {
    run(drawn::pair, count, seed)
}

#[cfg(linked)]
pub fn over_years(count: &str, seed: &str) -> Result<(), String> {
    run(drawn::year, count, seed)
}

#[cfg(linked)]
fn run(files: drawn::Draw, count: &str, seed: &str) -> Result<(), String> {
    use super::whole;
    let library = crate::port::lists::Library;
    compared::run(&library, files, whole(count)?, whole(seed)?)
}
