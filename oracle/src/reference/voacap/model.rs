//! Stands in for the original's choice of model, asked only where a pole is
//! looked for in a file.

#[derive(Debug, Clone, Copy)]
pub enum Model {
    Compatible,
}

impl Model {
    pub fn reads_pole_file(self) -> bool {
        unreachable!("no pole is read from a file")
    }
}
