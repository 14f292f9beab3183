//! The Rust that the port is compared with, as `build.rs` prepared it, and
//! stand-ins for what it leans on. No stand-in gives a number.

macro_rules! source {
    ($file:literal) => {
        #[allow(unused_imports)]
        use crate::reference::steps::Step;
        include!(concat!(env!("OUT_DIR"), "/", $file));
    };
}

#[allow(dead_code, clippy::all)]
pub mod con {
    source!("constants.rs");
}

#[allow(dead_code, clippy::all)]
pub mod coefficients {
    source!("coefficients.rs");
}

#[allow(dead_code, clippy::all)]
pub mod magnetic {
    source!("magnetic.rs");
}

#[allow(dead_code, clippy::all)]
pub mod geometry {
    source!("geometry.rs");
}

#[allow(dead_code, clippy::all)]
pub mod ionosphere {
    source!("ionosphere.rs");
}

/// The same source with its branches counted.
#[allow(dead_code, clippy::all)]
pub mod counted_magnetic {
    source!("counted_magnetic.rs");
}

/// The same source with its branches counted.
#[allow(dead_code, clippy::all)]
pub mod counted_geometry {
    source!("counted_geometry.rs");
}

/// The same source with its branches counted.
#[allow(dead_code, clippy::all)]
pub mod counted_ionosphere {
    source!("counted_ionosphere.rs");
}

#[allow(dead_code)]
pub mod data;
#[allow(dead_code)]
pub mod fastmath;
#[allow(dead_code)]
pub mod lattice;
#[allow(dead_code)]
pub mod model;

#[cfg(test)]
mod tests {
    use super::coefficients::{parse_month_file, redmap, FoF2Model, F2_RECORD_BYTES};
    use super::data;
    use std::path::Path;

    const RECORDS: [u32; 9] = [240, 11184, 5328, 3528, 3168, 1920, 7128, 4400, 1584];

    fn month_file() -> Vec<u8> {
        let mut bytes = Vec::new();
        for size in RECORDS {
            bytes.extend(size.to_le_bytes());
            bytes.resize(bytes.len() + size as usize, 0);
            bytes.extend(size.to_le_bytes());
        }
        bytes
    }

    #[test]
    fn redmap_reads_files_from_memory() {
        let mut planes = vec![0; F2_RECORD_BYTES];
        planes[..4].copy_from_slice(&2.0f32.to_le_bytes());
        data::put("coeffs/fof2CCIR.daw", planes);
        data::put("coeffs/coeff01w.bin", month_file());
        let set = redmap(Path::new(""), FoF2Model::Ccir, 1, 50.0).expect("both files are there");
        assert_eq!(set.f2cof[0][0], 1.0);
        data::clear();
        assert!(redmap(Path::new(""), FoF2Model::Ccir, 1, 50.0).is_err());
    }

    #[test]
    fn private_parts_can_be_called() {
        let raw = parse_month_file(&month_file(), "month").expect("a good file");
        assert_eq!(raw.xercof[1][21][8], 0.0);
        assert_eq!(FoF2Model::Ursi.daw_name(), "fof2URSI.daw");
    }
}
