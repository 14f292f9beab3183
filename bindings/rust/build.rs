//! Links libjutetrowel.a from the folder that JUTETROWEL_LIB names, and says so to the build script of a
//! package that takes this one (`DEP_JUTETROWEL_LINKED`). With the feature `optional` the variable may be
//! unset: then nothing is linked, and nothing may be called.

use std::path::Path;
use std::{env, process};

fn main() {
    println!("cargo::rerun-if-env-changed=JUTETROWEL_LIB");
    let Some(folder) = env::var_os("JUTETROWEL_LIB") else {
        if env::var_os("CARGO_FEATURE_OPTIONAL").is_some() {
            return;
        }
        fail("JUTETROWEL_LIB is not set: it names the folder that holds libjutetrowel.a");
    };
    let library = Path::new(&folder).join("libjutetrowel.a");
    if !library.is_file() {
        fail(&format!("JUTETROWEL_LIB: no {}", library.display()));
    }
    println!("cargo::rerun-if-changed={}", library.display());
    println!(
        "cargo::rustc-link-search=native={}",
        Path::new(&folder).display()
    );
    println!("cargo::rustc-link-lib=static=jutetrowel");
    println!("cargo::metadata=linked=true");
}

fn fail(message: &str) -> ! {
    println!("cargo::error={message}");
    process::exit(1);
}
