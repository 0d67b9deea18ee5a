//! Finds the static library of the proved planner and has it linked.

use std::env;
use std::path::PathBuf;

/// Names a directory to take the library from instead of the usual one.
const DIRECTORY_VARIABLE: &str = "SAILGARNET_LIB_DIR";
/// Where the repository builds the library, seen from this crate.
const USUAL_DIRECTORY: &str = "../../target/staticlib";
const LIBRARY: &str = "libsailgarnet.a";
/// By how many bytes the benchmark moves its code.
const SHIFT_VARIABLE: &str = "SAILGARNET_SHIFT";

fn main() {
    println!("cargo::rerun-if-env-changed={DIRECTORY_VARIABLE}");
    println!("cargo::rerun-if-env-changed={SHIFT_VARIABLE}");
    println!("cargo::rerun-if-changed=build.rs");
    let shift = env::var(SHIFT_VARIABLE).unwrap_or_else(|_| "0".to_string());
    println!("cargo::rustc-env={SHIFT_VARIABLE}={shift}");
    if env::var_os("CARGO_FEATURE_LINK").is_some() {
        link();
    }
}

fn link() {
    let directory = library_directory();
    let library = directory.join(LIBRARY);
    println!("cargo::rerun-if-changed={}", library.display());
    if library.is_file() {
        println!("cargo::rustc-link-search=native={}", directory.display());
        println!("cargo::rustc-link-lib=static=sailgarnet");
    } else {
        println!(
            "cargo::error=there is no {}; build the planner's static library first, \
             name its directory in {DIRECTORY_VARIABLE}, or build without the default features",
            library.display()
        );
    }
}

fn library_directory() -> PathBuf {
    match env::var_os(DIRECTORY_VARIABLE) {
        Some(directory) => directory.into(),
        None => {
            let crate_directory = env::var_os("CARGO_MANIFEST_DIR").expect("set by cargo");
            PathBuf::from(crate_directory).join(USUAL_DIRECTORY)
        }
    }
}
