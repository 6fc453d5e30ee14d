//! Finds the proved static library, which the script `staticlib` of the workspace
//! writes to `target/staticlib` at the root of the repository.

use std::env;
use std::path::PathBuf;

const DIRECTORY_OVERRIDE: &str = "BROOKSADDLE_LIB";
const LIBRARY: &str = "libbrooksaddle.a";

fn main() {
    println!("cargo::rerun-if-env-changed={DIRECTORY_OVERRIDE}");
    let directory = library_directory();
    let library = directory.join(LIBRARY);
    println!("cargo::rerun-if-changed={}", library.display());
    if !library.is_file() {
        println!(
            "cargo::error={} is missing: run `rust/staticlib` at the root of the repository, \
             or give {DIRECTORY_OVERRIDE} the full path of the directory it is in",
            library.display()
        );
        return;
    }
    println!("cargo::rustc-link-search=native={}", directory.display());
    println!("cargo::rustc-link-lib=static=brooksaddle");
}

fn library_directory() -> PathBuf {
    let directory = match env::var_os(DIRECTORY_OVERRIDE) {
        Some(directory) => PathBuf::from(directory),
        None => this_crate().join("../../target/staticlib"),
    };
    // The linker is not run in this script's directory.
    directory.canonicalize().unwrap_or(directory)
}

fn this_crate() -> PathBuf {
    PathBuf::from(env::var_os("CARGO_MANIFEST_DIR").expect("cargo sets CARGO_MANIFEST_DIR"))
}
