//! Finds what is measured beside the archive: the Rust's file, which is never copied into the repository, and SQLite where it is there.

use std::path::Path;
use std::{env, process};

/// From this folder; the environment variable names another one.
const FOLDER: &str = "../../shared/docs/src";
const VARIABLE: &str = "DANGSOVIEY_RUST";
const FILE: &str = "functions/datetime.rs";

const SQLITE: &str = "/usr/include/sqlite3.h";

fn main() {
    let here = env::var_os("CARGO_MANIFEST_DIR").unwrap();
    let folder = env::var_os(VARIABLE).unwrap_or(FOLDER.into());
    let file = Path::new(&here).join(folder).join(FILE);
    if !file.is_file() {
        eprintln!("bench: {} is not there", file.display());
        process::exit(1);
    }
    println!("cargo:rustc-env=RUST_DATETIME={}", file.display());
    println!("cargo:rerun-if-changed={}", file.display());
    println!("cargo:rerun-if-env-changed={VARIABLE}");

    println!("cargo:rustc-check-cfg=cfg(sqlite)");
    println!("cargo:rerun-if-changed={SQLITE}");
    if Path::new(SQLITE).is_file() {
        println!("cargo:rustc-cfg=sqlite");
        println!("cargo:rustc-link-lib=sqlite3");
    }
    println!("cargo:rerun-if-changed=build.rs");
}
