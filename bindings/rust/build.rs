//! Finds the archive, or has it built. The environment variable names another one than the repository's.

use std::path::{Path, PathBuf};
use std::process::Command;
use std::{env, process};

const VARIABLE: &str = "DANGSOVIEY_LIB";
/// From this folder.
const ROOT: &str = "../..";
/// From the root; `BUILD` writes it.
const ARCHIVE: &str = "target/staticlib/libdangsoviey.a";
const BUILD: &str = "tools/build";

fn main() {
    println!("cargo:rerun-if-env-changed={VARIABLE}");
    println!("cargo:rerun-if-changed=build.rs");

    let archive = match env::var_os(VARIABLE) {
        Some(named) => PathBuf::from(named),
        None => own(),
    };
    let archive = archive
        .canonicalize()
        .unwrap_or_else(|e| stop(format!("{} is not there: {e}", archive.display())));
    let (Some(folder), Some(name)) = (archive.parent(), archive.file_name()) else {
        stop(format!("{} is no file", archive.display()))
    };

    println!("cargo:rerun-if-changed={}", archive.display());
    println!("cargo:rustc-link-search=native={}", folder.display());
    println!("cargo:rustc-link-lib=static:+verbatim={}", name.to_string_lossy());
}

/// The repository's archive, which is proved and written where it is missing.
fn own() -> PathBuf {
    let here = env::var_os("CARGO_MANIFEST_DIR").unwrap();
    let root = Path::new(&here).join(ROOT);
    let archive = root.join(ARCHIVE);
    if !archive.is_file() {
        let built =
            Command::new(root.join(BUILD)).arg("dangsoviey").current_dir(&root).status();
        match built {
            Ok(status) if status.success() => {}
            Ok(status) => stop(format!("`{BUILD} dangsoviey` failed: {status}")),
            Err(e) => stop(format!(
                "{} is not there, {VARIABLE} names no other, and {BUILD} does not run: {e}",
                archive.display()
            )),
        }
    }
    archive
}

fn stop(why: String) -> ! {
    eprintln!("dangsoviey: {why}");
    process::exit(1)
}
