//! Links the verified module's archive statically.

use std::path::PathBuf;
use std::{env, process};

/// Names the folder that holds the archive.
const FOLDER_VARIABLE: &str = "LIGHT_SHEET_ARCHIVE";
const ARCHIVE: &str = "liblight_sheet_c.a";

fn main() {
    println!("cargo:rerun-if-changed=build.rs");
    println!("cargo:rerun-if-env-changed={FOLDER_VARIABLE}");
    let folder = archive_folder();
    let archive = folder.join(ARCHIVE);
    println!("cargo:rerun-if-changed={}", archive.display());
    if !archive.is_file() {
        eprintln!(
            "{} is not there: make it with `tools/build light_sheet_archive` at the repository's top, \
             or name the folder it is in by {FOLDER_VARIABLE}.",
            archive.display()
        );
        process::exit(1);
    }
    println!("cargo:rustc-link-search=native={}", folder.display());
    println!("cargo:rustc-link-lib=static=light_sheet_c");
}

/// The folder the variable names, else the one the archive is made in; both seen from this package.
fn archive_folder() -> PathBuf {
    let package = PathBuf::from(env::var_os("CARGO_MANIFEST_DIR").expect("cargo sets it"));
    match env::var_os(FOLDER_VARIABLE) {
        Some(folder) => package.join(folder),
        None => package.join("../target/staticlib"),
    }
}
