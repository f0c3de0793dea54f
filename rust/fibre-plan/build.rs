//! Finds the archive that `scripts/archive` writes, and links it.
use std::env;
use std::path::{Path, PathBuf};

/// The folder of the archive: named by the caller, or where the repository's own build puts it.
fn archive_folder() -> PathBuf {
    if let Some(named) = env::var_os("FIBRE_PLAN_LIB_DIR") {
        return named.into();
    }
    // Asked for when it runs: a build folder may be shared by two copies of the repository.
    let here = env::var_os("CARGO_MANIFEST_DIR").expect("cargo names the folder of the crate");
    Path::new(&here).join("../../target/staticlib")
}

fn main() {
    println!("cargo::rerun-if-env-changed=FIBRE_PLAN_LIB_DIR");
    let folder = archive_folder();
    let archive = folder.join("libexports.a");
    println!("cargo::rerun-if-changed={}", archive.display());
    if !archive.is_file() {
        println!(
            "cargo::error=no {}: run `scripts/archive` in the repository, or set FIBRE_PLAN_LIB_DIR to the folder of libexports.a",
            archive.display()
        );
    }
    println!("cargo::rustc-link-search=native={}", folder.display());
    println!("cargo::rustc-link-lib=static=exports");
}
