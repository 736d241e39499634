//! Links libadfulmise.a as the repository's sources make it: where they have changed since it was last linked, `rt lib` in
//! crates/adfulmise_c proves and writes it anew. Without rt on the PATH the archive is linked as it was found, and a warning says so.

use std::env;
use std::fs;
use std::io::ErrorKind;
use std::path::{Path, PathBuf};
use std::process::Command;

fn main() {
    let root = Path::new(env!("CARGO_MANIFEST_DIR")).join("..");
    let library = root.join("crates/adfulmise_c");
    let archive = library.join("out/libadfulmise_c.a");
    println!("cargo:rerun-if-changed={}", root.join("crates.txt").display());
    for sources in sources_in(&root.join("crates")) {
        println!("cargo:rerun-if-changed={}", sources.display());
    }
    match Command::new("rt").arg("lib").current_dir(&library).status() {
        Ok(status) => assert!(status.success(), "`rt lib` failed in {}", library.display()),
        Err(error) if error.kind() == ErrorKind::NotFound && archive.exists() => {
            println!("cargo:rerun-if-env-changed=PATH");
            println!("cargo:rerun-if-changed={}", archive.display());
            println!(
                "cargo:warning=rt is not on the PATH: {} was not checked against the sources",
                archive.display()
            );
        }
        Err(error) => panic!("cannot run `rt lib`: {error}"),
    }
    // A copy is linked, so that what is linked is what was just proved, whatever is written beside it later.
    let folder = env::var("OUT_DIR").expect("cargo sets OUT_DIR");
    fs::copy(&archive, Path::new(&folder).join("libadfulmise.a")).expect("the archive is copied");
    println!("cargo:rustc-link-search=native={folder}");
    println!("cargo:rustc-link-lib=static=adfulmise");
}

/// The folders of each crate that rt reads: its `out` is rt's own.
fn sources_in(crates: &Path) -> Vec<PathBuf> {
    let crates = fs::read_dir(crates).expect("the repository has crates");
    let folders = crates.map(|entry| entry.expect("the folder can be read").path());
    folders
        .flat_map(|folder| ["src", "specs", "proofs"].map(|part| folder.join(part)))
        .filter(|part| part.exists())
        .collect()
}
