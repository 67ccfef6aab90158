//! Finds gemlab's source and the static libraries of this repository.
//!
//! gemlab's source is the folder that GEMLAB_SRC names, and else ../shared/docs/src from the repository's root. The static
//! libraries are in the folder that HRBOTAJ_LIB names, and else in target/staticlib.

use std::env;
use std::fs;
use std::path::{Path, PathBuf};

fn main() {
    let root = Path::new(&env::var("CARGO_MANIFEST_DIR").unwrap()).parent().unwrap().to_path_buf();

    let source = match env::var_os("GEMLAB_SRC") {
        Some(folder) => PathBuf::from(folder),
        None => root.join("../shared/docs/src"),
    };
    println!("cargo:rerun-if-env-changed=GEMLAB_SRC");
    let source = fs::canonicalize(&source)
        .unwrap_or_else(|e| panic!("gemlab's source is not at {}: {e}; set GEMLAB_SRC", source.display()));
    println!("cargo:rustc-env=GEMLAB={}", source.display());

    // every archive that is built is linked: what they share stays private to each
    let folder = match env::var_os("HRBOTAJ_LIB") {
        Some(folder) => PathBuf::from(folder),
        None => root.join("target/staticlib"),
    };
    println!("cargo:rerun-if-env-changed=HRBOTAJ_LIB");
    println!("cargo:rerun-if-changed={}", folder.display());
    let mut archives: Vec<_> = fs::read_dir(&folder)
        .unwrap_or_else(|e| panic!("{}: {e}; run `./staticlib probe capi` first", folder.display()))
        .map(|entry| entry.unwrap().path())
        .filter(|path| path.extension().is_some_and(|x| x == "a"))
        .collect();
    archives.sort();
    for archive in archives {
        println!("cargo:rerun-if-changed={}", archive.display());
        println!("cargo:rustc-link-arg-bins={}", archive.display());
    }
}
