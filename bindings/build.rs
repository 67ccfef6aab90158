//! Links libcapi.a, which `./staticlib capi` writes.
//!
//! It is in the folder that HRBOTAJ_LIB names, and else in target/staticlib of this repository.

use std::env;
use std::path::{Path, PathBuf};

fn main() {
    println!("cargo:rerun-if-env-changed=HRBOTAJ_LIB");
    let folder = match env::var_os("HRBOTAJ_LIB") {
        Some(folder) => PathBuf::from(folder),
        None => Path::new(&env::var("CARGO_MANIFEST_DIR").unwrap()).join("../target/staticlib"),
    };
    let archive = folder.join("libcapi.a");
    println!("cargo:rerun-if-changed={}", archive.display());
    assert!(archive.is_file(), "{} is missing; run `./staticlib capi`, or set HRBOTAJ_LIB", archive.display());
    println!("cargo:rustc-link-search=native={}", folder.display());
    println!("cargo:rustc-link-lib=static=capi");
}
