//! What gemlab answers, stored in files of this repository: the texts that `positions` and the C program `survey.c` have
//! to write, the list of answers that the program `replay` goes through, and input of `catalogue` and `survey` with what these
//! print of it.
//! Nothing of the library is called here.
//!
//! `stored check` says whether each file is what gemlab gives today; `stored write` writes them.

mod catalogue;
mod checks;
#[path = "../src/choice.rs"]
mod choice;
mod libraries;
mod meshes;
mod numbers;
#[allow(dead_code)]
#[path = "../src/point_list.rs"]
mod point_list;
mod point_lists;
mod positions;
#[allow(dead_code)]
#[path = "../src/random.rs"]
mod random;
mod replay;
mod survey;
mod words;

use std::fs;
use std::path::Path;
use std::process::ExitCode;

/// What a file has to hold.
type Made = fn() -> Vec<u8>;

/// The files, by their place in the repository.
const STORED: &[(&str, Made)] = &[
    ("crates/positions/stdout", positions::text),
    ("crates/replay/stdout", replay::text),
    ("crates/replay/data/libraries.bin", replay::libraries_file),
    ("crates/replay/data/meshes.bin", replay::meshes_file),
    ("crates/survey/stdout", point_lists::sample),
    ("examples/survey.expected", survey::text),
    ("tests/catalogue.cases", catalogue::text),
    ("tests/survey.cases", point_lists::text),
];

fn main() -> ExitCode {
    let write = match std::env::args().nth(1).as_deref() {
        Some("check") => false,
        Some("write") => true,
        _ => {
            eprintln!("stored: check or write");
            return ExitCode::from(2);
        }
    };
    let root = Path::new(env!("CARGO_MANIFEST_DIR")).parent().unwrap();
    let mut failed = false;
    for (name, made) in STORED {
        let path = root.join(name);
        let bytes = made();
        if write {
            fs::write(&path, &bytes).unwrap_or_else(|e| panic!("{}: {e}", path.display()));
            println!("stored: {name} written, {} bytes", bytes.len());
        } else {
            let agrees = fs::read(&path).is_ok_and(|there| there == bytes);
            failed |= !agrees;
            println!("stored: {name} is {}what gemlab gives", if agrees { "" } else { "not " });
        }
    }
    ExitCode::from(failed as u8)
}
