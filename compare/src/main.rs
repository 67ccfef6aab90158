//! Runs the library beside gemlab's Rust and tells each difference. Arguments name parts; without any, every part is run. A
//! part that compared nothing has failed. `bench-PART` measures, and is run only by name.
//!
//! A part is a file of its own and a line of `PARTS`, and its measurements a line of `BENCHES`.

/// The C functions, as the bindings declare them; each part uses its own.
#[allow(dead_code)]
#[path = "../../bindings/src/c.rs"]
mod c;
mod cell_search;
mod cells;
mod check;
mod choice;
mod directories;
mod directory;
mod field;
mod floats;
mod geometry;
mod listing;
mod meshes;
mod near;
mod nearest;
mod point_list;
mod random;
mod rows;
mod sheet;
mod strike;
mod survey;
mod tally;
mod timing;

use std::process::ExitCode;
use tally::Tally;

const PARTS: &[(&str, fn(&mut Tally))] = &[
    ("floats", floats::compare),
    ("geometry", geometry::compare),
    ("sheet", sheet::compare),
    ("rows", rows::compare),
    ("listing", listing::compare),
    ("strike", strike::compare),
    ("nearest", nearest::compare),
    ("check", check::compare),
    ("survey", survey::compare),
    ("directory", directory::compare),
    ("cells", cells::compare),
    ("field", field::compare),
];

const BENCHES: &[(&str, fn())] = &[
    ("bench-floats", floats::measure),
    ("bench-geometry", geometry::measure),
    ("bench-sheet", sheet::measure),
    ("bench-rows", rows::measure),
    ("bench-listing", listing::measure),
    ("bench-strike", strike::measure),
    ("bench-nearest", nearest::measure),
    ("bench-check", check::measure),
    ("bench-survey", survey::measure),
    ("bench-directory", directory::measure),
    ("bench-cells", cells::measure),
];

fn main() -> ExitCode {
    let mut names: Vec<String> = std::env::args().skip(1).collect();
    if names.is_empty() {
        names = PARTS.iter().map(|part| part.0.to_string()).collect();
    }
    let known: Vec<_> = PARTS.iter().map(|part| part.0).chain(BENCHES.iter().map(|bench| bench.0)).collect();
    for name in &names {
        if !known.contains(&name.as_str()) {
            eprintln!("compare: no part {name}; there are {}", known.join(", "));
            return ExitCode::from(2);
        }
    }
    let mut failed = false;
    for name in &names {
        if let Some(bench) = BENCHES.iter().find(|bench| bench.0 == name) {
            bench.1();
        }
        if let Some(part) = PARTS.iter().find(|part| part.0 == name) {
            let mut tally = Tally::new(name);
            part.1(&mut tally);
            failed |= !tally.report();
        }
    }
    ExitCode::from(failed as u8)
}
