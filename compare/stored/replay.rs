//! The files of the program `replay`.

use crate::checks::CHECK;
use crate::libraries::{libraries, DISTANCE, INSERT, LIST, SEARCH, SHEET, STRIKE, TABLE};
use crate::meshes::{meshes, BUILD, PROBE};

pub fn libraries_file() -> Vec<u8> {
    libraries().bytes
}

pub fn meshes_file() -> Vec<u8> {
    meshes().bytes
}

/// What the program has to write: the entries of each kind, and that none of them differs.
pub fn text() -> Vec<u8> {
    let (libraries, meshes) = (libraries().entries, meshes().entries);
    let kinds = [
        ("sheets", SHEET),
        ("insertions", INSERT),
        ("strikings", STRIKE),
        ("checks", CHECK),
        ("searches", SEARCH),
        ("listings", LIST),
        ("tables", TABLE),
        ("distances", DISTANCE),
        ("cell builds", BUILD),
        ("cell searches", PROBE),
    ];
    let line =
        |(name, kind): (&str, u64)| format!("{name}: {}, 0 differ\n", libraries[kind as usize] + meshes[kind as usize]);
    kinds.map(line).concat().into_bytes()
}
