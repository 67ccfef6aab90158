//! Checks of a library, for the program `replay`. gemlab has none: what one has to tell is read from request c of
//! document 02, on gemlab's own rows with at most one entry changed.

use crate::random::Random;
use crate::words::{three, Words};
use gemlab::util::{GridSearch, SheetFields};

/// The kind of entry.
pub const CHECK: u64 = 11;

/// The most that a coordinate may have in magnitude.
const LIMIT: f64 = 1048576.0;

/// A row as the C interface lays it out.
struct Row {
    key: u64,
    id: u64,
    x: [f64; 3],
}

/// What is written into a library before the call: into which list, 0 keys, 1 ids, 2 to 4 coordinates, or 5 for none, at
/// which row, and the bits.
struct Change {
    list: u64,
    row: usize,
    bits: u64,
}

const NOTHING: Change = Change { list: 5, row: 0, bits: 0 };

fn containers(f: &SheetFields) -> u64 {
    f.ndiv.iter().product::<usize>() as u64
}

fn rows(grid: &GridSearch) -> Vec<Row> {
    grid.rows().iter().map(|row| Row { key: row.key as u64, id: row.id as u64, x: three(&row.x) }).collect()
}

/// The rows with a change, which may be past them.
fn changed(mut rows: Vec<Row>, change: &Change) -> Vec<Row> {
    if let Some(row) = rows.get_mut(change.row) {
        match change.list {
            0 => row.key = change.bits,
            1 => row.id = change.bits,
            2..=4 => row.x[change.list as usize - 2] = f64::from_bits(change.bits),
            _ => (),
        }
    }
    rows
}

/// What makes a row bad: by itself, or beside the one before it.
fn fault(f: &SheetFields, rows: &[Row], at: usize) -> Option<&'static str> {
    let row = &rows[at];
    let before = at.checked_sub(1).map(|at| &rows[at]);
    let faults = [
        ("a key past the containers", row.key >= containers(f)),
        ("a coordinate past its limit", !row.x.iter().all(|x| x.is_finite() && x.abs() <= LIMIT)),
        ("a third coordinate in 2D", f.ndim == 2 && row.x[2].to_bits() != 0),
        ("a key below the one before", before.is_some_and(|before| row.key < before.key)),
        ("an id not above the one before", before.is_some_and(|before| row.key == before.key && row.id <= before.id)),
    ];
    faults.iter().find(|(_, is)| *is).map(|(what, _)| *what)
}

/// The lowest bad row, with what makes it bad.
fn lowest(f: &SheetFields, rows: &[Row]) -> Option<(usize, &'static str)> {
    (0..rows.len()).find_map(|at| fault(f, rows, at).map(|what| (at, what)))
}

/// What an entry has before its answer.
fn start(w: &mut Words, change: &Change) {
    w.entry(CHECK);
    w.word(change.list);
    w.count(change.row);
    w.word(change.bits);
}

/// The entry, with what is told of gemlab's rows.
fn store(w: &mut Words, grid: &GridSearch, change: &Change) {
    start(w, change);
    w.word(0);
    let rows = changed(rows(grid), change);
    let bad = lowest(&grid.fields(), &rows);
    w.word(bad.is_some() as u64);
    w.count(bad.map_or(0, |(row, _)| row));
    w.count(bad.map_or(rows.len(), |(row, _)| row + 1));

    w.meets(bad.map_or("no bad row", |(_, what)| what), true);
    w.meets("no bad row, one entry changed", bad.is_none() && change.list < 5);
    w.meets("an entry past the rows changed", change.list < 5 && change.row == rows.len());
    w.meets("the first row is bad", bad.is_some_and(|(row, _)| row == 0));
    w.meets("the last row is bad", bad.is_some_and(|(row, _)| row + 1 == rows.len()));
    w.meets("the row after the changed one is bad", bad.is_some_and(|(row, _)| row == change.row + 1));
}

/// A change of a row: to what its list may not hold or holds just so, or to what a row beside it has.
fn random(r: &mut Random, f: &SheetFields, rows: &[Row], row: usize) -> Change {
    let beside = &rows[(row + r.below(3) as usize).saturating_sub(1).min(rows.len() - 1)];
    let key = *r.pick(&[containers(f), containers(f) - 1, u64::MAX, beside.key, 0]);
    let id = *r.pick(&[beside.id, beside.id.wrapping_add(1), beside.id.wrapping_sub(1), u64::MAX, 0]);
    let past = LIMIT.next_up();
    let x = *r.pick(&[LIMIT, -LIMIT, past, -past, f64::INFINITY, f64::NEG_INFINITY, f64::NAN, -0.0]);
    let list = *r.pick(&[0, 0, 0, 1, 1, 1, 2, 3, 4, 4]);
    let bits = [key, id, x.to_bits()][list.min(2) as usize];
    Change { list, row, bits }
}

/// A check of a library as it is.
pub fn store_check(w: &mut Words, grid: &GridSearch) {
    store(w, grid, &NOTHING);
}

/// The same, and with an entry changed: of the first row, of one that shares its container with the row before it, of
/// any or past the last, and of the last.
pub fn store_checks(w: &mut Words, r: &mut Random, grid: &GridSearch) {
    store_check(w, grid);
    let rows = rows(grid);
    let count = rows.len();
    let sharing: Vec<usize> = (0..count).filter(|i| *i == 0 || rows[*i].key == rows[*i - 1].key).collect();
    let any = r.below(count as u64) as usize;
    for row in [0, *r.pick(&sharing), *r.pick(&[any, any, any, count]), count - 1] {
        store(w, grid, &random(r, &grid.fields(), &rows, row));
    }
}

/// A check where no sheet has been made: 13.
pub fn store_refusal(w: &mut Words) {
    start(w, &NOTHING);
    w.word(13);
}
