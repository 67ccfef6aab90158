//! A sample of gemlab's sheets, insertions, searches, listings and distances, for the program `replay`, and of strikings,
//! which gemlab has not: what it answers after one is that of a library that was given the other ids' insertions alone.
//!
//! The inputs are made by a generator with a fixed seed, so that the file is the same in every run. What gemlab takes
//! from a hash map in any order is stored as the set of what it may give, and what it gives is checked to be in it; of near
//! ids the one that request b of document 02 picks comes first.
//! Every input is within the limits of document 01, and breaks at most one rule: only refusals that gemlab has are here,
//! and 26, for an id that has no row. Checks, between the others, are those of checks.rs.

use crate::checks::{store_check, store_checks, store_refusal};
use crate::choice::{chosen, square};
use crate::random::Random;
use crate::words::{three, Words};
use gemlab::geometry::*;
use gemlab::util::GridSearch;
use gemlab::StrError;
use std::collections::HashSet;

/// The kinds of entries. 0 ends a file.
pub const SHEET: u64 = 1;
pub const INSERT: u64 = 2;
pub const SEARCH: u64 = 3;
pub const LIST: u64 = 4;
pub const TABLE: u64 = 5;
pub const DISTANCE: u64 = 6;
pub const STRIKE: u64 = 10;

/// Libraries, marks put into each, searches and listings in each, and then strikings.
const LIBRARIES: usize = 48;
const MARKS: usize = 24;
const SEARCHES: usize = 30;
const LISTINGS: usize = 8;
const STRIKINGS: usize = 4;

/// Libraries of pairs, and pairs in each.
const PAIRED: usize = 6;
const PAIRS: usize = 24;

/// Distances of each kind in each dimension.
const DISTANCES: usize = 100;

/// The room that the program has for rows, and for ids.
const ROWS: usize = 512;
const IDS: usize = 64;

/// A sheet's corners and settings.
#[derive(Clone)]
struct Settings {
    low: Vec<f64>,
    high: Vec<f64>,
    ndiv: Option<usize>,
    tolerance: Option<f64>,
    border: Option<f64>,
}

impl Settings {
    fn random(r: &mut Random, ndim: usize) -> Self {
        let size = *r.pick(&[1.0, 8.0, 50.0, 1000.0]);
        let low: Vec<f64> = (0..ndim).map(|_| *r.pick(&[0.0, -1.0, -0.1, 3.75, -size / 3.0])).collect();
        let high = low.iter().map(|x| x + size * *r.pick(&[1.0, 0.5, 0.1, 1.3, 2.0 / 3.0])).collect();
        let ndiv = if r.below(6) == 0 { None } else { Some(2 + r.below(if ndim == 2 { 20 } else { 9 }) as usize) };
        let tolerance = if r.below(3) == 0 { None } else { Some(size * *r.pick(&[0.0005, 0.001, 1.0 / 512.0])) };
        let border = match r.below(3) {
            0 => None,
            1 => Some(0.0),
            _ => Some(size * 0.01),
        };
        Settings { low, high, ndiv, tolerance, border }
    }

    fn made(&self) -> Result<GridSearch, StrError> {
        GridSearch::new(&self.low, &self.high, self.ndiv, self.tolerance, self.border)
    }

    /// The entry, with the sheet as the C interface lays it out in two lists.
    fn store(&self, w: &mut Words) -> Option<GridSearch> {
        w.entry(SHEET);
        w.position(&self.low);
        w.position(&self.high);
        w.word(self.ndiv.is_some() as u64);
        w.count(self.ndiv.unwrap_or(0));
        w.setting(self.tolerance);
        w.setting(self.border);
        let grid = w.answer(self.made())?;
        let f = grid.fields();
        w.count(f.ndim);
        w.word(self.ndiv.is_some() as u64);
        w.count(self.ndiv.unwrap_or(0));
        w.word(self.tolerance.is_some() as u64);
        w.word(self.border.is_some() as u64);
        (0..3).for_each(|i| w.count(f.ndiv.get(i).copied().unwrap_or(1)));
        for corner in [&self.low, &self.high] {
            w.floats(&three(corner));
        }
        w.float(self.tolerance.unwrap_or(0.0));
        w.float(self.border.unwrap_or(0.0));
        for corner in [&f.xmin, &f.xmax] {
            w.floats(&three(corner));
        }
        w.floats(&[f.side_length, f.tol_dist, f.radius]);
        Some(grid)
    }
}

/// A library whose ids can be struck off: gemlab's, given the accepted insertions since each id's last striking, in order.
struct Library {
    settings: Settings,
    grid: GridSearch,
    given: Vec<(usize, Vec<f64>)>,
}

impl Library {
    fn insert(&mut self, id: usize, x: &[f64]) -> Result<(), StrError> {
        self.grid.insert(id, x)?;
        self.given.push((id, x.to_vec()));
        Ok(())
    }

    /// How many rows go; none is a refusal.
    fn strike(&mut self, id: usize) -> usize {
        let mut rows = self.grid.rows();
        let count = rows.len();
        self.given.retain(|(of, _)| *of != id);
        self.grid = self.settings.made().unwrap();
        self.given.iter().for_each(|(id, x)| self.grid.insert(*id, x).unwrap());
        // those of other ids are as they were
        rows.retain(|row| row.id != id);
        assert_eq!(format!("{rows:?}"), format!("{:?}", self.grid.rows()));
        count - rows.len()
    }
}

/// Each of gemlab's refusals of a sheet, once.
fn refused_sheets(w: &mut Words) {
    let good = Settings { low: vec![0.0; 2], high: vec![8.0, 4.0], ndiv: Some(8), tolerance: None, border: None };
    let faults: [&dyn Fn(&mut Settings); 12] = [
        &|s| s.low = vec![],
        &|s| s.low = vec![0.0],
        &|s| s.low = vec![0.0; 4],
        &|s| s.high = vec![8.0; 3],
        &|s| s.ndiv = Some(0),
        &|s| s.ndiv = Some(1),
        &|s| s.high[1] = 0.0,
        &|s| s.high[0] = -1.0,
        &|s| s.tolerance = Some(0.0),
        &|s| s.tolerance = Some(-1.0),
        &|s| s.border = Some(-0.5),
        &|s| s.tolerance = Some(0.6),
    ];
    for fault in faults {
        let mut settings = good.clone();
        fault(&mut settings);
        assert!(settings.store(w).is_none());
    }
}

/// A position within a sheet: anywhere, or where containers meet, moved by up to two tolerances.
fn position(r: &mut Random, grid: &GridSearch) -> Vec<f64> {
    let f = grid.fields();
    (0..f.ndim)
        .map(|i| {
            let x = if r.below(2) == 0 {
                r.between(f.xmin[i], f.xmax[i])
            } else {
                f.xmin[i] + f.side_length * r.below(f.ndiv[i] as u64 + 1) as f64
            };
            let steps = *r.pick(&[0.0, 0.0, 0.5, -0.5, 1.0, -1.0, 2.0, -2.0]);
            (x + f.tolerance * steps).clamp(f.xmin[i], f.xmax[i])
        })
        .collect()
}

/// A position beside another: at the same place, within the near distance, or just past it.
fn beside(r: &mut Random, grid: &GridSearch, x: &[f64]) -> Vec<f64> {
    let f = grid.fields();
    let steps = *r.pick(&[0.0, 0.5, 1.0, -1.0, 1.125, -0.999]);
    (0..f.ndim)
        .map(|i| {
            let step = if r.below(2) == 0 { f.tol_dist * steps } else { 0.0 };
            (x[i] + step).clamp(f.xmin[i], f.xmax[i])
        })
        .collect()
}

/// Outside a sheet on one axis, or of another length.
fn astray(r: &mut Random, grid: &GridSearch) -> Vec<f64> {
    let f = grid.fields();
    let mut x = position(r, grid);
    match r.below(4) {
        0 => {
            x.pop();
        }
        1 => x.push(0.0),
        2 => x[r.below(f.ndim as u64) as usize] = f.xmin[0].min(f.xmin[1]) - 4096.0,
        _ => {
            let i = r.below(f.ndim as u64) as usize;
            x[i] = f.xmax[i].next_up();
        }
    }
    x
}

/// The ids near a position with their distances: those that a search may give.
fn near(grid: &GridSearch, x: &[f64]) -> Vec<(u64, f64)> {
    let key = grid.key_of(x).unwrap();
    let tol_dist = grid.fields().tol_dist;
    grid.rows()
        .iter()
        .filter(|row| row.key == key)
        .map(|row| (row.id as u64, point_point_distance(&row.x, x).unwrap()))
        .filter(|(_, away)| *away <= tol_dist)
        .collect()
}

fn store_insert(w: &mut Words, library: &mut Library, id: usize, x: &[f64]) {
    w.entry(INSERT);
    w.count(id);
    w.position(x);
    w.answer(library.insert(id, x));
    let rows = library.grid.rows().len();
    assert!(rows <= ROWS);
    w.count(rows);
}

fn store_strike(w: &mut Words, library: &mut Library, id: usize) {
    w.entry(STRIKE);
    w.count(id);
    let removed = library.strike(id);
    w.word(if removed == 0 { 26 } else { 0 });
    w.count(library.grid.rows().len());
    if removed > 0 {
        w.count(removed);
    }
}

/// The ids that a search may give: the one that request b picks, and then the others, ascending.
fn store_search(w: &mut Words, grid: &GridSearch, x: &[f64]) {
    w.entry(SEARCH);
    w.position(x);
    if let Some(found) = w.answer(grid.search(x)) {
        let near = near(grid, x);
        let found = found.map(|id| id as u64);
        assert_eq!(found.is_some(), !near.is_empty());
        assert!(found.is_none_or(|found| near.iter().any(|(id, _)| *id == found)));
        let picked = chosen(&near);
        let mut ids: Vec<u64> = near.iter().map(|(id, _)| *id).collect();
        ids.sort_by_key(|id| (Some(*id) != picked, *id));
        w.count(ids.len());
        ids.iter().for_each(|id| w.word(*id));

        let least = near.iter().map(|(_, away)| *away).fold(f64::INFINITY, f64::min);
        let nearest = near.iter().filter(|(_, away)| *away == least).count();
        w.meets("several near ids", ids.len() > 1);
        w.meets("equal least distances", nearest > 1);
        w.meets("equal least distances and one that is not", nearest > 1 && nearest < ids.len());
        w.meets("the nearest is not the lowest", !ids.is_sorted());
    }
}

/// The rows, ascending, column by column.
fn store_table(w: &mut Words, grid: &GridSearch) {
    w.entry(TABLE);
    let rows = grid.rows();
    w.count(rows.len());
    rows.iter().for_each(|row| w.count(row.key));
    rows.iter().for_each(|row| w.count(row.id));
    for axis in 0..3 {
        rows.iter().for_each(|row| w.float(three(&row.x)[axis]));
    }
}

/// A place as the C interface has it.
struct Place {
    kind: u64,
    a: Vec<f64>,
    b: Vec<f64>,
    number: f64,
}

impl Place {
    /// A place through one or two marks.
    fn random(r: &mut Random, grid: &GridSearch, marks: &[Vec<f64>]) -> Self {
        let ndim = grid.fields().ndim;
        let p = r.pick(marks).clone();
        let mut q = r.pick(marks).clone();
        if p == q {
            q[0] += 1.0;
        }
        // one in eight is not for this dimension
        let astray = r.below(8) == 0;
        let kind = match (ndim == 2) != astray {
            true => r.below(2),
            false => *r.pick(&[0, 2, 3, 4, 5]),
        };
        let none = vec![];
        match kind {
            0 => Place { kind, a: p, b: q, number: 0.0 },
            1 => {
                let number = point_point_distance(&p, &q).unwrap();
                Place { kind, a: p, b: none, number: if r.below(6) == 0 { -number } else { number } }
            }
            2 => {
                let x = r.pick(marks);
                let number = if ndim == 3 { point_line_distance(&p, &q, x).unwrap_or(1.0) } else { 1.0 };
                Place { kind, a: p, b: q, number }
            }
            _ => {
                let axis = [2, 0, 1][kind as usize - 3];
                Place { kind, a: none.clone(), b: none, number: p.get(axis).copied().unwrap_or(1.0) }
            }
        }
    }

    fn listed<F: FnMut(&[f64]) -> bool>(&self, grid: &GridSearch, filter: F) -> Result<HashSet<usize>, StrError> {
        match self.kind {
            0 => grid.search_on_line(&self.a, &self.b, filter),
            1 => grid.search_on_circle(&self.a, self.number, filter),
            2 => grid.search_on_cylinder(&self.a, &self.b, self.number, filter),
            3 => grid.search_on_plane_xy(self.number, filter),
            4 => grid.search_on_plane_yz(self.number, filter),
            _ => grid.search_on_plane_xz(self.number, filter),
        }
    }

    /// The entry, with everything kept or a range on one axis.
    fn store(&self, w: &mut Words, grid: &GridSearch, range: Option<(usize, f64, f64)>) {
        w.entry(LIST);
        w.word(self.kind);
        w.position(&self.a);
        w.position(&self.b);
        w.float(self.number);
        let (axis, low, high) = range.unwrap_or((0, 0.0, 0.0));
        w.word(range.is_some() as u64);
        w.count(axis);
        w.floats(&[low, high]);
        let kept = |x: &[f64]| range.is_none_or(|(axis, low, high)| low <= x[axis] && x[axis] <= high);
        if let Some(ids) = w.answer(self.listed(grid, kept)) {
            let mut ids: Vec<_> = ids.into_iter().collect();
            ids.sort();
            assert!(ids.len() <= IDS);
            w.count(ids.len());
            ids.iter().for_each(|id| w.count(*id));
        }
    }
}

/// A listing on a place through marks.
fn store_listing(w: &mut Words, r: &mut Random, grid: &GridSearch, marks: &[Vec<f64>]) {
    let place = Place::random(r, grid, marks);
    let axis = r.below(grid.fields().ndim as u64) as usize;
    let (p, q) = (r.pick(marks)[axis], r.pick(marks)[axis]);
    let range = match r.below(4) {
        0 => Some((axis, p, q)),
        1 => Some((axis, p.min(q), p.max(q))),
        _ => None,
    };
    place.store(w, grid, range);
}

/// Strikings of ids that have rows, of ids that never had or have no more, and what is answered after each.
fn store_strikings(w: &mut Words, r: &mut Random, library: &mut Library, marks: &[Vec<f64>]) {
    // no mark has had the id 0
    let mut struck = vec![0];
    for _ in 0..STRIKINGS {
        let rows = library.grid.rows();
        let id = if r.below(4) == 0 { *r.pick(&struck) } else { r.pick(&rows).id };
        store_strike(w, library, id);
        struck.push(id);
        if r.below(4) == 0 {
            store_strike(w, library, id);
        }
        if r.below(3) == 0 {
            store_table(w, &library.grid);
        }
        // where the id was, others may be near
        for _ in 0..2 {
            let other = r.pick(marks).clone();
            let x = beside(r, &library.grid, &other);
            store_search(w, &library.grid, &x);
        }
        store_listing(w, r, &library.grid, marks);
        if r.below(3) == 0 {
            let x = position(r, &library.grid);
            store_insert(w, library, id, &x);
        }
    }
    store_table(w, &library.grid);
}

/// Strikings until no row is left, and a mark in the empty library.
fn store_clearance(w: &mut Words, r: &mut Random, library: &mut Library, marks: &[Vec<f64>]) {
    while let Some(row) = library.grid.rows().last() {
        store_strike(w, library, row.id);
    }
    store_table(w, &library.grid);
    store_check(w, &library.grid);
    let x = r.pick(marks);
    store_search(w, &library.grid, x);
    Place { kind: 0, a: x.clone(), b: x.clone(), number: 0.0 }.store(w, &library.grid, None);
    store_insert(w, library, 1, x);
    store_search(w, &library.grid, x);
    store_table(w, &library.grid);
}

/// A library, with the positions of its marks.
fn store_library(w: &mut Words, r: &mut Random, ndim: usize) -> (Library, Vec<Vec<f64>>) {
    let (settings, grid) = loop {
        let settings = Settings::random(r, ndim);
        if settings.made().is_ok() {
            let grid = settings.store(w).unwrap();
            break (settings, grid);
        }
    };
    let mut library = Library { settings, grid, given: Vec::new() };

    // a line through one point: only where there is a row
    let x = position(r, &library.grid);
    let point = Place { kind: 0, a: x.clone(), b: x.clone(), number: 0.0 };
    point.store(w, &library.grid, None);

    let mut marks: Vec<Vec<f64>> = Vec::new();
    for i in 0..MARKS {
        let x = match r.below(8) {
            0 if i > 0 => astray(r, &library.grid),
            1 | 2 if i > 0 => {
                let other = r.pick(&marks).clone();
                beside(r, &library.grid, &other)
            }
            _ => position(r, &library.grid),
        };
        // some ids come again, some are large
        let id = if r.below(5) == 0 { 1 + r.below(3) as usize } else { 10 + i };
        let id = if r.below(9) == 0 { usize::MAX - id } else { id };
        store_insert(w, &mut library, id, &x);
        if x.len() == ndim && library.grid.key_of(&x).is_some() {
            marks.push(x);
        }
    }
    let grid = &library.grid;
    store_table(w, grid);
    point.store(w, grid, None);

    for i in 0..SEARCHES {
        let x = match i % 6 {
            0 => astray(r, grid),
            1 => position(r, grid),
            _ => {
                let other = r.pick(&marks).clone();
                beside(r, grid, &other)
            }
        };
        store_search(w, grid, &x);
    }

    for _ in 0..LISTINGS {
        store_listing(w, r, grid, &marks);
    }
    (library, marks)
}

/// Two marks that are hard to tell apart from a pole, or from a position beside it.
fn pair(r: &mut Random, kind: usize, pole: &[f64]) -> [Vec<f64>; 2] {
    let ndim = pole.len();
    let axis = r.below(ndim as u64) as usize;
    let other = (axis + 1) % ndim;
    // multiples of 2^-30, so that both sides of the pole are exact
    let off: Vec<f64> = (0..ndim).map(|_| (r.below(100_000) as f64 - 5e4) / 1073741824.0).collect();
    let (mut a, mut b) = (vec![0.0; ndim], vec![0.0; ndim]);
    match kind {
        // a tenth of a millimetre apart
        0 => b[axis] = 1e-4,
        // mirrored on an axis, or on a diagonal
        1 => {
            (a, b) = (off.clone(), off);
            b[axis] = -b[axis];
        }
        2 => {
            (a, b) = (off.clone(), off);
            b.swap(axis, other);
        }
        // squares of 2^-28 and one unit more, whose roots are both 2^-14
        3 => {
            (a[axis], b[axis]) = (1.0 / 16384.0, -1.0 / 16384.0);
            b[other] = 1.0 / 1099511627776.0;
        }
        // at one position, or one unit beside it
        _ => (a, b) = (off.clone(), off),
    }
    let [a, mut b] = [a, b].map(|off| pole.iter().zip(off).map(|(x, d)| x + d).collect::<Vec<f64>>());
    if kind == 5 {
        b[axis] = b[axis].next_up();
    }
    [a, b]
}

/// A library of pairs, each in a container of its own, and searches at their poles, at them and between them; then one of some pairs is
/// struck off.
fn store_pairs(w: &mut Words, r: &mut Random, ndim: usize) -> Library {
    let (low, high) = (vec![0.0; ndim], vec![8.0; ndim]);
    let settings = Settings { low, high, ndiv: Some(8), tolerance: None, border: Some(0.0) };
    let grid = settings.store(w).unwrap();
    let mut library = Library { settings, grid, given: Vec::new() };
    let mut pairs = Vec::new();
    for i in 0..PAIRS {
        let container = [i % 8, i / 8, i % 5];
        let pole: Vec<f64> = (0..ndim).map(|k| container[k] as f64 + 0.25 + r.below(512) as f64 / 1024.0).collect();
        let mut marks = pair(r, i % 6, &pole);
        if r.below(2) == 0 {
            marks.reverse();
        }
        let id = 1 + 2 * i;
        let ids = *r.pick(&[[id, id + 1], [id + 1, id], [id, usize::MAX - id], [usize::MAX - id, id]]);
        for (id, x) in ids.iter().zip(&marks) {
            store_insert(w, &mut library, *id, x);
        }
        let away = marks.each_ref().map(|x| point_point_distance(x, &pole).unwrap());
        let squares = marks.each_ref().map(|x| square(x, &pole));
        let larger = if ids[0] < ids[1] { squares[0] > squares[1] } else { squares[1] > squares[0] };
        w.meets("equal distances, the lower id with the larger square", away[0] == away[1] && larger);
        pairs.push((pole, marks, ids));
    }
    store_table(w, &library.grid);
    for (pole, [a, b], ids) in &pairs {
        let part = |of: f64| a.iter().zip(b).map(|(a, b)| a + (b - a) * of).collect::<Vec<f64>>();
        for x in [pole, a, b, &part(0.5), &part(0.25), &part(0.75)] {
            store_search(w, &library.grid, x);
        }
        if r.below(3) == 0 {
            store_strike(w, &mut library, *r.pick(ids));
            store_search(w, &library.grid, pole);
        }
    }
    store_table(w, &library.grid);
    library
}

pub fn libraries() -> Words {
    let mut w = Words::default();
    let mut r = Random::new(11);
    let mut s = Random::new(12);
    let mut p = Random::new(13);
    let mut c = Random::new(14);
    refused_sheets(&mut w);
    store_refusal(&mut w);
    for i in 0..LIBRARIES {
        let (mut library, marks) = store_library(&mut w, &mut r, 2 + i % 2);
        store_checks(&mut w, &mut c, &library.grid);
        store_strikings(&mut w, &mut s, &mut library, &marks);
        store_checks(&mut w, &mut c, &library.grid);
        if i < 4 {
            store_clearance(&mut w, &mut s, &mut library, &marks);
        }
    }
    for i in 0..PAIRED {
        let library = store_pairs(&mut w, &mut p, 2 + i % 2);
        store_checks(&mut w, &mut c, &library.grid);
    }
    store_distances(&mut w, &mut r);
    w.word(0);
    for (kind, enough) in [
        ("several near ids", 1000),
        ("equal least distances", 400),
        ("equal least distances and one that is not", 40),
        ("the nearest is not the lowest", 300),
        ("equal distances, the lower id with the larger square", 8),
        ("a key past the containers", 40),
        ("a coordinate past its limit", 100),
        ("a third coordinate in 2D", 12),
        ("a key below the one before", 25),
        ("an id not above the one before", 30),
        ("no bad row", 250),
        ("no bad row, one entry changed", 150),
        ("an entry past the rows changed", 20),
        ("the first row is bad", 40),
        ("the last row is bad", 40),
        ("the row after the changed one is bad", 25),
    ] {
        assert!(w.met[kind] >= enough, "{kind}: {} in the sample", w.met[kind]);
    }
    w
}

// ---- distances

/// Document 01's number for the lengths of a distance's positions, of which the first gives the dimension.
fn lengths(kind: u64, lists: &[&[f64]]) -> Option<u64> {
    let ndim = lists[0].len();
    if ndim != 2 && ndim != 3 {
        return Some(1);
    }
    if (kind == 2 && ndim == 3) || (kind == 3 && ndim == 2) {
        return Some(16);
    }
    lists.iter().any(|x| x.len() != ndim).then_some(2)
}

/// A distance of a kind: 0 between points, 1 to a line, 2 to a circle, 3 to a cylinder.
fn store_distance(w: &mut Words, kind: u64, a: &[f64], b: &[f64], c: &[f64], radius: f64) {
    w.entry(DISTANCE);
    w.word(kind);
    [a, b, c].iter().for_each(|x| w.position(x));
    w.float(radius);
    let (d, lists) = match kind {
        0 => (point_point_distance(a, b), vec![a, b]),
        1 => (point_line_distance(a, b, c), vec![a, b, c]),
        2 => (point_circle_distance(a, radius, b), vec![a, b]),
        _ => (point_cylinder_distance(a, b, radius, c), vec![a, b, c]),
    };
    // one text of gemlab's covers 1 and 16
    if let Some(n) = lengths(kind, &lists) {
        assert!(d.is_err());
        w.word(n);
    } else if let Some(d) = w.answer(d) {
        w.float(d);
    }
}

fn store_distances(w: &mut Words, r: &mut Random) {
    for kind in 0..4 {
        let dims: &[usize] = match kind {
            0 | 1 => &[2, 3],
            2 => &[2],
            _ => &[3],
        };
        for ndim in dims {
            for i in 0..DISTANCES {
                let size = *r.pick(&[1.0, 3.0, 100.0, 1048576.0, 1e-7]);
                let few = i % 4 == 0;
                let mut position = || -> Vec<f64> {
                    (0..*ndim).map(|_| if few { r.below(5) as f64 - 2.0 } else { r.between(-size, size) }).collect()
                };
                let (a, mut b, c) = (position(), position(), position());
                if i % 10 == 9 {
                    b.clone_from(&a);
                }
                store_distance(w, kind, &a, &b, &c, if few { -1.0 } else { size / 2.0 });
            }
        }
        for lengths in
            [[0, 0, 0], [1, 1, 1], [4, 4, 4], [2, 3, 2], [3, 2, 3], [2, 2, 0], [3, 3, 1], [3, 3, 3], [2, 2, 2]]
        {
            let [a, b, c] = lengths.map(|n| (0..n).map(|i| i as f64 + n as f64).collect::<Vec<_>>());
            store_distance(w, kind, &a, &b, &c, 1.0);
        }
    }
}
