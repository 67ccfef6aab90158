//! The search of a cell index beside gemlab's: positions at vertices, on edges, on faces of containers and beside them, and
//! outside; indices that the build wrote, indices that are written by hand, and damage for each clause of 13.

use crate::c::gemlab_grid_cells_search;
use crate::cells::{fault, settings, Lent, Settings, FLOATS, NUMBERS};
use crate::meshes::{scattered, structured, Flat, Meshes};
use crate::near::{around, down, equal, same, up};
use crate::random::Random;
use crate::rows::{LIMIT, MOST_ROWS};
use crate::tally::Tally;
use gemlab::geometry::{in_tetrahedron, in_triangle, tetrahedron_coords, triangle_coords};
use gemlab::mesh::{GridCells, IndexFields, Mesh};
use gemlab::util::calc_container_key;
use std::hint::black_box;
use std::time::Instant;

/// Indices of small meshes, and searches of each; searches of each large one.
const INDICES: usize = 12_000;
const SEARCHES: usize = 100;
const FEW: usize = 400;

/// What the results hold before a call.
const FOUND: u64 = 0x1234_5678_9abc_def0;
const CELL: u64 = 0x0fed_cba9_8765_4321;
const ZETA: f64 = -123.5;

/// What a search gives: the number, and the content of its three results.
#[derive(Clone, Debug)]
pub(crate) struct Told {
    pub(crate) number: u64,
    pub(crate) found: u64,
    pub(crate) cell: u64,
    pub(crate) zeta: Vec<f64>,
}

impl Told {
    /// A refusal, which leaves the results.
    fn refused(number: u64, room: usize) -> Self {
        Told { number, found: FOUND, cell: CELL, zeta: vec![ZETA; room] }
    }

    fn nothing() -> Self {
        Told { found: 0, ..Told::refused(0, 4) }
    }

    /// A cell with the coordinates that are written; in 2D the fourth entry stays.
    fn found(ndim: usize, cell: usize, zeta: &[f64; 4]) -> Self {
        let mut told = Told { found: 1, cell: cell as u64, ..Told::refused(0, 4) };
        told.zeta[..=ndim].copy_from_slice(&zeta[..=ndim]);
        told
    }

    fn equals(&self, other: &Told) -> bool {
        (self.number, self.found, self.cell) == (other.number, other.found, other.cell)
            && self.zeta.len() == other.zeta.len()
            && self.zeta.iter().zip(&other.zeta).all(|(a, b)| equal(*a, *b))
    }
}

pub(crate) fn search(lent: &Lent, flat: &Flat, x: &[f64], room: usize) -> Told {
    let mut told = Told::refused(0, room);
    // SAFETY: each pointer is a vector's or a field's, which is aligned and not null, with its length; the written ones are apart.
    told.number = unsafe {
        gemlab_grid_cells_search(
            lent.numbers.as_ptr(),
            lent.numbers.len(),
            lent.floats.as_ptr(),
            lent.floats.len(),
            flat.coords.as_ptr(),
            flat.coords.len(),
            flat.corners.as_ptr(),
            flat.corners.len(),
            lent.keys.as_ptr(),
            lent.keys.len(),
            lent.cells.as_ptr(),
            lent.cells.len(),
            lent.large.as_ptr(),
            lent.large.len(),
            x.as_ptr(),
            x.len(),
            told.zeta.as_mut_ptr(),
            room,
            &mut told.found,
            &mut told.cell,
        )
    };
    told
}

/// The index in two lists, read: dimension, divisions, used counts, side and corners.
struct Read<'a> {
    n: usize,
    ndiv: Vec<usize>,
    used: usize,
    large: usize,
    side: f64,
    xmin: &'a [f64],
    xmax: &'a [f64],
}

fn read(lent: &Lent) -> Read<'_> {
    let n = lent.numbers[0] as usize;
    Read {
        n,
        ndiv: lent.numbers[1..=n].iter().map(|d| *d as usize).collect(),
        used: lent.numbers[4] as usize,
        large: lent.numbers[5] as usize,
        side: lent.floats[0],
        xmin: &lent.floats[1..1 + n],
        xmax: &lent.floats[4..4 + n],
    }
}

/// 1, 24, 19 or 13, read from document 01.
fn index_fault(lent: &Lent, flat: &Flat) -> Option<u64> {
    let n = match lent.numbers.first() {
        Some(2) => 2,
        Some(3) => 3,
        _ => return Some(1),
    };
    let (npoint, ncell) = (flat.coords.len() / n, flat.corners.len() / (n + 1));
    if [npoint, ncell, lent.keys.len(), lent.cells.len(), lent.large.len()].iter().any(|k| *k > MOST_ROWS) {
        return Some(24);
    }
    if flat.coords.len() % n != 0
        || flat.corners.len() % (n + 1) != 0
        || flat.corners.iter().any(|p| *p as usize >= npoint)
    {
        return Some(19);
    }
    if lent.numbers.len() != NUMBERS || lent.floats.len() != FLOATS {
        return Some(13);
    }
    let i = read(lent);
    let sound = (1.0 / 524288.0..=4194304.0).contains(&i.side)
        && i.ndiv.iter().all(|d| (1..=1024).contains(d))
        && i.xmin.iter().chain(i.xmax).all(|x| x.abs() <= 16777216.0)
        && i.xmin.iter().zip(i.xmax).all(|(a, b)| a <= b)
        && lent.keys.len() == lent.cells.len()
        && i.used <= lent.keys.len()
        && i.large <= lent.large.len();
    if !sound {
        return Some(13);
    }
    let containers: usize = i.ndiv.iter().product();
    let rows: Vec<(u64, u64)> = lent.keys[..i.used].iter().copied().zip(lent.cells[..i.used].iter().copied()).collect();
    let large = &lent.large[..i.large];
    let good = rows.iter().all(|(key, cell)| *key < containers as u64 && *cell < ncell as u64)
        && rows.windows(2).all(|w| w[0] < w[1])
        && large.iter().all(|cell| *cell < ncell as u64)
        && large.windows(2).all(|w| w[0] < w[1]);
    (!good).then_some(13)
}

/// The coordinates of a position in a cell, if the cell contains it: module 9 and the bounding box.
fn inside(flat: &Flat, cell: usize, x: &[f64]) -> Option<[f64; 4]> {
    let n = flat.ndim;
    for axis in 0..n {
        let low = (0..=n).map(|k| flat.corner(cell, k)[axis]).fold(f64::INFINITY, f64::min);
        let high = (0..=n).map(|k| flat.corner(cell, k)[axis]).fold(f64::NEG_INFINITY, f64::max);
        if x[axis] < low || x[axis] > high {
            return None;
        }
    }
    let mut zeta = [0.0; 4];
    let c = |k: usize| flat.corner(cell, k);
    let is_in = if n == 2 {
        triangle_coords(&mut zeta, c(0), c(1), c(2), x);
        in_triangle(&zeta)
    } else {
        tetrahedron_coords(&mut zeta, c(0), c(1), c(2), c(3), x);
        in_tetrahedron(&zeta)
    };
    is_in.then_some(zeta)
}

/// What document 01 says of a search in an index that passes 1, 24, 19 and 13.
fn reading(lent: &Lent, flat: &Flat, x: &[f64], room: usize) -> Told {
    let i = read(lent);
    let refused = |number: u64| Told::refused(number, room);
    if room != 4 {
        return refused(25);
    }
    if x.len() != i.n {
        return refused(2);
    }
    if x.iter().chain(&flat.coords).any(|v| !(v.abs() <= LIMIT)) {
        return refused(3);
    }
    if (0..i.n).any(|a| x[a] < i.xmin[a] || x[a] > i.xmax[a]) {
        return refused(11);
    }
    if (0..i.n).any(|a| ((x[a] - i.xmin[a]) / i.side).trunc() > i.ndiv[a] as f64) {
        return refused(17);
    }
    let key = calc_container_key(i.n, i.side, &i.ndiv, i.xmin, x) as u64;
    let filed = (0..i.used).filter(|r| lent.keys[*r] == key).map(|r| lent.cells[r]);
    for cell in lent.large[..i.large].iter().copied().chain(filed) {
        if let Some(zeta) = inside(flat, cell as usize, x) {
            return Told::found(i.n, cell as usize, &zeta);
        }
    }
    Told::nothing()
}

/// Whether an answer is one that gemlab can give: its candidates come in any order, large ones first.
pub(crate) fn possible(rust: &GridCells, f: &IndexFields, ndim: usize, x: &[f64], told: &Told) -> bool {
    let holds = |cell: usize| {
        let mut zeta = [ZETA; 4];
        rust.holds(&mut zeta, x, cell).then_some((cell, zeta))
    };
    let mut accepted: Vec<_> = f.large.iter().filter_map(|cell| holds(*cell)).collect();
    if accepted.is_empty() {
        let key = calc_container_key(ndim, f.side_length, &f.ndiv, &f.xmin, x);
        let first = f.rows.partition_point(|row| row.0 < key);
        accepted = f.rows[first..].iter().take_while(|row| row.0 == key).filter_map(|row| holds(row.1)).collect();
    }
    let mut zeta = [ZETA; 4];
    match (rust.search(&mut zeta, x), told.number, told.found) {
        (Ok(None), 0, 0) => accepted.is_empty(),
        (Ok(Some(cell)), 0, 1) => {
            accepted.iter().any(|a| a.0 == cell)
                && accepted.iter().any(|(cell, zeta)| told.equals(&Told::found(ndim, *cell, zeta)))
                && (cell as u64 != told.cell || told.equals(&Told::found(ndim, cell, &zeta)))
        }
        (Err("given point coordinates are outside the grid"), 11, _) => true,
        _ => false,
    }
}

/// Positions of every kind about an index.
struct Positions {
    r: Random,
}

impl Positions {
    fn position(&mut self, flat: &Flat, f: &IndexFields) -> Vec<f64> {
        let n = flat.ndim;
        let r = &mut self.r;
        let cell = r.below(flat.ncell() as u64) as usize;
        let mut corner = || r.below(n as u64 + 1) as usize;
        let (a, b) = (flat.corner(cell, corner()), flat.corner(cell, corner()));
        let mut x: Vec<f64> = match r.below(7) {
            // a vertex, and the middle and another point of an edge
            0 => a.to_vec(),
            1 => a.iter().zip(b).map(|(p, q)| (p + q) / 2.0).collect(),
            2 => {
                let s = r.between(0.0, 1.0);
                a.iter().zip(b).map(|(p, q)| p + (q - p) * s).collect()
            }
            // in the cell
            3 | 4 => {
                let weights: Vec<f64> = (0..=n).map(|_| r.between(0.0, 1.0)).collect();
                let sum: f64 = weights.iter().sum();
                (0..n).map(|axis| (0..=n).map(|k| weights[k] / sum * flat.corner(cell, k)[axis]).sum()).collect()
            }
            // on faces of containers
            5 => (0..n)
                .map(|axis| match r.below(3) {
                    0 => a[axis],
                    _ => f.xmin[axis] + f.side_length * r.below(f.ndiv[axis] as u64 + 1) as f64,
                })
                .collect(),
            _ => (0..n).map(|axis| r.between(f.xmin[axis], f.xmax[axis])).collect(),
        };
        if r.below(3) == 0 {
            for v in &mut x {
                *v = *r.pick(&around(*v));
            }
        }
        if r.below(40) == 0 {
            let axis = r.below(n as u64) as usize;
            x[axis] = *r.pick(&[
                f.xmin[axis],
                down(f.xmin[axis]),
                f.xmax[axis],
                up(f.xmax[axis]),
                LIMIT,
                -LIMIT,
                up(LIMIT),
                f64::NAN,
                f64::INFINITY,
                f64::NEG_INFINITY,
                0.0,
                -0.0,
            ]);
        }
        if r.below(200) == 0 {
            x.push(0.0);
        }
        if r.below(200) == 0 {
            x.truncate(r.below(3) as usize);
        }
        x
    }
}

/// Changes one thing of an index that is handed to a search; most of it is damage, some is only another index.
fn change(lent: &mut Lent, flat: &mut Flat, r: &mut Random) {
    let n = flat.ndim;
    let (used, large) = (lent.numbers[4] as usize, lent.numbers[5] as usize);
    let row = r.below(used as u64) as usize;
    let axis = r.below(n as u64) as usize;
    let big = 16777216.0;
    match r.below(26) {
        0 => {
            lent.floats[0] = *r.pick(&[
                0.0,
                -1.0,
                f64::NAN,
                f64::INFINITY,
                1.0 / 524288.0,
                down(1.0 / 524288.0),
                4194304.0,
                up(4194304.0),
                5e-324,
            ])
        }
        1 => lent.numbers[1 + axis] = *r.pick(&[0, 1, 1024, 1025, u64::MAX, 1 << 32 | 1]),
        2 => lent.floats[1 + axis] = *r.pick(&[f64::NAN, f64::NEG_INFINITY, -big, -up(big), big, up(big)]),
        3 => lent.floats[4 + axis] = *r.pick(&[f64::NAN, f64::INFINITY, big, up(big), -big, -up(big)]),
        4 => lent.floats[4 + axis] = *r.pick(&around(lent.floats[1 + axis])),
        5 => lent.numbers[4] = *r.pick(&[lent.keys.len() as u64, lent.keys.len() as u64 + 1, u64::MAX, 0]),
        6 => lent.numbers[5] = *r.pick(&[lent.large.len() as u64, lent.large.len() as u64 + 1, u64::MAX, 0]),
        7 => lent.keys.push(0),
        8 => lent.cells.push(0),
        9 => {
            let other = r.below(used as u64) as usize;
            lent.keys.swap(row, other);
            lent.cells.swap(row, other);
        }
        // a row twice, and rows of one container in another order
        10 if row > 0 => {
            lent.keys[row] = lent.keys[row - 1];
            lent.cells[row] = lent.cells[row - 1];
        }
        11 if row > 0 => lent.cells.swap(row - 1, row),
        12 => lent.keys[used - 1] = lent.numbers[1..=n].iter().product::<u64>() - r.below(2),
        13 => lent.keys[row] = *r.pick(&[u64::MAX, 1 << 40]),
        14 => lent.cells[row] = *r.pick(&[flat.ncell() as u64, flat.ncell() as u64 - 1, u64::MAX]),
        15 if large > 0 => {
            lent.large[large - 1] = *r.pick(&[flat.ncell() as u64, flat.ncell() as u64 - 1, u64::MAX, 0])
        }
        16 if large > 1 => {
            let i = r.below(large as u64 - 1) as usize;
            lent.large.swap(i, i + 1);
        }
        17 if large > 1 => lent.large[1] = lent.large[0],
        18 => lent.numbers.truncate(r.below(6) as usize),
        19 => lent.numbers.push(1),
        20 => lent.floats.truncate(r.below(7) as usize),
        21 => lent.floats.push(1.0),
        22 => {
            lent.numbers[0] = *r.pick(&[0, 1, 2, 3, 4, u64::MAX]);
            if lent.numbers[0] == 2 || lent.numbers[0] == 3 {
                flat.ndim = lent.numbers[0] as usize;
            }
        }
        // the mesh
        23 => {
            let i = r.below(flat.corners.len() as u64) as usize;
            flat.corners[i] = *r.pick(&[flat.npoint() as u32, 0, u32::MAX]);
        }
        24 => {
            let i = r.below(flat.coords.len() as u64) as usize;
            flat.coords[i] = *r.pick(&[f64::NAN, f64::INFINITY, LIMIT, up(LIMIT), 0.0]);
        }
        _ => match r.below(4) {
            0 => {
                flat.coords.pop();
            }
            1 => {
                flat.corners.pop();
            }
            // not judged in 2D
            _ if n == 2 => {
                lent.numbers[3] = r.next();
                lent.floats[3] = r.pattern();
                lent.floats[6] = r.pattern();
            }
            _ => {}
        },
    }
}

/// The index that the build writes, with entries past its counts, and gemlab's. A build that goes otherwise than it should is
/// told; none where document 01 refuses it, since gemlab asserts or goes astray there.
pub(crate) fn built<'a>(
    flat: &Flat,
    mesh: &'a Mesh,
    s: &Settings,
    r: &mut Random,
    t: &mut Tally,
) -> Option<(Lent, GridCells<'a>)> {
    let ndim = flat.ndim as u64;
    let mut lent = Lent::new((flat.ncell() << flat.ndim).min(MOST_ROWS), flat.ncell().min(MOST_ROWS), r);
    if let Some(number) = fault(ndim, flat, s, &lent) {
        t.equal(lent.build(ndim, flat, s), number, || format!("the index of {flat:?} by {s:?}"));
        return None;
    }
    let rust =
        s.rust(mesh).map_err(|text| t.check(false, || format!("gemlab says {text} of {flat:?} by {s:?}"))).ok()?;
    let f = rust.fields();
    let spare = r.below(3) as usize;
    lent = Lent::new((f.rows.len() + spare).min(MOST_ROWS), (f.large.len() + spare).min(MOST_ROWS), r);
    let number = lent.build(ndim, flat, s);
    t.equal(number, 0, || format!("the index of {flat:?} by {s:?}"));
    (number == 0).then_some((lent, rust))
}

/// Searches of one index beside gemlab's.
fn searches(flat: &Flat, lent: &Lent, rust: &GridCells, count: usize, p: &mut Positions, t: &mut Tally) {
    let f = rust.fields();
    let n = flat.ndim;
    t.equal(index_fault(lent, flat), None, || format!("an index that the build wrote: {lent:?}"));
    for _ in 0..count {
        let x = p.position(flat, &f);
        let room = if p.r.below(100) == 0 { p.r.below(6) as usize } else { 4 };
        let told = search(lent, flat, &x, room);
        let want = reading(lent, flat, &x, room);
        t.number("grid_cells_search", told.number, want.number, || format!("{x:?} in {flat:?} by {lent:?}"));
        t.check(told.equals(&want), || format!("{told:?} here, {want:?} there: {x:?} in {flat:?} by {lent:?}"));
        match told.number {
            0 | 11 => t.check(possible(rust, &f, n, &x, &told), || {
                format!("gemlab cannot give {told:?} of {x:?} in {flat:?}")
            }),
            13 => t.check(false, || format!("13 of an index that the build wrote: {lent:?}")),
            _ => {}
        }
    }
}

/// Searches of an index that was changed, judged by the reading alone.
fn changed(flat: &Flat, lent: &Lent, f: &IndexFields, p: &mut Positions, t: &mut Tally) {
    let (mut flat, mut lent) = (flat.clone(), lent.clone());
    let x = p.position(&flat, f);
    change(&mut lent, &mut flat, &mut p.r);
    if p.r.below(4) == 0 && index_fault(&lent, &flat).is_none() && lent.numbers[4] > 0 {
        change(&mut lent, &mut flat, &mut p.r);
    }
    let room = if p.r.below(20) == 0 { 3 } else { 4 };
    let told = search(&lent, &flat, &x, room);
    let want = match index_fault(&lent, &flat) {
        Some(number) => Told::refused(number, room),
        None => reading(&lent, &flat, &x, room),
    };
    t.number("grid_cells_search", told.number, want.number, || format!("{x:?} in {flat:?} by {lent:?}"));
    t.check(told.equals(&want), || format!("{told:?} here, {want:?} there: {x:?} in {flat:?} by {lent:?}"));
}

fn small(t: &mut Tally) {
    let mut m = Meshes::new(41);
    let mut r = Random::new(42);
    let mut p = Positions { r: Random::new(43) };
    let mut indices = 0;
    for _ in 0..4 * INDICES {
        if indices == INDICES {
            break;
        }
        let flat = m.small();
        let s =
            if r.below(3) == 0 { Settings { large_pct: Some(0.9), ..Settings::default() } } else { settings(&mut r) };
        let mesh = flat.mesh();
        let Some((lent, rust)) = built(&flat, &mesh, &s, &mut r, t) else { continue };
        indices += 1;
        searches(&flat, &lent, &rust, SEARCHES, &mut p, t);
        let f = rust.fields();
        for _ in 0..30 {
            changed(&flat, &lent, &f, &mut p, t);
        }
    }
    t.equal(indices, INDICES, || "indices that were searched".to_string());
}

fn big(t: &mut Tally) {
    let mut r = Random::new(44);
    let mut p = Positions { r: Random::new(45) };
    let apart = Settings { large_cutoff: Some(0.5), large_pct: Some(0.5), ..Settings::default() };
    for flat in [
        structured(&[22, 23], 0.25, &[-3.0, 0.1]),
        structured(&[90, 90], 0.25, &[-3.0, 0.1]),
        structured(&[5, 6, 6], 0.5, &[0.0, 100.0, -7.0]),
        structured(&[11, 11, 11], 0.5, &[0.0, 100.0, -7.0]),
        scattered(2, 16_000, 50.0, |r, i| if i % 10 == 0 { r.between(1.0, 9.0) } else { 0.3 }, &mut r),
        scattered(3, 8_000, 50.0, |r, i| if i % 10 == 0 { r.between(1.0, 9.0) } else { 0.3 }, &mut r),
    ] {
        for s in [Settings::default(), apart] {
            let mesh = flat.mesh();
            let Some((lent, rust)) = built(&flat, &mesh, &s, &mut r, t) else { continue };
            searches(&flat, &lent, &rust, FEW, &mut p, t);
        }
    }
}

/// Lists of 65,536 entries and of one more, and refusals before one another.
fn long(t: &mut Tally) {
    let mut r = Random::new(46);
    for ndim in [2, 3] {
        let flat = structured(&vec![2; ndim], 1.0, &vec![0.0; ndim]);
        let mut index = Lent::new(512, 64, &mut r);
        t.equal(index.build(ndim as u64, &flat, &Settings::default()), 0, || "a small index".to_string());
        let x = vec![0.5; ndim];
        for n in [MOST_ROWS, MOST_ROWS + 1] {
            for which in 0..7 {
                let (mut flat, mut lent) = (flat.clone(), index.clone());
                match which {
                    0 => lent.keys.resize(n, 5),
                    1 => lent.cells.resize(n, 5),
                    2 => lent.large.resize(n, 5),
                    3 | 4 => {
                        lent.keys.resize(n, 5);
                        lent.cells.resize(n, 6);
                    }
                    5 => flat.coords.resize(n * ndim, 0.5),
                    _ => {
                        let again = flat.corners[..ndim + 1].to_vec();
                        while flat.corners.len() < n * (ndim + 1) {
                            flat.corners.extend(&again);
                        }
                    }
                }
                if which == 4 {
                    // damaged besides
                    lent.floats[0] = f64::NAN;
                    flat.corners[0] = u32::MAX;
                }
                let told = search(&lent, &flat, &x, 4);
                let want = match index_fault(&lent, &flat) {
                    Some(number) => Told::refused(number, 4),
                    None => reading(&lent, &flat, &x, 4),
                };
                t.number("grid_cells_search", told.number, want.number, || format!("list {which} of {n} in {ndim}D"));
                t.check(told.equals(&want), || {
                    format!("{told:?} here, {want:?} there: list {which} of {n} in {ndim}D")
                });
            }
        }
    }
}

/// Document 01's lines on triangles.
fn examples(t: &mut Tally) {
    let mut r = Random::new(47);
    let one = Flat { ndim: 2, coords: vec![0.0, 0.0, 4.0, 0.0, 0.0, 4.0], corners: vec![0, 1, 2] };
    let thin = Flat { ndim: 2, coords: vec![0.0, 0.0, 1.0, 0.0, 2.0, 0.0], corners: vec![0, 1, 2] };
    for (flat, x, zeta) in [
        (&one, [1.0, 1.0], Some([0.5, 0.25, 0.25])),
        (&one, [2.0, 2.0], Some([0.0, 0.5, 0.5])),
        (&one, [3.0, 3.0], None),
        (&thin, [1.0, 0.0], Some([f64::NAN; 3])),
    ] {
        let mut lent = Lent::new(4, 0, &mut r);
        t.equal(lent.build(2, flat, &Settings::default()), 0, || format!("{flat:?}"));
        let told = search(&lent, flat, &x, 4);
        let want = match zeta {
            Some(z) => Told::found(2, 0, &[z[0], z[1], z[2], 0.0]),
            None => Told::nothing(),
        };
        t.check(told.equals(&want) && same(told.zeta[3], ZETA), || {
            format!("{told:?} here, {want:?} there: {x:?} in {flat:?}")
        });
    }
}

pub fn compare(t: &mut Tally) {
    examples(t);
    small(t);
    big(t);
    long(t);
    t.met("grid_cells_search", &[0, 1, 2, 3, 11, 13, 17, 19, 24, 25]);
}

/// Nanoseconds of a search on each of xs: the best of several rounds.
fn best(rounds: usize, xs: &[Vec<f64>], mut f: impl FnMut(&[f64])) -> f64 {
    let mut best = f64::INFINITY;
    for _ in 0..rounds {
        let start = Instant::now();
        for x in xs {
            f(x);
        }
        best = best.min(start.elapsed().as_nanos() as f64 / xs.len() as f64);
    }
    best
}

/// One line of times for a mesh: the look through the lists, a whole search, and gemlab's.
pub fn measure(name: &str, flat: &Flat, lent: &Lent, rust: &GridCells) {
    let f = rust.fields();
    let n = flat.ndim;
    let mut r = Random::new(48);
    let rounds = 200_000 / lent.numbers[4] as usize + 5;
    let xs: Vec<Vec<f64>> = (0..256).map(|_| (0..n).map(|a| r.between(f.xmin[a], f.xmax[a])).collect()).collect();
    let outside: Vec<Vec<f64>> = xs.iter().map(|x| x.iter().map(|v| v - 1000.0).collect()).collect();
    let mut found = 0;
    let here = best(rounds, &xs, |x| {
        let told = search(lent, flat, x, 4);
        assert_eq!(told.number, 0);
        found = found.max(told.found);
    });
    // a position outside is refused once the lists are looked through
    let check = best(rounds, &outside, |x| assert_eq!(search(lent, flat, x, 4).number, 11));
    let mut zeta = [0.0; 4];
    let there = best(rounds.max(50), &xs, |x| {
        black_box(rust.search(&mut zeta, x).unwrap());
    });
    let past = here - check;
    println!("{name:<18} {:>6} {:>6} {check:>9.0} {here:>9.0} {past:>9.0} {there:>9.0}", flat.ncell(), lent.numbers[4]);
}
