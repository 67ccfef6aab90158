//! A sample of gemlab's cell builds and cell searches, for the program `replay`, made as libraries.rs says.

use crate::random::Random;
use crate::words::{three, Words};
use gemlab::mesh::{GridCells, Mesh};

/// The kinds of entries. 0 ends a file.
const MESH: u64 = 7;
pub const BUILD: u64 = 8;
pub const PROBE: u64 = 9;

/// Meshes, and positions in each.
const MESHES: usize = 24;
const PROBES: usize = 40;

/// The room that the program has: for coordinates, corners, rows and large cells.
const COORDS: usize = 128;
const CORNERS: usize = 256;
const ROWS: usize = 512;
const LARGE: usize = 64;

/// Flat coordinates and corners.
struct Flat {
    ndim: usize,
    coords: Vec<f64>,
    corners: Vec<u32>,
}

impl Flat {
    /// A grid of squares, each of two triangles, or of cubes, each of six tetrahedra, with its points moved a little.
    fn random(r: &mut Random, ndim: usize) -> Self {
        let n: Vec<usize> =
            (0..3).map(|i| if i < ndim { 1 + r.below(if ndim == 2 { 5 } else { 2 }) as usize } else { 0 }).collect();
        let size = *r.pick(&[1.0, 0.25, 40.0]);
        let shake = *r.pick(&[0.0, 0.2]);
        let mut coords = Vec::new();
        for k in 0..=n[2] {
            for j in 0..=n[1] {
                for i in 0..=n[0] {
                    for at in [i, j, k].iter().take(ndim) {
                        coords.push(size * (*at as f64 + r.between(-shake, shake)));
                    }
                }
            }
        }
        // one long axis makes large cells of some
        if r.below(2) == 0 {
            let last = coords.len() - ndim;
            coords[last] += size * 6.0;
        }
        let point = |i: usize, j: usize, k: usize| ((k * (n[1] + 1) + j) * (n[0] + 1) + i) as u32;
        let mut corners = Vec::new();
        for k in 0..n[2].max(1) {
            for j in 0..n[1] {
                for i in 0..n[0] {
                    let p = |c: usize| point(i + c % 2, j + c / 2 % 2, k + c / 4);
                    if ndim == 2 {
                        corners.extend([p(0), p(1), p(3), p(0), p(3), p(2)]);
                    } else {
                        for path in [[1, 3], [1, 5], [2, 3], [2, 6], [4, 5], [4, 6]] {
                            corners.extend([p(0), p(path[0]), p(path[1]), p(7)]);
                        }
                    }
                }
            }
        }
        Flat { ndim, coords, corners }
    }

    /// The mesh, which later builds and searches are about.
    fn store(&self, w: &mut Words) -> Mesh {
        assert!(self.coords.len() <= COORDS && self.corners.len() <= CORNERS);
        w.entry(MESH);
        w.count(self.ndim);
        w.position(&self.coords);
        w.count(self.corners.len());
        self.corners.iter().for_each(|c| w.word(*c as u64));
        Mesh::from_lists(self.ndim, &self.coords, &self.corners)
    }
}

/// A build, with the index as the C interface lays it out.
fn store_build<'a>(w: &mut Words, mesh: &'a Mesh, settings: [Option<f64>; 4]) -> Option<GridCells<'a>> {
    w.entry(BUILD);
    settings.iter().for_each(|x| w.setting(*x));
    let [tolerance, border, cutoff, pct] = settings;
    let index = w.answer(GridCells::new(mesh, tolerance, border, cutoff, pct))?;
    let f = index.fields();
    assert!(f.side_length > 0.0 && f.ndiv.iter().all(|n| 1 <= *n && *n <= 1024));
    assert!(f.rows.len() <= ROWS && f.large.len() <= LARGE);
    w.count(f.rows.len());
    w.count(f.large.len());
    w.count(mesh.ndim);
    (0..3).for_each(|i| w.count(f.ndiv.get(i).copied().unwrap_or(1)));
    w.count(f.rows.len());
    w.count(f.large.len());
    w.float(f.side_length);
    w.floats(&three(&f.xmin));
    w.floats(&three(&f.xmax));
    f.rows.iter().for_each(|row| w.count(row.0));
    f.rows.iter().for_each(|row| w.count(row.1));
    f.large.iter().for_each(|cell| w.count(*cell));
    Some(index)
}

/// A position in the mesh: a point of it, between points, anywhere, outside or of another length.
fn probe(r: &mut Random, flat: &Flat, index: &GridCells) -> Vec<f64> {
    let f = index.fields();
    let ndim = flat.ndim;
    let point = |r: &mut Random| -> Vec<f64> {
        let i = r.below((flat.coords.len() / ndim) as u64) as usize;
        flat.coords[i * ndim..(i + 1) * ndim].to_vec()
    };
    match r.below(8) {
        0 => point(r),
        1 | 2 => {
            let (p, q) = (point(r), point(r));
            p.iter().zip(&q).map(|(a, b)| (a + b) / 2.0).collect()
        }
        3 => {
            let mut x = point(r);
            match r.below(3) {
                0 => x[0] = f.xmax[0].next_up(),
                1 => x.push(0.0),
                _ => {
                    x.pop();
                }
            }
            x
        }
        _ => {
            // between two points of the mesh, apart on each axis
            let (p, q) = (point(r), point(r));
            (0..ndim).map(|i| r.between(p[i].min(q[i]), p[i].max(q[i]))).collect()
        }
    }
}

/// The cells that a search may give, each with its coordinates.
fn holding(index: &GridCells, x: &[f64]) -> Vec<(usize, [f64; 4])> {
    let f = index.fields();
    let held = |cells: Vec<usize>| -> Vec<(usize, [f64; 4])> {
        let mut zeta = [0.0; 4];
        cells.into_iter().filter_map(|cell| index.holds(&mut zeta, x, cell).then_some((cell, zeta))).collect()
    };
    let large = held(f.large);
    if !large.is_empty() {
        return large;
    }
    let key = gemlab::util::calc_container_key(x.len(), f.side_length, &f.ndiv, &f.xmin, x);
    held(f.rows.iter().filter(|row| row.0 == key).map(|row| row.1).collect())
}

fn store_probe(w: &mut Words, index: &GridCells, x: &[f64]) {
    w.entry(PROBE);
    w.position(x);
    let mut zeta = [0.0; 4];
    if let Some(found) = w.answer(index.search(&mut zeta, x)) {
        let cells = holding(index, x);
        assert_eq!(found.is_some(), !cells.is_empty());
        assert!(found.is_none_or(|cell| cells.iter().any(|c| c.0 == cell)));
        w.count(cells.len());
        for (cell, zeta) in cells {
            w.count(cell);
            w.floats(&zeta[..x.len() + 1]);
        }
    }
}

pub fn meshes() -> Words {
    let mut w = Words::default();
    let mut r = Random::new(12);
    let one = Flat { ndim: 2, coords: vec![0.0, 0.0, 4.0, 0.0, 0.0, 4.0], corners: vec![0, 1, 2] };
    let mesh = one.store(&mut w);
    for settings in [
        [Some(0.0), None, None, None],
        [Some(-1.0), None, None, None],
        [None, Some(-0.5), None, None],
        [None, None, Some(-0.25), None],
        [None, None, Some(1.5), None],
        [None, None, None, Some(-0.25)],
        [None, None, None, Some(1.5)],
    ] {
        assert!(store_build(&mut w, &mesh, settings).is_none());
    }
    for i in 0..MESHES {
        let flat = Flat::random(&mut r, 2 + i % 2);
        let settings = match r.below(4) {
            0 => [Some(0.001), Some(0.0), None, None],
            1 => [None, Some(0.5), Some(0.5), Some(0.4)],
            _ => [None; 4],
        };
        let mesh = flat.store(&mut w);
        let index = store_build(&mut w, &mesh, settings).unwrap();
        for _ in 0..PROBES {
            let x = probe(&mut r, &flat, &index);
            store_probe(&mut w, &index, &x);
        }
    }
    w.word(0);
    w
}
