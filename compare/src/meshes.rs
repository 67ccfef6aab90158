//! Meshes of triangles and tetrahedra in flat lists: structured, random, graded, overlapping and degenerate.

use crate::random::Random;
use gemlab::mesh::Mesh;

/// Coordinates, 2 or 3 a point, and point numbers, 3 or 4 a cell.
#[derive(Clone, Debug)]
pub(crate) struct Flat {
    pub(crate) ndim: usize,
    pub(crate) coords: Vec<f64>,
    pub(crate) corners: Vec<u32>,
}

impl Flat {
    pub(crate) fn new(ndim: usize) -> Self {
        Flat { ndim, coords: Vec::new(), corners: Vec::new() }
    }

    pub(crate) fn npoint(&self) -> usize {
        self.coords.len() / self.ndim
    }

    pub(crate) fn ncell(&self) -> usize {
        self.corners.len() / (self.ndim + 1)
    }

    pub(crate) fn point(&self, p: usize) -> &[f64] {
        &self.coords[p * self.ndim..(p + 1) * self.ndim]
    }

    /// Corner k of a cell.
    pub(crate) fn corner(&self, cell: usize, k: usize) -> &[f64] {
        self.point(self.corners[cell * (self.ndim + 1) + k] as usize)
    }

    pub(crate) fn mesh(&self) -> Mesh {
        Mesh::from_lists(self.ndim, &self.coords, &self.corners)
    }

    /// A cell with points of its own.
    fn add(&mut self, corners: &[Vec<f64>]) {
        for x in corners {
            self.corners.push(self.npoint() as u32);
            self.coords.extend(x);
        }
    }
}

/// Squares or cubes, so many along each axis, of this side from `low` on, each cut into 2 triangles or 6 tetrahedra.
pub(crate) fn structured(counts: &[usize], side: f64, low: &[f64]) -> Flat {
    let ndim = counts.len();
    let mut flat = Flat::new(ndim);
    let depth = if ndim == 2 { 0 } else { counts[2] };
    let number = |i: [usize; 3]| (i[0] + (counts[0] + 1) * (i[1] + (counts[1] + 1) * i[2])) as u32;
    for k in 0..=depth {
        for j in 0..=counts[1] {
            for i in 0..=counts[0] {
                let at = [i, j, k];
                flat.coords.extend((0..ndim).map(|a| low[a] + side * at[a] as f64));
            }
        }
    }
    let ways: &[&[usize]] = if ndim == 2 {
        &[&[0, 1], &[1, 0]]
    } else {
        &[&[0, 1, 2], &[0, 2, 1], &[1, 0, 2], &[1, 2, 0], &[2, 0, 1], &[2, 1, 0]]
    };
    for k in 0..depth.max(1) {
        for j in 0..counts[1] {
            for i in 0..counts[0] {
                for way in ways {
                    // from the low corner to the high one, axis by axis
                    let mut at = [i, j, k];
                    flat.corners.push(number(at));
                    for a in *way {
                        at[*a] += 1;
                        flat.corners.push(number(at));
                    }
                }
            }
        }
    }
    flat
}

/// Cells with points of their own: a corner in a box of side `wide`, the others within the length that `size` gives.
pub(crate) fn scattered(
    ndim: usize,
    ncell: usize,
    wide: f64,
    mut size: impl FnMut(&mut Random, usize) -> f64,
    r: &mut Random,
) -> Flat {
    let mut flat = Flat::new(ndim);
    for cell in 0..ncell {
        let h = size(r, cell);
        let low: Vec<f64> = (0..ndim).map(|_| r.between(0.0, wide)).collect();
        let corners: Vec<Vec<f64>> = (0..=ndim).map(|_| low.iter().map(|x| x + r.between(0.0, h)).collect()).collect();
        flat.add(&corners);
    }
    flat
}

/// Small meshes of every kind.
pub(crate) struct Meshes {
    pub(crate) r: Random,
}

impl Meshes {
    pub(crate) fn new(seed: u64) -> Self {
        Meshes { r: Random::new(seed) }
    }

    fn scale(&mut self) -> f64 {
        *self.r.pick(&[1.0, 1.0, 0.125, 3.0, 0.1, 1e-3, 100.0, 4096.0])
    }

    /// Points on a coarse lattice, so that edges and boxes meet, or anywhere.
    fn points(&mut self, ndim: usize, n: usize, scale: f64) -> Vec<f64> {
        let lattice = self.r.below(2) == 0;
        (0..n * ndim)
            .map(|_| match lattice {
                true => scale * (self.r.below(9) as f64 - 4.0),
                false => scale * self.r.between(-4.0, 4.0),
            })
            .collect()
    }

    /// Cells over any points, which lie on each other.
    fn soup(&mut self, ndim: usize) -> Flat {
        let scale = self.scale();
        let npoint = 1 + self.r.below(12) as usize;
        let coords = self.points(ndim, npoint, scale);
        let ncell = 1 + self.r.below(12) as usize;
        let corners = (0..ncell * (ndim + 1)).map(|_| self.r.below(npoint as u64) as u32).collect();
        Flat { ndim, coords, corners }
    }

    /// Cells of sizes 1, 1/2, 1/4 and so on, so that a cutoff can be met exactly.
    fn graded(&mut self, ndim: usize) -> Flat {
        let scale = self.scale();
        let ncell = 2 + self.r.below(20) as usize;
        let mut flat = Flat::new(ndim);
        let steps = 1 + self.r.below(6);
        for _ in 0..ncell {
            let h = scale * (0.5f64).powi(self.r.below(steps) as i32);
            let low: Vec<f64> = (0..ndim).map(|_| h * self.r.below(8) as f64).collect();
            let corners: Vec<Vec<f64>> =
                (0..=ndim).map(|k| (0..ndim).map(|a| low[a] + if k == a + 1 { h } else { 0.0 }).collect()).collect();
            flat.add(&corners);
        }
        flat
    }

    fn grid(&mut self, ndim: usize) -> Flat {
        let most = if ndim == 2 { 4 } else { 2 };
        let counts: Vec<usize> = (0..ndim).map(|_| 1 + self.r.below(most) as usize).collect();
        let low: Vec<f64> = (0..ndim).map(|_| *self.r.pick(&[0.0, -0.0, -1.0, 0.3, 1000.0])).collect();
        let scale = self.scale();
        structured(&counts, scale, &low)
    }

    /// A mesh of at most some 50 cells.
    pub(crate) fn small(&mut self) -> Flat {
        let ndim = 2 + self.r.below(2) as usize;
        let mut flat = match self.r.below(6) {
            0 => self.soup(ndim),
            1 | 2 => self.graded(ndim),
            3 => {
                let n = 1 + self.r.below(30) as usize;
                let wide = self.scale();
                let most = wide * self.r.between(0.0, 2.0);
                scattered(ndim, n, wide, |r, _| r.between(0.0, most), &mut self.r)
            }
            _ => self.grid(ndim),
        };
        match self.r.below(10) {
            // a cell that is flat, or a point
            0 => {
                let n = flat.corners.len() as u64;
                for _ in 0..1 + self.r.below(3) {
                    let from = flat.corners[self.r.below(n) as usize];
                    flat.corners[self.r.below(n) as usize] = from;
                }
            }
            // all points on one axis's value, or nearly
            1 => {
                let axis = self.r.below(ndim as u64) as usize;
                let thin = *self.r.pick(&[0.0, 5e-324, 1e-310, 1e-9]);
                for p in 0..flat.npoint() {
                    flat.coords[p * ndim + axis] = thin * self.r.below(3) as f64;
                }
            }
            // cells twice
            2 => {
                let again = flat.corners.clone();
                flat.corners.extend(again);
            }
            // points that no cell has
            3 => {
                let more = self.r.below(4) as usize;
                let x = self.points(ndim, more, 1e5);
                flat.coords.extend(x);
            }
            // zeros of both signs
            4 => {
                for x in &mut flat.coords {
                    if self.r.below(3) == 0 {
                        *x = *self.r.pick(&[0.0, -0.0]);
                    }
                }
            }
            _ => {}
        }
        flat
    }
}
