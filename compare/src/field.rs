//! What gemlab's answers, which are the library's too, mean in the field: meshes and marks from a fixed generator, searched by both.
//! README and `include/gemlab.h` have these counts.

use crate::cell_search::{built, possible, search};
use crate::cells::{Lent, Settings};
use crate::meshes::{structured, Flat};
use crate::near::{down, up};
use crate::random::Random;
use crate::rows;
use crate::tally::Tally;
use gemlab::geometry::{tetrahedron_coords, triangle_coords};
use gemlab::mesh::{GridCells, IndexFields};
use std::collections::{BTreeMap, BTreeSet};

/// Low corners of meshes: easting, northing and height somewhere in the field, and a local origin.
const FIELD: [f64; 3] = [500000.0, 900000.0, 400.0];
const LOCAL: [f64; 3] = [0.0; 3];

/// A mesh of this width from a low corner on: squares or cubes, so many along each axis, that are cut into cells, the points within
/// moved by up to a tenth of a side.
fn field_mesh(ndim: usize, along: usize, wide: f64, low: &[f64], r: &mut Random) -> Flat {
    let side = wide / along as f64;
    let mut flat = structured(&vec![along; ndim], 1.0, &vec![0.0; ndim]);
    for p in 0..flat.npoint() {
        let at = &mut flat.coords[p * ndim..(p + 1) * ndim];
        let within = at.iter().all(|x| *x > 0.0 && *x < along as f64);
        for (x, from) in at.iter_mut().zip(low) {
            let moved = if within { r.between(-0.1, 0.1) } else { 0.0 };
            *x = from + side * (*x + moved);
        }
    }
    flat
}

/// A mesh with the library's index of it and gemlab's, every setting left out.
struct Site<'a> {
    flat: &'a Flat,
    lent: Lent,
    rust: GridCells<'a>,
    fields: IndexFields,
}

/// Does something on the site of a mesh.
fn on_site(flat: &Flat, t: &mut Tally, work: impl FnOnce(&Site, &mut Tally)) {
    let mesh = flat.mesh();
    if let Some((lent, rust)) = built(flat, &mesh, &Settings::default(), &mut Random::new(51), t) {
        let fields = rust.fields();
        work(&Site { flat, lent, rust, fields }, t);
    }
}

impl Site<'_> {
    /// The library's answer, a cell and the coordinates in it, which has to be one that gemlab can give.
    fn search(&self, x: &[f64], t: &mut Tally) -> Option<(usize, Vec<f64>)> {
        let told = search(&self.lent, self.flat, x, 4);
        t.number("grid_cells_search", told.number, 0, || format!("{x:?} in {:?}", self.flat));
        t.check(possible(&self.rust, &self.fields, self.flat.ndim, x, &told), || {
            format!("gemlab cannot give {told:?} of {x:?} in {:?}", self.flat)
        });
        (told.found == 1).then(|| (told.cell as usize, told.zeta[..=self.flat.ndim].to_vec()))
    }

    /// How far outside every cell a position is: the least coordinate that it has in a cell, at best.
    fn best(&self, x: &[f64]) -> f64 {
        let (n, flat) = (self.flat.ndim, self.flat);
        let in_box = |cell: &usize| {
            (0..n).all(|axis| {
                let at = |k: usize| flat.corner(*cell, k)[axis];
                (0..=n).any(|k| at(k) <= x[axis]) && (0..=n).any(|k| at(k) >= x[axis])
            })
        };
        let least = |cell: usize| {
            let c = |k: usize| flat.corner(cell, k);
            let mut zeta = vec![0.0; n + 1];
            match n {
                2 => triangle_coords(&mut zeta, c(0), c(1), c(2), x),
                _ => tetrahedron_coords(&mut zeta, c(0), c(1), c(2), c(3), x),
            }
            zeta.into_iter().fold(f64::INFINITY, f64::min)
        };
        (0..flat.ncell()).filter(in_box).map(least).fold(f64::NEG_INFINITY, f64::max)
    }
}

/// Every choice of so many points of a cell or of its side, in order.
fn parts(cell: &[u32], points: usize) -> Vec<Vec<u32>> {
    let chosen = (0u32..1 << cell.len()).filter(|set| set.count_ones() as usize == points);
    chosen
        .map(|set| {
            let mut part: Vec<u32> = (0..cell.len()).filter(|k| set >> k & 1 == 1).map(|k| cell[k]).collect();
            part.sort();
            part
        })
        .collect()
}

/// The nodes (1), edges (2), triangles (3) or tetrahedra (4) of a mesh that are not at its surface, by their points.
fn inner(flat: &Flat, points: usize) -> BTreeSet<Vec<u32>> {
    let n = flat.ndim + 1;
    let mut sides: BTreeMap<Vec<u32>, usize> = BTreeMap::new();
    for side in flat.corners.chunks(n).flat_map(|cell| parts(cell, n - 1)) {
        *sides.entry(side).or_default() += 1;
    }
    let outer: BTreeSet<Vec<u32>> =
        sides.iter().filter(|(_, cells)| **cells == 1).flat_map(|(side, _)| parts(side, points)).collect();
    flat.corners.chunks(n).flat_map(|cell| parts(cell, points)).filter(|part| !outer.contains(part)).collect()
}

/// The mean of points.
fn middle(flat: &Flat, points: &[u32]) -> Vec<f64> {
    let sum = |axis: usize| points.iter().map(|p| flat.point(*p as usize)[axis]).sum::<f64>();
    (0..flat.ndim).map(|axis| sum(axis) / points.len() as f64).collect()
}

/// Positions within a mesh: how many were searched, how many were answered Nothing, how many of these have a coordinate below -1e-8
/// in every cell, and how far outside the furthest is.
#[derive(Default)]
struct Holes {
    tried: u64,
    nothing: u64,
    wide: u64,
    worst: f64,
}

impl Holes {
    fn try_at(&mut self, site: &Site, x: &[f64], t: &mut Tally) {
        self.tried += 1;
        if site.search(x, t).is_none() {
            let best = site.best(x);
            self.nothing += 1;
            self.wide += (best < -1e-8) as u64;
            self.worst = self.worst.min(best);
        }
    }
}

/// What is due of the holes of meshes: tried and Nothing at inner nodes, the middles of inner edges and triangles, and of cells; one
/// last place beside nodes and middles of edges; how many are below -1e-8, and a bound of all of them.
struct Rims {
    ndim: usize,
    low: [f64; 3],
    wide: f64,
    middles: &'static [(u64, u64)],
    beside: (u64, u64),
    below: u64,
    bound: f64,
}

/// Tetrahedra have holes at their rims, more and wider ones far from the origin; triangles have none at nodes and edges and few one
/// last place beside them.
fn holes(t: &mut Tally) {
    const MESHES: usize = 8;
    const NONE: &[(u64, u64)] = &[(1800, 0), (5888, 0), (4096, 0)];
    let rims = |ndim, low, wide, middles, beside, below, bound| Rims { ndim, low, wide, middles, beside, below, bound };
    for due in [
        rims(2, LOCAL, 1000.0, NONE, (7688, 3), 0, 1e-15),
        rims(2, LOCAL, 1.0, NONE, (7688, 5), 0, 1e-15),
        rims(2, FIELD, 1000.0, NONE, (7688, 0), 0, 1e-15),
        rims(3, LOCAL, 1000.0, &[(1000, 150), (9648, 1180), (19008, 16), (10368, 0)], (10648, 1464), 0, 2e-14),
        rims(3, LOCAL, 1.0, &[(1000, 150), (9648, 1140), (19008, 0), (10368, 0)], (10648, 1393), 0, 2e-14),
        rims(3, FIELD, 1000.0, &[(1000, 336), (9648, 1819), (19008, 16), (10368, 0)], (10648, 2421), 190, 5e-8),
        rims(3, FIELD, 100.0, &[(1000, 394), (9648, 1930), (19008, 8), (10368, 0)], (10648, 2584), 4586, 1e-5),
    ] {
        let Rims { ndim, low, wide, .. } = due;
        let of = || format!("{wide} wide at {low:?} in {ndim}D");
        let mut r = Random::new(52);
        let mut middles: Vec<Holes> = (0..=ndim).map(|_| Holes::default()).collect();
        let mut beside = Holes::default();
        for _ in 0..MESHES {
            let flat = field_mesh(ndim, if ndim == 2 { 16 } else { 6 }, wide, &low, &mut r);
            on_site(&flat, t, |site, t| {
                for (i, holes) in middles.iter_mut().enumerate() {
                    for part in inner(&flat, i + 1) {
                        let x = middle(&flat, &part);
                        holes.try_at(site, &x, t);
                        if i < 2 {
                            let near: Vec<f64> = x.iter().map(|v| *r.pick(&[down(*v), *v, up(*v)])).collect();
                            beside.try_at(site, &near, t);
                        }
                    }
                }
            });
        }
        let counts: Vec<(u64, u64)> = middles.iter().map(|h| (h.tried, h.nothing)).collect();
        t.equal(counts.as_slice(), due.middles, || format!("holes {}", of()));
        t.equal((beside.tried, beside.nothing), due.beside, || format!("holes beside nodes and edges {}", of()));
        let all = || middles.iter().chain([&beside]);
        t.equal(all().map(|h| h.wide).sum(), due.below, || format!("holes of more than 1e-8 {}", of()));
        let worst = all().map(|h| h.worst).fold(0.0, f64::min);
        t.check(worst > -due.bound, || format!("a hole of {worst:e} {}", of()));
        // which way it goes, whatever the generator
        let many = middles[..2].iter().all(|h| h.nothing * 10 > h.tried);
        let none = middles[..2].iter().all(|h| h.nothing == 0) && beside.nothing * 1000 < beside.tried;
        t.check(if ndim == 3 { many } else { none }, || format!("holes at nodes and edges {}", of()));
    }
}

/// A position in a cell, every coordinate at least a hundredth; and these coordinates.
fn well_inside(flat: &Flat, cell: usize, r: &mut Random) -> (Vec<f64>, Vec<f64>) {
    const LEAST: f64 = 0.01;
    let n = flat.ndim + 1;
    let parts: Vec<f64> = (0..n).map(|_| r.between(0.0, 1.0)).collect();
    let sum: f64 = parts.iter().sum();
    let zeta: Vec<f64> = parts.iter().map(|p| LEAST + (1.0 - LEAST * n as f64) * p / sum).collect();
    let x = (0..flat.ndim).map(|axis| (0..n).map(|k| zeta[k] * flat.corner(cell, k)[axis]).sum()).collect();
    (x, zeta)
}

/// Far from the origin tetrahedra lose accuracy, since coordinates are multiplied as they are; triangles do not.
fn far(t: &mut Tally) {
    // positions well inside a cell: Nothing, another cell, and a bound of how far the coordinates in the right cell are off
    let met = [
        (2, 40, FIELD, 1000.0, (0, 0), 2e-11),
        (2, 40, FIELD, 100.0, (0, 0), 2e-10),
        (2, 40, FIELD, 10.0, (0, 0), 2e-9),
        (2, 40, FIELD, 1.0, (0, 0), 2e-8),
        (2, 40, LOCAL, 1.0, (0, 0), 3e-14),
        (3, 10, FIELD, 1000.0, (0, 0), 5e-7),
        (3, 10, FIELD, 100.0, (0, 0), 2e-4),
        (3, 10, FIELD, 10.0, (16, 117), 0.1),
        (3, 10, FIELD, 1.0, (5982, 10), 1.0),
        (3, 10, LOCAL, 1000.0, (0, 0), 5e-13),
        (3, 10, LOCAL, 1.0, (0, 0), 5e-13),
    ];
    for (ndim, along, low, wide, due, bound) in met {
        let mut r = Random::new(53);
        let (mut nothing, mut another, mut off) = (0, 0, 0.0f64);
        let flat = field_mesh(ndim, along, wide, &low, &mut r);
        on_site(&flat, t, |site, t| {
            for cell in 0..flat.ncell() {
                let (x, zeta) = well_inside(&flat, cell, &mut r);
                match site.search(&x, t) {
                    None => nothing += 1,
                    Some((found, _)) if found != cell => another += 1,
                    Some((_, computed)) => {
                        off = computed.iter().zip(&zeta).map(|(a, b)| (a - b).abs()).fold(off, f64::max);
                    }
                }
            }
        });
        t.equal((nothing, another), due, || format!("positions in cells, {wide} wide at {low:?} in {ndim}D"));
        t.check(off <= bound, || format!("coordinates off by {off:e}, {wide} wide at {low:?} in {ndim}D"));
        if ndim == 3 && low == FIELD {
            // the loss itself, and not only a bound of it
            t.check(off > bound / 10.0, || format!("coordinates off by {off:e} only, {wide} wide in {ndim}D"));
        }
    }
    // past the limit of a coordinate nothing is answered at all
    let mut r = Random::new(55);
    let north = field_mesh(3, 2, 10.0, &[500000.0, 5500000.0, 400.0], &mut r);
    let mut lent = Lent::new(512, 64, &mut r);
    t.equal(lent.build(3, &north, &Settings::default()), 3, || "a mesh at a northing of 5500000".to_string());
}

/// Searches beside marks: how many, and how many of them missed the mark.
#[derive(Default, Debug, PartialEq)]
struct Missed {
    tried: u64,
    missed: u64,
}

impl Missed {
    fn new(tried: u64, missed: u64) -> Self {
        Missed { tried, missed }
    }

    fn try_at(&mut self, w: &mut rows::World, id: u64, x: &[f64], t: &mut Tally) {
        let found = w.search(x, t) == Some(id);
        self.tried += 1;
        self.missed += !found as u64;
    }
}

/// A mark is found within the tolerance on every axis, but for what `tight` shows. Between that and tol_dist it is missed where the position lies across
/// the edge of a container; at the tolerance itself, on every axis, rounding decides.
fn marks(t: &mut Tally) {
    const LIBRARIES: usize = 20_000;
    let met = [
        (2, Missed::new(320000, 0), Missed::new(320000, 474), Missed::new(320000, 185962)),
        (3, Missed::new(320000, 0), Missed::new(320000, 839), Missed::new(320000, 217479)),
    ];
    for (ndim, due_within, due_between, due_at) in met {
        let mut r = Random::new(54);
        // containers of a metre, a tolerance of a centimetre
        let settings = rows::Settings {
            xmin: vec![0.0; ndim],
            xmax: vec![100.0; ndim],
            ndiv: None,
            tolerance: Some(0.01),
            border_tol: None,
        };
        let (mut within, mut between, mut at) = (Missed::default(), Missed::default(), Missed::default());
        for _ in 0..LIBRARIES {
            let Some(mut w) = settings.make(64, &mut r, t) else { return };
            let (tol, dist) = (w.fields.tolerance, w.fields.tol_dist);
            // apart from each other
            let marks: Vec<Vec<f64>> =
                (0..4).map(|k| (0..ndim).map(|_| 25.0 * k as f64 + r.between(1.0, 24.0)).collect()).collect();
            for (id, mark) in marks.iter().enumerate() {
                w.insert(id as u64, mark, t);
            }
            for (id, mark) in marks.iter().enumerate() {
                let id = id as u64;
                for _ in 0..4 {
                    let x: Vec<f64> = mark.iter().map(|v| v + tol * r.between(-0.9999, 0.9999)).collect();
                    within.try_at(&mut w, id, &x, t);
                    let x: Vec<f64> = mark.iter().map(|v| v + *r.pick(&[tol, -tol])).collect();
                    at.try_at(&mut w, id, &x, t);
                    let x = loop {
                        let off: Vec<f64> = (0..ndim).map(|_| dist * r.between(-1.0, 1.0)).collect();
                        let far = off.iter().map(|d| d * d).sum::<f64>().sqrt();
                        if far < 0.9999 * dist && off.iter().any(|d| d.abs() > 1.0001 * tol) {
                            break mark.iter().zip(&off).map(|(v, d)| v + d).collect::<Vec<f64>>();
                        }
                    };
                    let before = between.missed;
                    between.try_at(&mut w, id, &x, t);
                    let filed = w.rust.key_of(&x).is_some_and(|key| w.rows.contains_key(&(key as u64, id)));
                    t.equal(between.missed == before, filed, || format!("{x:?} beside {mark:?}"));
                }
            }
        }
        t.check(within.missed == 0 && between.missed > 0 && at.missed > 0, || format!("marks in {ndim}D"));
        t.equal((within, between, at), (due_within, due_between, due_at), || {
            format!("searches beside marks in {ndim}D")
        });
    }
}

/// Where the side is within rounding of twice the tolerance, a mark is missed even nearer than the tolerance: its halo reaches over
/// three containers on an axis, and it has no row in one of those between the corners.
fn tight(t: &mut Tally) {
    let (low, high, tolerance) = (0.1, 8.099999999999994, 0.49999999999999956);
    let (mark, beside) = (4.599999999999996, 4.099999999999997);
    t.check(mark - beside < tolerance, || "a position nearer than the tolerance".to_string());
    for (ndim, rows) in [(2, 5), (3, 9)] {
        let settings = rows::Settings {
            xmin: vec![low; ndim],
            xmax: vec![high; ndim],
            ndiv: Some(8),
            tolerance: Some(tolerance),
            border_tol: Some(0.0),
        };
        let Some(mut w) = settings.make(16, &mut Random::new(56), t) else { return };
        let mut x = vec![mark; ndim];
        w.insert(7, &x, t);
        t.equal(w.rows.len(), rows, || format!("rows of the mark in {ndim}D"));
        let at = w.search(&x, t);
        t.equal(at, Some(7), || format!("at the mark in {ndim}D"));
        x[1] = beside;
        let near = w.search(&x, t);
        t.equal(near, None, || format!("nearer than the tolerance in {ndim}D"));
    }
}

pub fn compare(t: &mut Tally) {
    holes(t);
    far(t);
    marks(t);
    tight(t);
    t.met("grid_cells_search", &[0]);
    t.met("insert", &[0]);
    t.met("search", &[0]);
}
