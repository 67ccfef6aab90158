//! Modules 2 and 9 beside gemlab's distances, triangle and tetrahedron.

use crate::c::{
    gemlab_point_circle_distance, gemlab_point_cylinder_distance, gemlab_point_line_distance,
    gemlab_point_point_distance,
};
use crate::near::{around, down, special, up};
use crate::random::Random;
use crate::tally::Tally;
use crate::timing::best_of;
use gemlab::geometry as rust;
use std::collections::BTreeSet;
use std::hint::black_box;

extern "C" {
    fn probe_triangle_coords(
        xa: *const f64,
        xa_len: usize,
        xb: *const f64,
        xb_len: usize,
        xc: *const f64,
        xc_len: usize,
        xp: *const f64,
        xp_len: usize,
        z0: &mut f64,
        z1: &mut f64,
        z2: &mut f64,
    );
    fn probe_tetrahedron_coords(
        xa: *const f64,
        xa_len: usize,
        xb: *const f64,
        xb_len: usize,
        xc: *const f64,
        xc_len: usize,
        xd: *const f64,
        xd_len: usize,
        xp: *const f64,
        xp_len: usize,
        z0: &mut f64,
        z1: &mut f64,
        z2: &mut f64,
        z3: &mut f64,
    );
    fn probe_in_triangle(z0: f64, z1: f64, z2: f64) -> bool;
    fn probe_in_tetrahedron(z0: f64, z1: f64, z2: f64, z3: f64) -> bool;
}

/// Inputs of each function in each dimension.
const INPUTS: usize = 1_000_000;

/// Inputs of each function whose lengths are mixed.
const MIXED: usize = 300_000;

/// The largest magnitude of a coordinate or a radius.
const LIMIT: f64 = 1048576.0;

/// What a result holds before a call.
const BEFORE: f64 = -12345.6789;

/// A call of one of the four functions. Where a function has no third position or no radius, those are not read.
#[derive(Clone, Copy, Debug)]
enum Kind {
    Point,
    Line,
    Circle,
    Cylinder,
}

impl Kind {
    fn name(self) -> &'static str {
        match self {
            Kind::Point => "point_point_distance",
            Kind::Line => "point_line_distance",
            Kind::Circle => "point_circle_distance",
            Kind::Cylinder => "point_cylinder_distance",
        }
    }
}

#[derive(Clone, Debug)]
struct Call {
    kind: Kind,
    a: Vec<f64>,
    b: Vec<f64>,
    c: Vec<f64>,
    radius: f64,
}

impl Call {
    /// The number that the library returns, and the result's content after the call.
    fn ours(&self) -> (u64, f64) {
        let mut distance = BEFORE;
        let (a, b, c) = (&self.a, &self.b, &self.c);
        // SAFETY: each pointer is a vector's, which is aligned and not null, with its length; the result is apart.
        let number = unsafe {
            match self.kind {
                Kind::Point => gemlab_point_point_distance(a.as_ptr(), a.len(), b.as_ptr(), b.len(), &mut distance),
                Kind::Line => gemlab_point_line_distance(
                    a.as_ptr(),
                    a.len(),
                    b.as_ptr(),
                    b.len(),
                    c.as_ptr(),
                    c.len(),
                    &mut distance,
                ),
                Kind::Circle => {
                    gemlab_point_circle_distance(a.as_ptr(), a.len(), self.radius, b.as_ptr(), b.len(), &mut distance)
                }
                Kind::Cylinder => gemlab_point_cylinder_distance(
                    a.as_ptr(),
                    a.len(),
                    b.as_ptr(),
                    b.len(),
                    self.radius,
                    c.as_ptr(),
                    c.len(),
                    &mut distance,
                ),
            }
        };
        (number, distance)
    }

    fn rust(&self) -> Result<f64, &'static str> {
        let (a, b, c) = (&self.a, &self.b, &self.c);
        match self.kind {
            Kind::Point => rust::point_point_distance(a, b),
            Kind::Line => rust::point_line_distance(a, b, c),
            Kind::Circle => rust::point_circle_distance(a, self.radius, b),
            Kind::Cylinder => rust::point_cylinder_distance(a, b, self.radius, c),
        }
    }

    fn positions(&self) -> &'static [usize] {
        match self.kind {
            Kind::Point | Kind::Circle => &[0, 1],
            Kind::Line | Kind::Cylinder => &[0, 1, 2],
        }
    }

    /// What the Rust refuses for the lengths alone, by document 01's number and in its order.
    fn refused_for_length(&self) -> Option<u64> {
        let all = [&self.a, &self.b, &self.c];
        let ndim = self.a.len();
        if ndim != 2 && ndim != 3 {
            return Some(1);
        }
        match self.kind {
            Kind::Circle if ndim == 3 => return Some(16),
            Kind::Cylinder if ndim == 2 => return Some(16),
            _ => {}
        }
        if self.positions().iter().any(|i| all[*i].len() != ndim) {
            return Some(2);
        }
        None
    }

    /// What document 01 adds: floats past their limits.
    fn past_limits(&self) -> bool {
        let all = [&self.a, &self.b, &self.c];
        let past = |x: &f64| !(x.abs() <= LIMIT);
        let radius = matches!(self.kind, Kind::Circle | Kind::Cylinder);
        self.positions().iter().any(|i| all[*i].iter().any(past)) || (radius && past(&self.radius))
    }

    fn compare(&self, t: &mut Tally) {
        let (number, distance) = self.ours();
        let rust = self.rust();
        let expected = match self.refused_for_length() {
            Some(n) => {
                t.check(rust.is_err(), || format!("{self:?}: {n} expected, and the Rust answers {rust:?}"));
                Err(n)
            }
            None if self.past_limits() => Err(3),
            None => rust.map_err(|_| 15),
        };
        match expected {
            Ok(d) => {
                t.number(self.kind.name(), number, 0, || format!("{self:?}"));
                t.float(distance, d, || format!("{self:?}"));
            }
            Err(n) => {
                t.number(self.kind.name(), number, n, || format!("{self:?}"));
                t.float(distance, BEFORE, || format!("{self:?}, refused"));
            }
        }
    }
}

/// Coordinates: even ones of several sizes, few binary digits, the limits and their neighbours, tiny ones, zeros.
struct Source {
    r: Random,
    edges: Vec<f64>,
    wild: Vec<f64>,
}

impl Source {
    fn new(seed: u64) -> Self {
        let mut edges = vec![0.0, -0.0, 1.0, -1.0, f64::from_bits(1), f64::MIN_POSITIVE, -f64::MIN_POSITIVE];
        for x in [LIMIT, -LIMIT] {
            edges.extend([x, if x > 0.0 { down(x) } else { up(x) }]);
        }
        let mut wild = special();
        wild.extend(around(LIMIT));
        wild.extend(around(-LIMIT));
        Source { r: Random::new(seed), edges, wild }
    }

    fn coordinate(&mut self) -> f64 {
        match self.r.below(8) {
            0 => *self.r.pick(&self.edges),
            1 => self.r.below(17) as f64 * 0.25 - 2.0,
            2 => self.r.between(-LIMIT, LIMIT),
            3 => {
                let k = self.r.below(60);
                self.r.between(-1.0, 1.0) / (1u64 << k) as f64
            }
            4 => f64::from_bits(self.r.below((1023 + 20) << 52) | self.r.below(2) << 63),
            _ => self.r.between(-8.0, 8.0),
        }
    }

    fn position(&mut self, ndim: usize) -> Vec<f64> {
        (0..ndim).map(|_| self.coordinate()).collect()
    }

    /// A position near x: on some axes the same, on others a last place, a small step or half the least step away.
    fn beside(&mut self, x: &[f64]) -> Vec<f64> {
        let kind = self.r.below(4);
        let mut y = x.to_vec();
        for v in y.iter_mut() {
            *v = match self.r.below(4) {
                0 => *v,
                1 if v.is_finite() => *self.r.pick(&around(*v)),
                2 => match kind {
                    // at and beside 2^-26, whose square is 2^-52
                    0 => *v + *self.r.pick(&around(2f64.powi(-26))),
                    1 => *v - *self.r.pick(&around(2f64.powi(-25))),
                    2 => *v + self.r.between(-1.0, 1.0) * 2f64.powi(-26),
                    _ => *v + self.r.between(-1.0, 1.0) * 2f64.powi(-20),
                },
                _ => *v,
            };
        }
        y
    }

    fn call(&mut self, kind: Kind, lengths: [usize; 3], wild: bool) -> Call {
        let a = self.position(lengths[0]);
        let other = |s: &mut Self, n: usize| {
            if n == a.len() && s.r.below(4) == 0 {
                s.beside(&a)
            } else {
                s.position(n)
            }
        };
        let b = other(self, lengths[1]);
        let c = other(self, lengths[2]);
        let radius = self.coordinate();
        let mut call = Call { kind, a, b, c, radius };
        if wild {
            let x = *self.r.pick(&self.wild);
            let lists = [&mut call.a, &mut call.b, &mut call.c];
            let at = self.r.below(4) as usize;
            if at == 3 {
                call.radius = x;
            } else if !lists[at].is_empty() {
                let i = self.r.below(lists[at].len() as u64) as usize;
                lists[at][i] = x;
            }
        }
        call
    }
}

fn distances(t: &mut Tally) {
    let mut s = Source::new(3);
    for (kind, due) in [
        (Kind::Point, vec![0, 1, 2, 3]),
        (Kind::Line, vec![0, 1, 2, 3, 15]),
        (Kind::Circle, vec![0, 1, 2, 3, 16]),
        (Kind::Cylinder, vec![0, 1, 2, 3, 15, 16]),
    ] {
        for ndim in [2, 3] {
            for i in 0..INPUTS {
                s.call(kind, [ndim; 3], i % 8 == 7).compare(t);
            }
        }
        for i in 0..MIXED {
            let lengths = [(); 3].map(|_| s.r.below(5) as usize);
            s.call(kind, lengths, i % 4 == 3).compare(t);
        }
        t.met(kind.name(), &due);
    }
}

fn ends_too_close(t: &mut Tally) {
    for ndim in [2, 3] {
        for axis in 0..ndim {
            for (step, number) in [(2f64.powi(-26), 15), (up(2f64.powi(-26)), 0), (2f64.powi(-25), 0), (0.0, 15)] {
                let a = vec![1.0; ndim];
                let mut b = vec![0.0; ndim];
                b[axis] = step;
                let call = Call { kind: Kind::Line, a: vec![0.0; ndim], b, c: a, radius: 1.0 };
                t.equal(call.ours().0, number, || format!("{call:?}"));
                call.compare(t);
            }
        }
    }
}

/// Document 01's lines on circle and triangle.
fn examples(t: &mut Tally) {
    for (p, d) in [([5.0, 2.0], 0.0), ([4.0, 2.0], -1.0)] {
        let call = Call { kind: Kind::Circle, a: vec![4.0, 2.0], b: p.to_vec(), c: vec![], radius: 1.0 };
        t.equal(call.ours(), (0, d), || format!("{call:?}"));
    }
    let corners = [vec![0.0, 0.0], vec![4.0, 0.0], vec![0.0, 4.0]];
    let (z, inside) = triangle(&corners, &[1.0, 1.0]);
    t.equal((z, inside), ([0.5, 0.25, 0.25], true), || "(1,1) in the triangle".to_string());
    let (z, inside) = triangle(&corners, &[2.0, 2.0]);
    t.equal((z[0], inside), (0.0, true), || "(2,2) in the triangle".to_string());
    let (_, inside) = triangle(&corners, &[3.0, 3.0]);
    t.equal(inside, false, || "(3,3) in the triangle".to_string());
    let flat = [vec![0.0, 0.0], vec![1.0, 0.0], vec![2.0, 0.0]];
    let (_, inside) = triangle(&flat, &[1.0, 0.0]);
    t.equal(inside, true, || "(1,0) in the flat triangle".to_string());
}

fn triangle(corners: &[Vec<f64>; 3], p: &[f64]) -> ([f64; 3], bool) {
    let [a, b, c] = corners;
    let [mut z0, mut z1, mut z2] = [BEFORE; 3];
    // SAFETY: each pointer is aligned and not null, with its length; the results are apart.
    unsafe {
        probe_triangle_coords(
            a.as_ptr(),
            a.len(),
            b.as_ptr(),
            b.len(),
            c.as_ptr(),
            c.len(),
            p.as_ptr(),
            p.len(),
            &mut z0,
            &mut z1,
            &mut z2,
        );
        ([z0, z1, z2], probe_in_triangle(z0, z1, z2))
    }
}

fn tetrahedron(corners: &[Vec<f64>; 4], p: &[f64]) -> ([f64; 4], bool) {
    let [a, b, c, d] = corners;
    let [mut z0, mut z1, mut z2, mut z3] = [BEFORE; 4];
    // SAFETY: each pointer is aligned and not null, with its length; the results are apart.
    unsafe {
        probe_tetrahedron_coords(
            a.as_ptr(),
            a.len(),
            b.as_ptr(),
            b.len(),
            c.as_ptr(),
            c.len(),
            d.as_ptr(),
            d.len(),
            p.as_ptr(),
            p.len(),
            &mut z0,
            &mut z1,
            &mut z2,
            &mut z3,
        );
        ([z0, z1, z2, z3], probe_in_tetrahedron(z0, z1, z2, z3))
    }
}

fn cells(t: &mut Tally) {
    let mut s = Source::new(4);
    let mut seen = BTreeSet::new();
    for i in 0..INPUTS {
        // few different coordinates make flat cells, and points on edges and corners
        let few = i % 4 == 0;
        let mut position = |n: usize| -> Vec<f64> {
            if few {
                (0..n).map(|_| s.r.below(3) as f64).collect()
            } else {
                s.position(n)
            }
        };
        let corners = [(); 3].map(|_| position(2));
        let p = position(2);
        let (ours, inside) = triangle(&corners, &p);
        let mut zeta = [0.0; 3];
        rust::triangle_coords(&mut zeta, &corners[0], &corners[1], &corners[2], &p);
        for k in 0..3 {
            t.float(ours[k], zeta[k], || format!("coordinate {k} of {p:?} in {corners:?}"));
        }
        t.equal(inside, rust::in_triangle(&zeta), || format!("{zeta:?} inside"));
        seen.insert((2, inside, zeta.iter().any(|z| z.is_nan())));

        let corners = [(); 4].map(|_| position(3));
        let p = position(3);
        let (ours, inside) = tetrahedron(&corners, &p);
        let mut zeta = [0.0; 4];
        rust::tetrahedron_coords(&mut zeta, &corners[0], &corners[1], &corners[2], &corners[3], &p);
        for k in 0..4 {
            t.float(ours[k], zeta[k], || format!("coordinate {k} of {p:?} in {corners:?}"));
        }
        t.equal(inside, rust::in_tetrahedron(&zeta), || format!("{zeta:?} inside"));
        seen.insert((3, inside, zeta.iter().any(|z| z.is_nan())));
    }
    // inside and outside, with and without a NaN, in a triangle and in a tetrahedron
    t.equal(seen.len(), 8, || format!("the kinds of cells met, {seen:?}"));

    let special = special();
    for _ in 0..INPUTS {
        let z = [(); 4].map(|_| if s.r.below(2) == 0 { *s.r.pick(&special) } else { s.r.pattern() });
        // SAFETY: the functions take numbers.
        let (three, four) =
            unsafe { (probe_in_triangle(z[0], z[1], z[2]), probe_in_tetrahedron(z[0], z[1], z[2], z[3])) };
        t.equal(three, rust::in_triangle(&z[..3]), || format!("{z:?} inside a triangle"));
        t.equal(four, rust::in_tetrahedron(&z), || format!("{z:?} inside a tetrahedron"));
    }
}

pub fn compare(t: &mut Tally) {
    examples(t);
    ends_too_close(t);
    distances(t);
    cells(t);
}

/// A call of each distance, in one run.
pub fn measure() {
    let mut s = Source::new(5);
    println!("bench geometry: a call, in nanoseconds");
    for (name, kind, ndim) in [
        ("between points, 2D", Kind::Point, 2),
        ("between points, 3D", Kind::Point, 3),
        ("to a line, 2D", Kind::Line, 2),
        ("to a line, 3D", Kind::Line, 3),
        ("to a circle", Kind::Circle, 2),
        ("to a cylinder", Kind::Cylinder, 3),
    ] {
        let calls: Vec<Call> = (0..1024)
            .map(|_| {
                let mut position = || (0..ndim).map(|_| s.r.between(-100.0, 100.0)).collect();
                Call { kind, a: position(), b: position(), c: position(), radius: 1.0 }
            })
            .collect();
        let ours = best_of(calls.len(), |i| black_box(&calls[i]).ours().1);
        let rust = best_of(calls.len(), |i| black_box(&calls[i]).rust().unwrap());
        println!("  {name:20} {ours:6.2} here, {rust:6.2} in the Rust");
    }
}
