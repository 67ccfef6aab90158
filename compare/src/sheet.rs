//! Modules 3 to 5 beside gemlab's `GridSearch::new`, and the keys and centres of containers beside its private methods.

use crate::c::gemlab_grid_search_new;
use crate::near::{around, special, up};
use crate::random::Random;
use crate::tally::Tally;
use crate::timing::best_of;
use gemlab::util::GridSearch;
use std::hint::black_box;

extern "C" {
    fn probe_container_key(
        ndim: usize,
        side_length: f64,
        nx: u64,
        ny: u64,
        nz: u64,
        xmin: *const f64,
        xmin_len: usize,
        x: *const f64,
        x_len: usize,
    ) -> u64;
    fn probe_container_center(
        ndim: usize,
        side_length: f64,
        nx: u64,
        ny: u64,
        nz: u64,
        xmin: *const f64,
        xmin_len: usize,
        key: u64,
        cx: &mut f64,
        cy: &mut f64,
        cz: &mut f64,
    );
}

/// Random settings.
const INPUTS: usize = 1_000_000;

/// The largest magnitude of a coordinate, the largest tolerance and border, and the least tolerance.
const LIMIT: f64 = 1048576.0;
const MOST: f64 = 1024.0;
const LEAST: f64 = 1.0 / 1048576.0;

/// What the lists hold before a call.
const NUMBER: u64 = 0x1234_5678_9abc_def0;
const FLOAT: f64 = -12345.6789;

/// A sheet's two lists have 8 and 17 entries.
const NUMBERS: usize = 8;
const FLOATS: usize = 17;

/// A call: a setting's flag, any number but 0 where the setting is given, and its value.
#[derive(Clone, Debug)]
struct Call {
    xmin: Vec<f64>,
    xmax: Vec<f64>,
    ndiv: (u64, u64),
    tolerance: (u64, f64),
    border_tol: (u64, f64),
    lengths: (usize, usize),
}

fn given<T: Copy>(setting: (u64, T)) -> Option<T> {
    if setting.0 == 0 {
        None
    } else {
        Some(setting.1)
    }
}

impl Call {
    /// The number that the library returns, and the lists' content after the call.
    fn ours(&self) -> (u64, Vec<u64>, Vec<f64>) {
        let mut numbers = vec![NUMBER; self.lengths.0];
        let mut floats = vec![FLOAT; self.lengths.1];
        // SAFETY: each pointer is a vector's, which is aligned and not null, with its length; the written ones are apart.
        let number = unsafe {
            gemlab_grid_search_new(
                self.xmin.as_ptr(),
                self.xmin.len(),
                self.xmax.as_ptr(),
                self.xmax.len(),
                self.ndiv.0,
                self.ndiv.1,
                self.tolerance.0,
                self.tolerance.1,
                self.border_tol.0,
                self.border_tol.1,
                numbers.as_mut_ptr(),
                numbers.len(),
                floats.as_mut_ptr(),
                floats.len(),
            )
        };
        (number, numbers, floats)
    }

    fn rust(&self) -> Result<GridSearch, &'static str> {
        let ndiv = given(self.ndiv).map(|n| n as usize);
        GridSearch::new(&self.xmin, &self.xmax, ndiv, given(self.tolerance), given(self.border_tol))
    }

    /// What the lists' lengths and the limits refuse, which gemlab does not have, in document 01's order.
    fn refused_first(&self) -> Option<u64> {
        if self.lengths != (NUMBERS, FLOATS) {
            return Some(13);
        }
        let ndim = self.xmin.len();
        if ndim != 2 && ndim != 3 {
            return Some(1);
        }
        if self.xmax.len() != ndim {
            return Some(2);
        }
        let tolerance = given(self.tolerance).unwrap_or(1e-4);
        let border = given(self.border_tol).unwrap_or(1e-2);
        let past = |x: &f64| !(x.abs() <= LIMIT);
        if self.xmin.iter().chain(&self.xmax).any(past)
            || !tolerance.is_finite()
            || !border.is_finite()
            || tolerance > MOST
            || border > MOST
            || (tolerance > 0.0 && tolerance < LEAST)
        {
            return Some(3);
        }
        match given(self.ndiv) {
            Some(n) if n > 1024 => Some(6),
            _ => None,
        }
    }

    fn expected(&self) -> Result<GridSearch, u64> {
        if let Some(n) = self.refused_first() {
            return Err(n);
        }
        self.rust().map_err(|text| match text {
            "ndiv must be ≥ 1" => 4,
            "ndiv_long must be > ndiv_min" => 5,
            "xmax must be greater than xmin" => 7,
            "tolerance must be > 0.0" => 8,
            "border_tol must be ≥ 0.0" => 9,
            "(xmax-xmin)/ndiv must be > 2·tolerance; reduce the tolerance (or ndiv)" => 10,
            _ => panic!("{text}"),
        })
    }

    /// The sheet that gemlab makes, where it is not turned away.
    fn compare(&self, t: &mut Tally) -> Option<GridSearch> {
        let (number, numbers, floats) = self.ours();
        match self.expected() {
            Err(n) => {
                t.number("grid_search_new", number, n, || format!("{self:?}"));
                t.check(numbers.iter().all(|x| *x == NUMBER), || format!("{self:?}: numbers written by a refusal"));
                t.check(floats.iter().all(|x| *x == FLOAT), || format!("{self:?}: floats written by a refusal"));
                None
            }
            Ok(grid) => {
                t.number("grid_search_new", number, 0, || format!("{self:?}"));
                let f = grid.fields();
                let ndim = f.ndim;
                let third = |x: &[f64]| if ndim == 2 { 0.0 } else { x[2] };
                let flag = |x: u64| (x != 0) as u64;
                // the settings and what they give
                let n = vec![
                    ndim as u64,
                    flag(self.ndiv.0),
                    given(self.ndiv).unwrap_or(0),
                    flag(self.tolerance.0),
                    flag(self.border_tol.0),
                    f.ndiv[0] as u64,
                    f.ndiv[1] as u64,
                    if ndim == 2 { 1 } else { f.ndiv[2] as u64 },
                ];
                t.equal(&numbers, &n, || format!("the numbers of {self:?}"));
                let x = [
                    self.xmin[0],
                    self.xmin[1],
                    third(&self.xmin),
                    self.xmax[0],
                    self.xmax[1],
                    third(&self.xmax),
                    given(self.tolerance).unwrap_or(0.0),
                    given(self.border_tol).unwrap_or(0.0),
                    f.xmin[0],
                    f.xmin[1],
                    third(&f.xmin),
                    f.xmax[0],
                    f.xmax[1],
                    third(&f.xmax),
                    f.side_length,
                    f.tol_dist,
                    f.radius,
                ];
                for i in 0..FLOATS {
                    t.float(floats[i], x[i], || format!("float {i} of {self:?}"));
                }
                Some(grid)
            }
        }
    }
}

/// A sheet's containers, by its derived fields.
struct Containers {
    ndim: usize,
    side: f64,
    ndiv: [u64; 3],
    xmin: Vec<f64>,
    xmax: Vec<f64>,
}

impl Containers {
    fn new(grid: &GridSearch) -> Self {
        let f = grid.fields();
        let third = if f.ndim == 2 { 1 } else { f.ndiv[2] as u64 };
        let ndiv = [f.ndiv[0] as u64, f.ndiv[1] as u64, third];
        Containers { ndim: f.ndim, side: f.side_length, ndiv, xmin: f.xmin, xmax: f.xmax }
    }

    /// A position within the sheet: anywhere, on an edge between containers or beside it, or at a corner.
    fn position(&self, r: &mut Random) -> Vec<f64> {
        (0..self.ndim)
            .map(|i| {
                let (a, b) = (self.xmin[i], self.xmax[i]);
                let x = match r.below(4) {
                    0 => *r.pick(&[a, b]),
                    1 => r.between(a, b),
                    _ => {
                        let edge = a + r.below(self.ndiv[i] + 1) as f64 * self.side;
                        *r.pick(&around(edge))
                    }
                };
                x.clamp(a, b)
            })
            .collect()
    }

    fn key(&self, x: &[f64]) -> u64 {
        let [nx, ny, nz] = self.ndiv;
        // SAFETY: each pointer is a list's, which is aligned and not null, with its length.
        unsafe {
            probe_container_key(
                self.ndim,
                self.side,
                nx,
                ny,
                nz,
                self.xmin.as_ptr(),
                self.xmin.len(),
                x.as_ptr(),
                x.len(),
            )
        }
    }

    fn center(&self, key: u64) -> [f64; 3] {
        let [nx, ny, nz] = self.ndiv;
        let [mut cx, mut cy, mut cz] = [FLOAT; 3];
        // SAFETY: as above; the three results are apart.
        unsafe {
            probe_container_center(
                self.ndim,
                self.side,
                nx,
                ny,
                nz,
                self.xmin.as_ptr(),
                self.xmin.len(),
                key,
                &mut cx,
                &mut cy,
                &mut cz,
            );
        }
        [cx, cy, cz]
    }

    fn compare(&self, t: &mut Tally, grid: &GridSearch, r: &mut Random) {
        let count = self.ndiv.iter().product::<u64>();
        for _ in 0..2 {
            let x = self.position(r);
            // within the sheet: a key, unless a ratio exceeds its divisions, which gemlab lets pass
            let exceeds = (0..self.ndim).any(|i| ((x[i] - self.xmin[i]) / self.side) as u64 > self.ndiv[i]);
            let expected = if exceeds { u64::MAX - 1 } else { grid.key_of(&x).unwrap() as u64 };
            t.equal(self.key(&x), expected, || format!("the key of {x:?} in {:?}", grid.fields()));
            t.check(exceeds || expected < count, || format!("the key {expected} of {x:?} in {:?}", grid.fields()));
        }
        let key = match r.below(4) {
            0 => count - 1,
            _ => r.below(count),
        };
        let (ours, rust) = (self.center(key), grid.center_of(key as usize));
        for i in 0..3 {
            let there = if i < self.ndim { rust[i] } else { 0.0 };
            t.float(ours[i], there, || format!("coordinate {i} of the centre of {key} in {:?}", grid.fields()));
        }
        t.equal(self.center(count), [FLOAT; 3], || format!("the centre past the last in {:?}", grid.fields()));
    }
}

/// Settings of all sizes, the limits and their neighbours, and floats that are no numbers.
struct Source {
    r: Random,
    wild: Vec<f64>,
    tolerances: Vec<f64>,
    borders: Vec<f64>,
}

impl Source {
    fn new(seed: u64) -> Self {
        let mut wild = special();
        for x in [LIMIT, -LIMIT] {
            wild.extend(around(x));
        }
        let mut tolerances = special();
        let mut borders = special();
        for x in [LEAST, MOST, 1e-4, 0.0, -1.0] {
            tolerances.extend(around(x));
            borders.extend(around(x));
        }
        Source { r: Random::new(seed), wild, tolerances, borders }
    }

    fn length(&mut self) -> f64 {
        match self.r.below(6) {
            0 => 1.0 + self.r.below(16) as f64,
            1 => self.r.between(0.0, 1.0),
            2 => self.r.between(0.0, 2.0 * LIMIT),
            3 => {
                let k = self.r.below(40);
                self.r.between(0.5, 1.0) / (1u64 << k) as f64
            }
            _ => self.r.between(0.0, 100.0),
        }
    }

    fn low(&mut self) -> f64 {
        match self.r.below(4) {
            0 => 0.0,
            1 => self.r.below(16) as f64 - 8.0,
            2 => self.r.between(-LIMIT, LIMIT),
            _ => self.r.between(-100.0, 100.0),
        }
    }

    /// Corners that are mostly in order, with lengths that are sometimes equal, or one a whole part of the other.
    fn corners(&mut self, ndim: usize) -> (Vec<f64>, Vec<f64>) {
        let first = self.length();
        let kind = self.r.below(4);
        let mut xmin = Vec::new();
        let mut xmax = Vec::new();
        for i in 0..ndim {
            let a = self.low();
            let length = match kind {
                0 => first,
                1 => first * (1 + self.r.below(16)) as f64 / 16.0,
                2 if i == 0 => first,
                _ => self.length(),
            };
            xmin.push(a);
            xmax.push(a + length);
        }
        if self.r.below(16) == 0 {
            // not above, by nothing, by the least step, or turned round
            let i = self.r.below(ndim as u64) as usize;
            xmax[i] = match self.r.below(3) {
                0 => xmin[i],
                1 => up(xmin[i]),
                _ => xmin[i] - 1.0,
            };
        }
        (xmin, xmax)
    }

    fn call(&mut self) -> Call {
        let ndim = 2 + self.r.below(2) as usize;
        let (mut xmin, mut xmax) = self.corners(ndim);
        let ndiv = match self.r.below(10) {
            0 => self.r.below(4),
            1 => 1022 + self.r.below(4),
            2 => *self.r.pick(&[u64::MAX, 1 << 53, 0]),
            _ => 2 + self.r.below(128),
        };
        let tolerance = match self.r.below(10) {
            0 => *self.r.pick(&self.tolerances),
            1 => self.r.between(-1.0, 1.0),
            2 => {
                // about half a side, so that 10 lies near
                let side = (xmax[0] - xmin[0]) / ndiv.max(1) as f64;
                *self.r.pick(&around(side * 0.5))
            }
            _ => {
                let k = self.r.below(20);
                self.r.between(0.5, 1.0) / (1u64 << k) as f64
            }
        };
        let border = match self.r.below(8) {
            0 => *self.r.pick(&self.borders),
            1 => self.r.between(-1.0, 1.0),
            2 => self.r.between(0.0, MOST),
            3 => *self.r.pick(&[0.0, -0.0]),
            _ => self.r.between(0.0, 0.1),
        };
        let mut flag = || match self.r.below(4) {
            0 => 0,
            1 => self.r.next() | 2,
            _ => 1,
        };
        let (ndiv, tolerance, border_tol) = ((flag(), ndiv), (flag(), tolerance), (flag(), border));
        let mut lengths = (NUMBERS, FLOATS);
        match self.r.below(40) {
            0 => xmin = self.list(),
            1 => xmax = self.list(),
            2 => {
                let i = self.r.below(ndim as u64) as usize;
                xmin[i] = *self.r.pick(&self.wild);
            }
            3 => {
                let i = self.r.below(ndim as u64) as usize;
                xmax[i] = *self.r.pick(&self.wild);
            }
            4 => lengths.0 = self.r.below(12) as usize,
            5 => lengths.1 = self.r.below(20) as usize,
            _ => {}
        }
        Call { xmin, xmax, ndiv, tolerance, border_tol, lengths }
    }

    /// A position of any length.
    fn list(&mut self) -> Vec<f64> {
        let n = self.r.below(6);
        (0..n).map(|_| self.low()).collect()
    }
}

/// Sheet S of document 01, with divisions and tolerance.
fn sheet_s(ndiv: u64, tolerance: f64) -> Call {
    Call {
        xmin: vec![0.0, 0.0],
        xmax: vec![8.0, 4.0],
        ndiv: (1, ndiv),
        tolerance: (1, tolerance),
        border_tol: (1, 0.0),
        lengths: (NUMBERS, FLOATS),
    }
}

fn examples(t: &mut Tally) {
    let (number, numbers, floats) = sheet_s(8, 1.0 / 512.0).ours();
    t.equal((number, numbers[5], numbers[6], floats[14]), (0, 8, 4, 1.0), || "S".to_string());
    for (ndiv, tolerance, number) in [(8, 0.5, 10), (8, 0.4375, 0), (1, 0.001, 5), (2, 0.001, 0), (0, 0.001, 4)] {
        let call = sheet_s(ndiv, tolerance);
        t.equal(call.ours().0, number, || format!("{call:?}"));
        call.compare(t);
    }
}

pub fn compare(t: &mut Tally) {
    examples(t);
    let mut s = Source::new(6);
    let mut r = Random::new(8);
    for _ in 0..INPUTS {
        if let Some(grid) = s.call().compare(t) {
            Containers::new(&grid).compare(t, &grid, &mut r);
        }
    }
    t.met("grid_search_new", &[0, 1, 2, 3, 4, 5, 6, 7, 8, 9, 10, 13]);
}

/// A sheet made, in one run.
pub fn measure() {
    println!("bench sheet: a call, in nanoseconds");
    for ndim in [2, 3] {
        let mut r = Random::new(7);
        let calls: Vec<Call> = (0..1024)
            .map(|_| Call {
                xmin: (0..ndim).map(|_| r.between(-100.0, -50.0)).collect(),
                xmax: (0..ndim).map(|_| r.between(50.0, 100.0)).collect(),
                ndiv: (0, 0),
                tolerance: (0, 0.0),
                border_tol: (0, 0.0),
                lengths: (NUMBERS, FLOATS),
            })
            .collect();
        let mut numbers = [0; NUMBERS];
        let mut floats = [0.0; FLOATS];
        let (n, f) = (numbers.as_mut_ptr(), floats.as_mut_ptr());
        let ours = best_of(calls.len(), |i| {
            let c = black_box(&calls[i]);
            // SAFETY: as in `ours`; the two arrays have the lengths that are passed.
            unsafe {
                let number = gemlab_grid_search_new(
                    c.xmin.as_ptr(),
                    c.xmin.len(),
                    c.xmax.as_ptr(),
                    c.xmax.len(),
                    0,
                    0,
                    0,
                    0.0,
                    0,
                    0.0,
                    n,
                    NUMBERS,
                    f,
                    FLOATS,
                );
                number as f64
            }
        });
        let rust = best_of(calls.len(), |i| black_box(black_box(&calls[i]).rust()).is_ok() as u64 as f64);
        println!("  {ndim}D {ours:6.1} here, {rust:6.1} in the Rust");
    }
}
