//! Module 10 beside gemlab's `GridCells`: indices of meshes of every kind, from one cell to what 65,536 rows hold, every refusal
//! in its order, and everything lent compared before and after each call.

use crate::c::gemlab_grid_cells_new;
use crate::cell_search;
use crate::meshes::{scattered, structured, Flat, Meshes};
use crate::near::{down, equal, same, up};
use crate::random::Random;
use crate::rows::{LIMIT, MOST_ROWS};
use crate::tally::Tally;
use gemlab::mesh::{GridCells, IndexFields};
use std::hint::black_box;
use std::time::Instant;

/// Small meshes, each built with several settings.
const MESHES: usize = 60_000;

/// How many numbers and floats an index has.
pub(crate) const NUMBERS: usize = 6;
pub(crate) const FLOATS: usize = 7;

#[derive(Clone, Copy, Debug, Default)]
pub(crate) struct Settings {
    pub(crate) tolerance: Option<f64>,
    pub(crate) border_tol: Option<f64>,
    pub(crate) large_cutoff: Option<f64>,
    pub(crate) large_pct: Option<f64>,
}

impl Settings {
    pub(crate) fn rust<'a>(&self, mesh: &'a gemlab::mesh::Mesh) -> Result<GridCells<'a>, &'static str> {
        GridCells::new(mesh, self.tolerance, self.border_tol, self.large_cutoff, self.large_pct)
    }

    /// The values in force.
    fn values(&self) -> [f64; 4] {
        [
            self.tolerance.unwrap_or(1e-4),
            self.border_tol.unwrap_or(1e-2),
            self.large_cutoff.unwrap_or(0.75),
            self.large_pct.unwrap_or(0.2),
        ]
    }
}

/// What is lent to a build.
#[derive(Clone, Debug)]
pub(crate) struct Lent {
    pub(crate) keys: Vec<u64>,
    pub(crate) cells: Vec<u64>,
    pub(crate) large: Vec<u64>,
    pub(crate) numbers: Vec<u64>,
    pub(crate) floats: Vec<f64>,
}

impl Lent {
    /// Lists of any content.
    pub(crate) fn new(rows: usize, large: usize, r: &mut Random) -> Self {
        let mut list = |n: usize| (0..n).map(|_| r.next()).collect::<Vec<u64>>();
        let (keys, cells, large, numbers) = (list(rows), list(rows), list(large), list(NUMBERS));
        let floats = (0..FLOATS).map(|_| r.pattern()).collect();
        Lent { keys, cells, large, numbers, floats }
    }

    pub(crate) fn build(&mut self, ndim: u64, flat: &Flat, s: &Settings) -> u64 {
        let [tolerance, border_tol, large_cutoff, large_pct] = [s.tolerance, s.border_tol, s.large_cutoff, s.large_pct]
            .map(|v| (v.is_some() as u64, v.unwrap_or(f64::NAN)));
        // SAFETY: each pointer is a vector's, which is aligned and not null, with its length; the written ones are apart.
        unsafe {
            gemlab_grid_cells_new(
                ndim,
                flat.coords.as_ptr(),
                flat.coords.len(),
                flat.corners.as_ptr(),
                flat.corners.len(),
                tolerance.0,
                tolerance.1,
                border_tol.0,
                border_tol.1,
                large_cutoff.0,
                large_cutoff.1,
                large_pct.0,
                large_pct.1,
                self.keys.as_mut_ptr(),
                self.keys.len(),
                self.cells.as_mut_ptr(),
                self.cells.len(),
                self.large.as_mut_ptr(),
                self.large.len(),
                self.numbers.as_mut_ptr(),
                self.numbers.len(),
                self.floats.as_mut_ptr(),
                self.floats.len(),
            )
        }
    }

    /// Every list, bit for bit.
    fn same(&self, other: &Lent) -> bool {
        self.keys == other.keys
            && self.cells == other.cells
            && self.large == other.large
            && self.numbers == other.numbers
            && self.floats.len() == other.floats.len()
            && self.floats.iter().zip(&other.floats).all(|(a, b)| same(*a, *b))
    }
}

/// What turns a build away but 12, read from document 01.
pub(crate) fn fault(ndim: u64, flat: &Flat, s: &Settings, lent: &Lent) -> Option<u64> {
    if ndim != 2 && ndim != 3 {
        return Some(1);
    }
    let n = ndim as usize;
    let (npoint, ncell) = (flat.coords.len() / n, flat.corners.len() / (n + 1));
    if [npoint, ncell, lent.keys.len(), lent.cells.len(), lent.large.len()].iter().any(|k| *k > MOST_ROWS) {
        return Some(24);
    }
    if lent.keys.len() != lent.cells.len() || lent.numbers.len() != NUMBERS || lent.floats.len() != FLOATS {
        return Some(13);
    }
    if flat.coords.len() % n != 0
        || flat.corners.len() % (n + 1) != 0
        || flat.corners.iter().any(|p| *p as usize >= npoint)
    {
        return Some(19);
    }
    let values = s.values();
    let [tolerance, border_tol, large_cutoff, large_pct] = values;
    if flat.coords.iter().any(|x| !(x.abs() <= LIMIT))
        || values.iter().any(|v| !v.is_finite())
        || tolerance > 1024.0
        || border_tol > 1024.0
        || (tolerance > 0.0 && tolerance < 1.0 / 1048576.0)
    {
        return Some(3);
    }
    if tolerance <= 0.0 {
        return Some(8);
    }
    if border_tol < 0.0 {
        return Some(9);
    }
    if !(0.0..=1.0).contains(&large_cutoff) {
        return Some(20);
    }
    if !(0.0..=1.0).contains(&large_pct) {
        return Some(21);
    }
    if ncell == 0 {
        return Some(18);
    }
    // low and high end of a cell on an axis
    let ends = |cell: usize, axis: usize| {
        let xs = (0..=n).map(|k| flat.point(flat.corners[cell * (n + 1) + k] as usize)[axis]);
        xs.fold((f64::INFINITY, f64::NEG_INFINITY), |(low, high), x| (low.min(x), high.max(x)))
    };
    let length = |cell: usize| (0..n).map(|a| ends(cell, a)).map(|(low, high)| high - low).fold(0.0, f64::max);
    let largest = (0..ncell).map(length).fold(0.0, f64::max);
    let mut large: Vec<bool> = (0..ncell).map(|cell| length(cell) >= large_cutoff * largest).collect();
    let count = large.iter().filter(|b| **b).count();
    if count as f64 / ncell as f64 <= large_pct {
        if count == ncell {
            return Some(23);
        }
    } else {
        large.fill(false);
    }
    let longest = (0..ncell).filter(|cell| !large[*cell]).map(length).fold(0.0, f64::max);
    let side = longest + 2.0 * tolerance;
    let mut corners = Vec::new();
    for axis in 0..n {
        let mut low = (0..ncell).map(|cell| ends(cell, axis).0).fold(f64::INFINITY, f64::min);
        let mut high = (0..ncell).map(|cell| ends(cell, axis).1).fold(f64::NEG_INFINITY, f64::max);
        if border_tol > 0.0 {
            low -= border_tol;
            high += border_tol;
        }
        corners.push((low, high, ((high - low) / side).ceil()));
    }
    if corners.iter().any(|(low, high, divisions)| !(high > low) || *divisions == 0.0) {
        return Some(22);
    }
    if corners.iter().any(|(_, _, divisions)| *divisions > 1024.0) {
        return Some(6);
    }
    for cell in (0..ncell).filter(|cell| !large[*cell]) {
        for (axis, (xmin, _, divisions)) in corners.iter().enumerate() {
            let (low, high) = ends(cell, axis);
            if [low, high].iter().any(|x| ((x - xmin) / side).trunc() > *divisions) {
                return Some(17);
            }
        }
    }
    None
}

/// gemlab's error for a number, where it has one.
fn error(number: u64) -> Option<&'static str> {
    match number {
        8 => Some("tolerance must be > 0.0"),
        9 => Some("border_tol must be ≥ 0.0"),
        20 => Some("large_cutoff must be in [0.0, 1.0]"),
        21 => Some("large_pct must be in [0.0, 1.0]"),
        _ => None,
    }
}

/// What the lists hold after a build that gives gemlab's index.
fn expected(ndim: usize, f: &IndexFields, before: &Lent) -> Lent {
    let mut want = before.clone();
    for (i, (key, cell)) in f.rows.iter().enumerate() {
        want.keys[i] = *key as u64;
        want.cells[i] = *cell as u64;
    }
    for (i, cell) in f.large.iter().enumerate() {
        want.large[i] = *cell as u64;
    }
    want.numbers = vec![ndim as u64, 0, 0, 1, f.rows.len() as u64, f.large.len() as u64];
    want.floats = vec![0.0; FLOATS];
    want.floats[0] = f.side_length;
    for axis in 0..ndim {
        want.numbers[1 + axis] = f.ndiv[axis] as u64;
        want.floats[1 + axis] = f.xmin[axis];
        want.floats[4 + axis] = f.xmax[axis];
    }
    want
}

/// A build beside gemlab's in lists of these lengths; the number.
fn build_in(ndim: u64, flat: &Flat, s: &Settings, mut lent: Lent, t: &mut Tally) -> u64 {
    let before = lent.clone();
    let number = lent.build(ndim, flat, s);
    let what = || {
        let of = if flat.ncell() > 20 { format!("{} cells", flat.ncell()) } else { format!("{flat:?}") };
        format!("{of} in {ndim}D by {s:?} in {}, {} and {}", before.keys.len(), before.cells.len(), before.large.len())
    };
    if let Some(refusal) = fault(ndim, flat, s, &before) {
        t.number("grid_cells_new", number, refusal, what);
        t.check(lent.same(&before), || format!("refusal {number} changed a list: {}", what()));
        if let Some(text) = error(refusal) {
            t.equal(s.rust(&flat.mesh()).err(), Some(text), what);
        }
        return number;
    }
    let mesh = flat.mesh();
    let f = match s.rust(&mesh) {
        Ok(rust) => rust.fields(),
        Err(text) => {
            t.check(false, || format!("gemlab says {text}: {}", what()));
            return number;
        }
    };
    if f.rows.len() > before.keys.len() || f.large.len() > before.large.len() {
        t.number("grid_cells_new", number, 12, what);
        t.check(lent.same(&before), || format!("refusal {number} changed a list: {}", what()));
        return number;
    }
    t.number("grid_cells_new", number, 0, what);
    if number != 0 {
        return number;
    }
    let want = expected(flat.ndim, &f, &before);
    t.check(lent.keys == want.keys && lent.cells == want.cells, || format!("rows of {}", what()));
    t.check(lent.large == want.large, || format!("large cells of {}", what()));
    t.equal(&lent.numbers, &want.numbers, what);
    t.check(lent.floats.iter().zip(&want.floats).all(|(a, b)| equal(*a, *b)), || {
        format!("{:?} here, {:?} there: {}", lent.floats, want.floats, what())
    });
    number
}

/// A build with room to spare, with just enough, and with too little.
fn build(flat: &Flat, s: &Settings, r: &mut Random, t: &mut Tally) {
    let ndim = flat.ndim as u64;
    let most = (flat.ncell() << flat.ndim).min(MOST_ROWS);
    let wide = Lent::new(most, flat.ncell().min(MOST_ROWS), r);
    let mut counted = wide.clone();
    if build_in(ndim, flat, s, wide, t) != 0 {
        return;
    }
    counted.build(ndim, flat, s);
    let (rows, large) = (counted.numbers[4] as usize, counted.numbers[5] as usize);
    build_in(ndim, flat, s, Lent::new(rows, large, r), t);
    let less = r.below(rows as u64) as usize;
    build_in(ndim, flat, s, Lent::new(*r.pick(&[rows - 1, less, 0]), large, r), t);
    if large > 0 {
        build_in(ndim, flat, s, Lent::new(rows, large - 1, r), t);
    }
}

/// Settings, most of them good.
pub(crate) fn settings(r: &mut Random) -> Settings {
    let mut s = Settings::default();
    let least = 1.0 / 1048576.0;
    if r.below(2) == 0 {
        s.tolerance = Some(*r.pick(&[1e-3, 0.125, least, 1e-4, 1.0]));
    }
    if r.below(2) == 0 {
        s.border_tol = Some(*r.pick(&[0.0, -0.0, 1e-3, 0.5, 1024.0]));
    }
    if r.below(2) == 0 {
        s.large_cutoff = Some(*r.pick(&[0.5, 0.25, 0.9, 0.0, 1.0, up(0.5), down(0.5)]));
    }
    if r.below(2) == 0 {
        s.large_pct = Some(*r.pick(&[0.5, 0.25, 0.9, 0.0, 1.0, 1.0 / 3.0, 0.1]));
    }
    let bad = [f64::NAN, f64::INFINITY, -f64::INFINITY, -1.0, -5e-324, up(1024.0), 2.0, up(1.0)];
    if r.below(8) == 0 {
        let any = r.pattern();
        s.tolerance =
            Some(*r.pick(&[any, 0.0, -0.0, 5e-324, down(least), 1024.0, up(1024.0), f64::NAN, -1.0, f64::INFINITY]));
    }
    for part in [&mut s.border_tol, &mut s.large_cutoff, &mut s.large_pct] {
        if r.below(20) == 0 {
            *part = Some(*r.pick(&bad));
        }
    }
    s
}

/// A mesh that may be damaged, and lists of lengths that may be wrong.
fn damage(flat: &mut Flat, lent: &mut Lent, ndim: &mut u64, r: &mut Random) {
    match r.below(16) {
        0 => {
            *ndim = *r.pick(&[0, 1, 2, 3, 4, u64::MAX, 1 << 32 | 2]);
            if *ndim == 2 || *ndim == 3 {
                flat.ndim = *ndim as usize;
            }
        }
        1 => lent.keys.push(7),
        2 => {
            lent.cells.pop();
        }
        3 => lent.numbers.truncate(r.below(6) as usize),
        4 => lent.numbers.push(1),
        5 => lent.floats.truncate(r.below(7) as usize),
        6 => lent.floats.push(1.0),
        7 => {
            flat.coords.pop();
        }
        8 => {
            flat.corners.pop();
        }
        9 => {
            let i = r.below(flat.corners.len() as u64) as usize;
            flat.corners[i] = *r.pick(&[flat.npoint() as u32, u32::MAX, flat.npoint() as u32 - 1]);
        }
        10 => {
            let i = r.below(flat.coords.len() as u64) as usize;
            flat.coords[i] =
                *r.pick(&[f64::NAN, f64::INFINITY, -f64::INFINITY, LIMIT, -LIMIT, up(LIMIT), -up(LIMIT), 5e-324]);
        }
        11 => flat.corners.clear(),
        12 => flat.coords.clear(),
        _ => {}
    }
}

fn small(t: &mut Tally) {
    let mut m = Meshes::new(31);
    let mut r = Random::new(32);
    for _ in 0..MESHES {
        let flat = m.small();
        let s = settings(&mut r);
        build(&flat, &s, &mut r, t);
        // every cell apart, and none
        build(&flat, &Settings { large_pct: Some(*r.pick(&[0.0, 0.99])), ..Settings::default() }, &mut r, t);
        let mut broken = flat.clone();
        let mut ndim = flat.ndim as u64;
        let mut lent = Lent::new(flat.ncell() << flat.ndim, flat.ncell(), &mut r);
        for _ in 0..1 + r.below(2) {
            damage(&mut broken, &mut lent, &mut ndim, &mut r);
            if broken.coords.is_empty() || broken.corners.is_empty() {
                break;
            }
        }
        build_in(ndim, &broken, &s, lent, t);
    }
}

/// Meshes up to what the lists can hold.
fn big(t: &mut Tally) {
    let mut r = Random::new(33);
    let plain = Settings::default();
    let apart = Settings { large_cutoff: Some(0.5), large_pct: Some(0.5), ..plain };
    let mut meshes = Vec::new();
    for n in [7, 22, 50, 90] {
        meshes.push(structured(&[n, n], 0.25, &[-3.0, 0.1]));
    }
    for n in [3, 5, 8, 11] {
        meshes.push(structured(&[n, n, n], 0.5, &[0.0, 100.0, -7.0]));
    }
    for ndim in [2, 3] {
        for ncell in [1_000, 8_000, 16_000] {
            // even and of all sizes: most cells small, one in ten up to 30 times as large
            meshes.push(scattered(ndim, ncell, 50.0, |r, _| r.between(0.3, 0.5), &mut r));
            meshes.push(scattered(
                ndim,
                ncell,
                50.0,
                |r, i| if i % 10 == 0 { r.between(1.0, 9.0) } else { 0.3 },
                &mut r,
            ));
        }
    }
    for flat in &meshes {
        for s in [plain, apart] {
            build(flat, &s, &mut r, t);
        }
    }
    // one row for most cells: as many cells as there may be
    let ncell = MOST_ROWS;
    let mut flat = scattered(2, ncell / 3, 1000.0, |_, i| if i == 0 { 40.0 } else { 1e-3 }, &mut r);
    flat.corners.extend(flat.corners.clone());
    flat.corners.extend(flat.corners[..3 * (ncell - 2 * (ncell / 3))].to_vec());
    t.equal(flat.ncell(), MOST_ROWS, || "as many cells as there may be".to_string());
    for pct in [0.0, 1.0] {
        build(&flat, &Settings { large_pct: Some(pct), ..plain }, &mut r, t);
    }
}

/// 24 and what stands beside it: lists of 65,536 and one more.
fn long(t: &mut Tally) {
    let mut r = Random::new(34);
    let s = Settings::default();
    for ndim in [2, 3] {
        let flat = structured(&vec![2; ndim], 1.0, &vec![0.0; ndim]);
        let fill = |n: usize, x: f64| vec![x; n];
        for n in [MOST_ROWS, MOST_ROWS + 1] {
            for which in 0..6 {
                let (mut flat, mut lent) = (flat.clone(), Lent::new(4096, 64, &mut r));
                match which {
                    0 => lent.keys.resize(n, 5),
                    1 => lent.cells.resize(n, 5),
                    2 => lent.large.resize(n, 5),
                    3 => {
                        lent.keys.resize(n, 5);
                        lent.cells.resize(n, 6);
                    }
                    4 => flat.coords.resize(n * ndim, 0.5),
                    _ => {
                        let again = flat.corners[..ndim + 1].to_vec();
                        while flat.corners.len() < n * (ndim + 1) {
                            flat.corners.extend(&again);
                        }
                    }
                }
                build_in(ndim as u64, &flat, &s, lent.clone(), t);
                // half a point, or a cell without its last corner
                flat.coords.extend(fill(ndim - 1, 0.5));
                build_in(ndim as u64, &flat, &s, lent.clone(), t);
                flat.corners.pop();
                build_in(ndim as u64, &flat, &s, lent, t);
            }
        }
    }
}

/// Document 01's lines on one triangle, and what gemlab does where it asserts.
fn examples(t: &mut Tally) {
    let mut r = Random::new(35);
    let one = Flat { ndim: 2, coords: vec![0.0, 0.0, 4.0, 0.0, 0.0, 4.0], corners: vec![0, 1, 2] };
    let thin = Flat { ndim: 2, coords: vec![0.0, 0.0, 1.0, 0.0, 2.0, 0.0], corners: vec![0, 1, 2] };
    let plain = Settings::default();
    let all = Settings { large_pct: Some(1.0), ..plain };
    let bare = Settings { border_tol: Some(0.0), ..plain };
    for (flat, s, number) in [(&one, &plain, 0), (&one, &all, 23), (&thin, &plain, 0), (&thin, &bare, 22)] {
        let lent = Lent::new(8, 1, &mut r);
        let got = build_in(2, flat, s, lent, t);
        t.equal(got, number, || format!("{flat:?} by {s:?}"));
    }
    // gemlab takes `f64::MIN` as the side where every cell is large
    t.check(all.rust(&one.mesh()).is_ok_and(|g| g.fields().side_length == f64::MIN + 2e-4), || {
        "gemlab's side".to_string()
    });
    let hook = std::panic::take_hook();
    std::panic::set_hook(Box::new(|_| {}));
    let none = Flat { ndim: 2, coords: vec![0.0; 6], corners: vec![] };
    let asserts = [(&thin, &bare), (&none, &plain)]
        .map(|(flat, s)| std::panic::catch_unwind(|| s.rust(&flat.mesh()).is_ok()).is_err());
    std::panic::set_hook(hook);
    t.check(asserts == [true, true], || "gemlab asserts an extent and cells".to_string());
}

pub fn compare(t: &mut Tally) {
    examples(t);
    small(t);
    big(t);
    long(t);
    // 17 is met by no mesh
    t.met("grid_cells_new", &[0, 1, 3, 6, 8, 9, 12, 13, 18, 19, 20, 21, 22, 23, 24]);
    cell_search::compare(t);
}

/// Microseconds of f: the best of many calls. What it returns is dropped after the clock has stopped.
fn best<T>(rounds: usize, mut f: impl FnMut() -> T) -> f64 {
    let mut best = f64::INFINITY;
    for _ in 0..rounds {
        let start = Instant::now();
        let made = f();
        best = best.min(start.elapsed().as_nanos() as f64 / 1000.0);
        black_box(made);
    }
    best
}

pub fn measure() {
    let mut r = Random::new(36);
    let mut meshes = vec![
        ("even triangles", structured(&[22, 23], 1.0 / 22.0, &[0.0; 2])),
        ("even triangles", structured(&[90, 90], 1.0 / 90.0, &[0.0; 2])),
        ("even tetrahedra", structured(&[5, 5, 7], 0.2, &[0.0; 3])),
        ("even tetrahedra", structured(&[11, 11, 11], 1.0 / 11.0, &[0.0; 3])),
    ];
    for (name, ndim, ncell) in [
        ("random triangles", 2, 1_000),
        ("random triangles", 2, 16_000),
        ("random tetrahedra", 3, 1_000),
        ("random tetrahedra", 3, 8_000),
    ] {
        let size = |r: &mut Random, i: usize| if i % 10 == 0 { r.between(0.02, 0.2) } else { 0.01 };
        meshes.push((name, scattered(ndim, ncell, 1.0, size, &mut r)));
    }
    let s = Settings::default();
    println!("{:<18}  cells   rows  check us  build us gemlab us", "mesh");
    for (name, flat) in &meshes {
        let mut lent = Lent::new(MOST_ROWS, flat.ncell(), &mut r);
        let mesh = flat.mesh();
        let rounds = 400_000 / flat.ncell() + 20;
        let (ndim, ncell) = (flat.ndim as u64, flat.ncell());
        // a percentage of 2 is refused once the lists are looked through
        let check = best(rounds, || assert_eq!(lent.build(ndim, flat, &Settings { large_pct: Some(2.0), ..s }), 21));
        let here = best(rounds, || assert_eq!(lent.build(ndim, flat, &s), 0));
        let there = best(rounds, || s.rust(&mesh).unwrap());
        let rows = lent.numbers[4];
        println!("{name:<18} {ncell:>6} {rows:>6} {check:>9.1} {here:>9.1} {there:>9.1} {:>6.2}x", there / here);
    }
    println!("{:<18}  cells   rows  check ns search ns   past it gemlab ns", "mesh");
    for (name, flat) in &meshes {
        let mut lent = Lent::new(MOST_ROWS, flat.ncell(), &mut r);
        assert_eq!(lent.build(flat.ndim as u64, flat, &s), 0);
        let mesh = flat.mesh();
        cell_search::measure(name, flat, &lent, &s.rust(&mesh).unwrap());
    }
}
