//! Modules 6 and 7 beside gemlab's `GridSearch::insert` and `search`: random runs of insertions and searches on sheets of
//! every shape, damaged libraries for each clause of 13, and everything lent compared before and after each call.

use crate::c::{gemlab_grid_search_insert, gemlab_grid_search_new, gemlab_grid_search_search};
use crate::choice::chosen;
use crate::near::{around, same, special, up};
use crate::random::Random;
use crate::tally::Tally;
use gemlab::geometry::point_point_distance;
use gemlab::util::{GridSearch, SheetFields};
use std::collections::BTreeMap;
use std::hint::black_box;
use std::time::Instant;

/// Calls of random runs, and runs on one sheet each.
const CALLS: usize = 10_000_000;
const CALLS_IN_A_RUN: usize = 400;

/// The largest magnitude of a coordinate, and the most rows.
pub(crate) const LIMIT: f64 = 1048576.0;
pub(crate) const MOST_ROWS: usize = 65536;

/// What a search's results hold before a call, and what stands beside them.
const FOUND: u64 = 0x1234_5678_9abc_def0;
const ID: u64 = 0x0fed_cba9_8765_4321;
const BESIDE: u64 = 0x5555_aaaa_5555_aaaa;

/// What is lent: a sheet's two lists, the five lists of a library and its used count.
#[derive(Clone, Debug, Default)]
pub(crate) struct Lent {
    pub(crate) numbers: Vec<u64>,
    pub(crate) floats: Vec<f64>,
    pub(crate) keys: Vec<u64>,
    pub(crate) ids: Vec<u64>,
    pub(crate) xs: Vec<f64>,
    pub(crate) ys: Vec<f64>,
    pub(crate) zs: Vec<f64>,
    pub(crate) used: u64,
}

/// A search's results with what stands beside them.
fn results(found: u64, id: u64) -> [u64; 5] {
    [BESIDE, found, BESIDE, id, BESIDE]
}

/// Bit for bit: NaNs too, since nothing computes them.
fn all_same(a: &[f64], b: &[f64]) -> bool {
    a.len() == b.len() && a.iter().zip(b).all(|(x, y)| x.to_bits() == y.to_bits())
}

/// A call of C on what is lent, but for the last entries of each list of rows, by pointers that may be written or not, and what it
/// takes after them.
macro_rules! on_lent {
    ($call:ident, $lent:expr, $pointer:ident, $but:expr, $($rest:expr),+ $(,)?) => {
        $call(
            $lent.numbers.as_ptr(),
            $lent.numbers.len(),
            $lent.floats.as_ptr(),
            $lent.floats.len(),
            $lent.keys.$pointer(),
            $lent.keys.len() - $but,
            $lent.ids.$pointer(),
            $lent.ids.len() - $but,
            $lent.xs.$pointer(),
            $lent.xs.len() - $but,
            $lent.ys.$pointer(),
            $lent.ys.len() - $but,
            $lent.zs.$pointer(),
            $lent.zs.len() - $but,
            $($rest),+
        )
    };
}
pub(crate) use on_lent;

impl Lent {
    pub(crate) fn insert(&mut self, id: u64, x: &[f64]) -> u64 {
        // SAFETY: each pointer is a vector's or a field's, which is aligned and not null, with its length; the written ones are apart.
        unsafe { on_lent!(gemlab_grid_search_insert, self, as_mut_ptr, 0, &mut self.used, id, x.as_ptr(), x.len()) }
    }

    /// The number, and what the two results hold after the call.
    pub(crate) fn search(&self, x: &[f64]) -> (u64, u64, u64) {
        let (number, [_, found, _, id, _]) = self.search_between(x);
        (number, found, id)
    }

    /// The same with what stands before, between and behind the results, which has to stay.
    fn search_between(&self, x: &[f64]) -> (u64, [u64; 5]) {
        let mut results = results(FOUND, ID);
        let [_, found, _, id, _] = &mut results;
        // SAFETY: as above.
        let number =
            unsafe { on_lent!(gemlab_grid_search_search, self, as_ptr, 0, self.used, x.as_ptr(), x.len(), found, id) };
        (number, results)
    }

    /// Every list and the count, bit for bit.
    pub(crate) fn same(&self, other: &Lent) -> bool {
        self.numbers == other.numbers
            && all_same(&self.floats, &other.floats)
            && self.keys == other.keys
            && self.ids == other.ids
            && all_same(&self.xs, &other.xs)
            && all_same(&self.ys, &other.ys)
            && all_same(&self.zs, &other.zs)
            && self.used == other.used
    }

    /// The lists that are written, without a new allocation.
    pub(crate) fn copy_from(&mut self, other: &Lent) {
        self.numbers.clone_from(&other.numbers);
        self.floats.clone_from(&other.floats);
        self.keys.clone_from(&other.keys);
        self.ids.clone_from(&other.ids);
        self.xs.clone_from(&other.xs);
        self.ys.clone_from(&other.ys);
        self.zs.clone_from(&other.zs);
        self.used = other.used;
    }
}

impl Lent {
    /// The settings that the two lists of a sheet hold.
    fn settings(&self) -> Settings {
        let (n, f) = (&self.numbers, &self.floats);
        let ndim = n[0] as usize;
        Settings {
            xmin: f[..ndim].to_vec(),
            xmax: f[3..3 + ndim].to_vec(),
            ndiv: (n[1] == 1).then_some(n[2] as usize),
            tolerance: (n[3] == 1).then_some(f[6]),
            border_tol: (n[4] == 1).then_some(f[7]),
        }
    }

    /// Whether the two lists hold the sheet that gemlab gives for their settings, bit for bit.
    fn is_sheet(&self) -> bool {
        let (n, f) = (&self.numbers, &self.floats);
        if n.len() != 8
            || f.len() != 17
            || !(2..=3).contains(&n[0])
            || [n[1], n[3], n[4]].iter().any(|given| *given > 1)
        {
            return false;
        }
        let (ndim, settings) = (n[0] as usize, self.settings());
        if !settings.within_limits() {
            return false;
        }
        let Ok(rust) = settings.rust() else { return false };
        let g = rust.fields();
        let in_2d = || n[7] == 1 && [2, 5, 10, 13].iter().all(|i| same(f[*i], 0.0));
        (n[1] == 1 || n[2] == 0)
            && (n[3] == 1 || same(f[6], 0.0))
            && (n[4] == 1 || same(f[7], 0.0))
            && (0..ndim)
                .all(|i| same(f[8 + i], g.xmin[i]) && same(f[11 + i], g.xmax[i]) && n[5 + i] == g.ndiv[i] as u64)
            && (ndim == 3 || in_2d())
            && same(f[14], g.side_length)
            && same(f[15], g.tol_dist)
            && same(f[16], g.radius)
    }

    /// What turns a library away before its rows are looked at: 24, or 13 for the sheet, the lengths of the lists or the used count.
    pub(crate) fn layout_fault(&self) -> Option<u64> {
        let lengths = [self.keys.len(), self.ids.len(), self.xs.len(), self.ys.len(), self.zs.len()];
        if lengths.iter().any(|n| *n > MOST_ROWS) {
            return Some(24);
        }
        let fits = self.is_sheet() && self.is_even() && self.used <= lengths[0] as u64;
        (!fits).then_some(13)
    }

    /// What turns a library away: 24 or 13, read from document 01.
    pub(crate) fn fault(&self) -> Option<u64> {
        if let Some(number) = self.layout_fault() {
            return Some(number);
        }
        let ndim = self.numbers[0] as usize;
        let containers: u64 = self.numbers[5..5 + ndim].iter().product();
        let used = self.used as usize;
        let row = |i: usize| (self.keys[i], self.ids[i]);
        let sound = (1..used).all(|i| row(i - 1) < row(i))
            && (0..used).all(|i| {
                self.keys[i] < containers
                    && [self.xs[i], self.ys[i], self.zs[i]].iter().all(|x| x.abs() <= LIMIT)
                    && (ndim == 3 || same(self.zs[i], 0.0))
            });
        (!sound).then_some(13)
    }

    /// The distance of a row's mark from a position, by gemlab.
    pub(crate) fn away(&self, row: usize, x: &[f64]) -> f64 {
        let at = [self.xs[row], self.ys[row], self.zs[row]];
        point_point_distance(&at[..x.len()], x).unwrap()
    }

    /// gemlab's library of the sheet and the rows in use, where these have no fault.
    pub(crate) fn rust(&self) -> GridSearch {
        let mut rust = self.settings().rust().expect("a sheet without fault");
        let ndim = self.numbers[0] as usize;
        for i in 0..self.used as usize {
            let at = [self.xs[i], self.ys[i], self.zs[i]];
            rust.put_row(self.keys[i] as usize, self.ids[i] as usize, &at[..ndim]);
        }
        rust
    }

    /// Changes one thing at random; most of it is damage, some gives another library.
    pub(crate) fn change(&mut self, r: &mut Random) {
        let used = (self.used as usize).min(self.keys.len());
        let row = if used == 0 { 0 } else { r.below(used as u64) as usize };
        let bad = [f64::NAN, f64::INFINITY, -f64::INFINITY, LIMIT, -LIMIT, up(LIMIT), -up(LIMIT), 0.0, -0.0, 1.0];
        match r.below(12) {
            0 if !self.numbers.is_empty() => {
                let i = r.below(self.numbers.len() as u64) as usize;
                self.numbers[i] = *r.pick(&[0, 1, 2, 3, 4, 1024, 1025, u64::MAX]);
            }
            1 if !self.floats.is_empty() => {
                let i = r.below(self.floats.len() as u64) as usize;
                let v = self.floats[i];
                self.floats[i] = if v.is_finite() && r.below(2) == 0 { *r.pick(&around(v)) } else { *r.pick(&bad) };
            }
            2 => self.numbers.resize(r.below(10) as usize, 1),
            3 => self.floats.resize(r.below(19) as usize, 0.0),
            // a list of another length: by one, or past the most rows
            4 | 5 => {
                let space = self.keys.len();
                let to = match r.below(50) {
                    0 => MOST_ROWS + 1,
                    n if n % 2 == 0 && space > 0 => space - 1,
                    _ => space + 1,
                };
                match r.below(6) as usize {
                    5 => (0..5).for_each(|list| self.resize(list, to)),
                    list => self.resize(list, to),
                }
            }
            6 => self.used = *r.pick(&[0, self.keys.len() as u64, self.keys.len() as u64 + 1, u64::MAX]),
            7 if used > 1 && self.is_even() => self.swap(row, (row + 1) % used),
            8 if used > 1 && self.is_even() => self.repeat(row.min(used - 2)),
            9 if used > 0 && self.is_even() => self.keys[row] = *r.pick(&[0, self.keys[row] + 1, 1 << 32, u64::MAX]),
            10 if used > 0 && self.is_even() => self.ids[row] = *r.pick(&[0, u64::MAX]),
            11 if used > 0 && self.is_even() => {
                let v = *r.pick(&bad);
                *[&mut self.xs[row], &mut self.ys[row], &mut self.zs[row]][r.below(3) as usize] = v;
            }
            _ => {}
        }
    }

    /// Whether the five lists have one length.
    fn is_even(&self) -> bool {
        [self.ids.len(), self.xs.len(), self.ys.len(), self.zs.len()].iter().all(|n| *n == self.keys.len())
    }

    /// Any content past the rows in use.
    pub(crate) fn scribble(&mut self, r: &mut Random) {
        let n = self.used as usize;
        self.keys[n..].fill_with(|| r.next());
        self.ids[n..].fill_with(|| r.next());
        self.xs[n..].fill_with(|| r.pattern());
        self.ys[n..].fill_with(|| r.pattern());
        self.zs[n..].fill_with(|| r.pattern());
    }

    /// 0 or +0 from a row on, to the end of each list.
    pub(crate) fn blank(&mut self, from: usize) {
        self.keys[from..].fill(0);
        self.ids[from..].fill(0);
        self.xs[from..].fill(0.0);
        self.ys[from..].fill(0.0);
        self.zs[from..].fill(0.0);
    }

    /// One of the five lists, in the order of the C interface, with another length.
    pub(crate) fn resize(&mut self, list: usize, to: usize) {
        match list {
            0 => self.keys.resize(to, 0),
            1 => self.ids.resize(to, 0),
            2 => self.xs.resize(to, 0.0),
            3 => self.ys.resize(to, 0.0),
            _ => self.zs.resize(to, 0.0),
        }
    }

    pub(crate) fn swap(&mut self, i: usize, j: usize) {
        self.keys.swap(i, j);
        self.ids.swap(i, j);
        self.xs.swap(i, j);
        self.ys.swap(i, j);
        self.zs.swap(i, j);
    }

    /// Row i over the next, but for its coordinates.
    pub(crate) fn repeat(&mut self, i: usize) {
        self.keys[i + 1] = self.keys[i];
        self.ids[i + 1] = self.ids[i];
    }
}

/// Settings of a sheet.
#[derive(Clone, Debug)]
pub(crate) struct Settings {
    pub(crate) xmin: Vec<f64>,
    pub(crate) xmax: Vec<f64>,
    pub(crate) ndiv: Option<usize>,
    pub(crate) tolerance: Option<f64>,
    pub(crate) border_tol: Option<f64>,
}

impl Settings {
    /// Those of document 01's sheet S.
    pub(crate) fn s() -> Self {
        Settings {
            xmin: vec![0.0, 0.0],
            xmax: vec![8.0, 4.0],
            ndiv: Some(8),
            tolerance: Some(1.0 / 512.0),
            border_tol: Some(0.0),
        }
    }

    pub(crate) fn rust(&self) -> Result<GridSearch, &'static str> {
        GridSearch::new(&self.xmin, &self.xmax, self.ndiv, self.tolerance, self.border_tol)
    }

    /// What document 01's limits leave of these settings; gemlab judges the rest.
    fn within_limits(&self) -> bool {
        let tolerance = self.tolerance.unwrap_or(1e-4);
        self.xmin.iter().chain(&self.xmax).all(|x| x.abs() <= LIMIT)
            && (1.0 / LIMIT..=1024.0).contains(&tolerance)
            && self.border_tol.unwrap_or(1e-2).abs() <= 1024.0
            && self.ndiv.unwrap_or(100) <= 1024
    }

    /// A sheet and an empty library with `space` rows of any content, and gemlab's; none where the settings give no sheet.
    pub(crate) fn make(&self, space: usize, r: &mut Random, t: &mut Tally) -> Option<World> {
        if !self.within_limits() {
            return None;
        }
        let rust = self.rust().ok()?;
        let mut numbers = vec![0; 8];
        let mut floats = vec![0.0; 17];
        // SAFETY: as in `Lent::insert`.
        let number = unsafe {
            gemlab_grid_search_new(
                self.xmin.as_ptr(),
                self.xmin.len(),
                self.xmax.as_ptr(),
                self.xmax.len(),
                self.ndiv.is_some() as u64,
                self.ndiv.unwrap_or(0) as u64,
                self.tolerance.is_some() as u64,
                self.tolerance.unwrap_or(0.0),
                self.border_tol.is_some() as u64,
                self.border_tol.unwrap_or(0.0),
                numbers.as_mut_ptr(),
                8,
                floats.as_mut_ptr(),
                17,
            )
        };
        t.equal(number, 0, || format!("a sheet of {self:?}"));
        if number != 0 {
            return None;
        }
        let (keys, ids) = (vec![0; space], vec![0; space]);
        let (xs, ys, zs) = (vec![0.0; space], vec![0.0; space], vec![0.0; space]);
        let mut lent = Lent { numbers, floats, keys, ids, xs, ys, zs, used: 0 };
        lent.scribble(r);
        Some(World { fields: rust.fields(), rust, before: lent.clone(), lent, rows: BTreeMap::new() })
    }
}

/// A library beside gemlab's, and the rows that both are to have.
pub(crate) struct World {
    pub(crate) rust: GridSearch,
    pub(crate) fields: SheetFields,
    pub(crate) lent: Lent,
    pub(crate) before: Lent,
    pub(crate) rows: BTreeMap<(u64, u64), [f64; 3]>,
}

impl World {
    pub(crate) fn ndim(&self) -> usize {
        self.fields.ndim
    }

    /// What turns a position away that gemlab does not look at, or only by a text; 17 is judged on `points`.
    fn position_fault(&self, x: &[f64], points: &[Vec<f64>]) -> Option<u64> {
        if x.len() != self.ndim() {
            return Some(2);
        }
        if x.iter().any(|c| !(c.abs() <= LIMIT)) {
            return Some(3);
        }
        self.rust.key_of(x).is_none().then_some(11).or_else(|| {
            let exceeds = |p: &Vec<f64>| {
                (0..self.ndim())
                    .any(|i| ((p[i] - self.fields.xmin[i]) / self.fields.side_length) as usize > self.fields.ndiv[i])
            };
            points.iter().any(exceeds).then_some(17)
        })
    }

    /// The position and those of its halo corners that are within the sheet.
    fn points(&mut self, x: &[f64]) -> Vec<Vec<f64>> {
        if x.len() != self.ndim() || x.iter().any(|c| !c.is_finite()) {
            return Vec::new();
        }
        let mut points = vec![x.to_vec()];
        for corner in self.rust.halo_of(x) {
            if self.rust.key_of(&corner).is_some() {
                points.push(corner);
            }
        }
        points
    }

    /// The number that is due.
    pub(crate) fn insert(&mut self, id: u64, x: &[f64], t: &mut Tally) -> u64 {
        self.before.copy_from(&self.lent);
        let number = self.lent.insert(id, x);
        let points = self.points(x);
        let space = self.before.keys.len();
        let mut expected = self.position_fault(x, &points).unwrap_or(0);
        let mut keys: Vec<u64> = Vec::new();
        if expected == 0 {
            keys = points.iter().map(|p| self.rust.key_of(p).unwrap() as u64).collect();
            keys.sort();
            keys.dedup();
            let new = keys.iter().filter(|k| !self.rows.contains_key(&(**k, id))).count();
            if self.rows.len() + new > space {
                expected = 12;
            }
        }
        t.number("insert", number, expected, || format!("{id} at {x:?} into {:?}", self.before));
        if expected != 0 {
            let (lent, before) = (&self.lent, &self.before);
            t.check(lent.same(before), || {
                format!("insert {id} at {x:?}: refused with {number}, and {before:?} is now {lent:?}")
            });
            return expected;
        }
        let theirs = self.rust.insert(id as usize, x);
        t.check(theirs.is_ok(), || format!("insert {id} at {x:?}: gemlab says {theirs:?}"));
        let at = [x[0], x[1], if x.len() == 2 { 0.0 } else { x[2] }];
        for key in keys {
            self.rows.insert((key, id), at);
        }
        let (good, lent, before) = (self.stands(), &self.lent, &self.before);
        t.check(good, || format!("insert {id} at {x:?}: {before:?} is now {lent:?}"));
        0
    }

    /// The lists hold the rows in order, and past them what was there before.
    pub(crate) fn stands(&self) -> bool {
        let (l, b, n) = (&self.lent, &self.before, self.rows.len());
        l.used == n as u64
            && self.rows.iter().enumerate().all(|(i, ((key, id), at))| {
                l.keys[i] == *key
                    && l.ids[i] == *id
                    && same(l.xs[i], at[0])
                    && same(l.ys[i], at[1])
                    && same(l.zs[i], at[2])
            })
            && l.keys[n..] == b.keys[n..]
            && l.ids[n..] == b.ids[n..]
            && all_same(&l.xs[n..], &b.xs[n..])
            && all_same(&l.ys[n..], &b.ys[n..])
            && all_same(&l.zs[n..], &b.zs[n..])
            && l.numbers == b.numbers
            && all_same(&l.floats, &b.floats)
    }

    /// The rows of the container that a position falls into: id and coordinates, ascending by id; none outside the sheet.
    pub(crate) fn container(&self, x: &[f64]) -> impl Iterator<Item = (u64, &[f64])> {
        let keys = self.rust.key_of(x).map(|key| (key as u64, 0)..=(key as u64, u64::MAX));
        let rows = keys.into_iter().flat_map(|keys| self.rows.range(keys));
        rows.map(|((_, id), at)| (*id, &at[..self.ndim()]))
    }

    /// The ids near a position with their distances, by gemlab's own function: those that its search can give.
    pub(crate) fn near(&self, x: &[f64]) -> Vec<(u64, f64)> {
        self.container(x)
            .map(|(id, at)| (id, point_point_distance(at, x).unwrap()))
            .filter(|(_, away)| *away <= self.fields.tol_dist)
            .collect()
    }

    /// The id found, where the call is not refused.
    pub(crate) fn search(&mut self, x: &[f64], t: &mut Tally) -> Option<u64> {
        let (number, told) = self.lent.search_between(x);
        if let Some(expected) = self.position_fault(x, &[x.to_vec()]) {
            t.number("search", number, expected, || format!("at {x:?} in {:?}", self.lent));
            t.equal(told, results(FOUND, ID), || format!("search at {x:?} in {:?}", self.lent));
            return None;
        }
        let near = self.near(x);
        let expected = chosen(&near).map_or(results(0, ID), |id| results(1, id));
        t.number("search", number, 0, || format!("at {x:?} in {:?}", self.lent));
        t.equal(told, expected, || format!("search at {x:?}, near are {near:?} in {:?}", self.lent));
        let [_, found, _, id, _] = told;
        let ours = (number == 0 && found == 1).then_some(id);
        // gemlab answers any of those that are near, and ours is one of them
        let can_give = |id: Option<u64>| id.map_or(near.is_empty(), |id| near.iter().any(|(near, _)| *near == id));
        let theirs = self.rust.search(x);
        let among = theirs.is_ok_and(|id| can_give(id.map(|id| id as u64)));
        t.check(among && can_give(ours), || {
            format!("search at {x:?}: {ours:?} here, gemlab has {theirs:?}, near are {near:?}")
        });
        ours
    }

    /// gemlab's containers hold the same rows.
    pub(crate) fn check_rust(&self, t: &mut Tally) {
        let theirs: Vec<_> = self.rust.rows();
        let agrees = theirs.len() == self.rows.len()
            && theirs.iter().zip(&self.rows).all(|(row, ((key, id), at))| {
                row.key as u64 == *key
                    && row.id as u64 == *id
                    && row.x.len() == self.ndim()
                    && row.x.iter().zip(at).all(|(a, b)| same(*a, *b))
            });
        t.check(agrees, || format!("gemlab has {theirs:?}, here are {:?}", self.rows));
    }
}

/// Sheets, positions and ids of all kinds.
pub(crate) struct Source {
    pub(crate) r: Random,
    pub(crate) wild: Vec<f64>,
}

impl Source {
    pub(crate) fn new(seed: u64) -> Self {
        let mut wild = special();
        for x in [LIMIT, -LIMIT] {
            wild.extend(around(x));
        }
        Source { r: Random::new(seed), wild }
    }

    pub(crate) fn settings(&mut self) -> Settings {
        let ndim = 2 + self.r.below(2) as usize;
        let first = match self.r.below(4) {
            0 => 1.0 + self.r.below(16) as f64,
            1 => self.r.between(0.1, 1.0),
            2 => self.r.between(0.0, LIMIT),
            _ => self.r.between(1.0, 100.0),
        };
        let kind = self.r.below(3);
        let mut xmin = Vec::new();
        let mut xmax = Vec::new();
        for i in 0..ndim {
            let a = match self.r.below(3) {
                0 => 0.0,
                1 => self.r.below(16) as f64 - 8.0,
                _ => self.r.between(-1000.0, 1000.0),
            };
            let length = match kind {
                0 => first,
                1 if i > 0 => first * (1 + self.r.below(16)) as f64 / 16.0,
                _ => first * self.r.between(0.01, 1.0),
            };
            xmin.push(a);
            xmax.push(a + length);
        }
        let ndiv = match self.r.below(4) {
            0 => None,
            1 => Some(2),
            2 => Some(2 + self.r.below(1023) as usize),
            _ => Some(2 + self.r.below(12) as usize),
        };
        // a tolerance from the least up to half a side
        let side = first / ndiv.unwrap_or(100) as f64;
        let tolerance = match self.r.below(4) {
            0 => None,
            1 => Some(side * self.r.between(0.3, 0.5)),
            _ => {
                let k = self.r.below(12);
                Some(side * self.r.between(0.25, 0.5) / (1u64 << k) as f64)
            }
        };
        let border_tol = match self.r.below(3) {
            0 => None,
            1 => Some(0.0),
            _ => Some(self.r.between(0.0, 1.0)),
        };
        Settings { xmin, xmax, ndiv, tolerance, border_tol }
    }

    pub(crate) fn space(&mut self) -> usize {
        match self.r.below(4) {
            0 => self.r.below(5) as usize,
            1 => self.r.below(17) as usize,
            _ => self.r.below(65) as usize,
        }
    }

    pub(crate) fn id(&mut self) -> u64 {
        match self.r.below(8) {
            0 => self.r.next(),
            1 => u64::MAX - self.r.below(2),
            _ => self.r.below(8),
        }
    }

    /// A coordinate: anywhere, on an edge of a container or a tolerance off it, near a mark, at the ends, outside.
    fn coordinate(&mut self, w: &World, axis: usize, mark: &Option<[f64; 3]>) -> f64 {
        let f = &w.fields;
        let (low, high) = (f.xmin[axis], f.xmax[axis]);
        let x = match self.r.below(8) {
            0 | 1 => self.r.between(low, high),
            2 | 3 => {
                let i = self.r.below(f.ndiv[axis] as u64 + 1) as f64;
                let off = *self.r.pick(&[0.0, f.tolerance, -f.tolerance, f.tol_dist, -f.tol_dist]);
                low + i * f.side_length + off
            }
            4 => *self.r.pick(&[low, high, low - 0.25, high + 0.25]),
            _ => match mark {
                Some(at) => {
                    let d = f.tol_dist;
                    let off = *self.r.pick(&[
                        0.0,
                        0.0,
                        d,
                        -d,
                        d * 0.5,
                        d * 0.7071067811865476,
                        -d * 0.5773502691896258,
                        f.tolerance,
                    ]);
                    at[axis] + off
                }
                None => self.r.between(low, high),
            },
        };
        match self.r.below(3) {
            0 => *self.r.pick(&around(x)),
            _ => x,
        }
    }

    pub(crate) fn position(&mut self, w: &World) -> Vec<f64> {
        let mark = if w.rows.is_empty() {
            None
        } else {
            let n = self.r.below(w.rows.len() as u64) as usize;
            w.rows.values().nth(n).copied()
        };
        let mut x: Vec<f64> = (0..w.ndim()).map(|i| self.coordinate(w, i, &mark)).collect();
        match self.r.below(40) {
            0 => x.truncate(self.r.below(4) as usize),
            1 => x.push(0.0),
            2 => {
                let i = self.r.below(w.ndim() as u64) as usize;
                x[i] = *self.r.pick(&self.wild);
            }
            _ => {}
        }
        x
    }
}

fn runs(t: &mut Tally) {
    let mut s = Source::new(11);
    let (mut calls, mut tried) = (0, 0);
    while calls < CALLS && tried < CALLS {
        tried += 1;
        let settings = s.settings();
        let space = s.space();
        let Some(mut w) = settings.make(space, &mut s.r, t) else { continue };
        for _ in 0..CALLS_IN_A_RUN {
            let x = s.position(&w);
            if s.r.below(2) == 0 {
                let id = s.id();
                w.insert(id, &x, t);
            } else {
                w.search(&x, t);
            }
        }
        w.check_rust(t);
        calls += CALLS_IN_A_RUN;
    }
    t.equal(calls, CALLS, || "calls of random runs".to_string());
}

/// A library of the largest size, filled, and then searched at its marks and beside them.
fn large(t: &mut Tally) {
    for ndim in [2, 3] {
        let mut s = Source::new(12);
        let settings = Settings {
            xmin: vec![-1.0; ndim],
            xmax: vec![1.0; ndim],
            ndiv: Some(if ndim == 2 { 100 } else { 20 }),
            tolerance: Some(0.001),
            border_tol: None,
        };
        let Some(mut w) = settings.make(MOST_ROWS, &mut s.r, t) else { continue };
        let mut id = 0;
        while w.rows.len() + 8 < MOST_ROWS {
            let x: Vec<f64> = (0..ndim).map(|_| s.r.between(-1.0, 1.0)).collect();
            if id % 1000 == 0 {
                w.insert(id, &x, t);
                w.search(&x, t);
            } else {
                w.fill(id, &x, t);
            }
            id += 1;
        }
        for _ in 0..1000 {
            let x = s.position(&w);
            let id = s.r.below(id);
            w.insert(id, &x, t);
            w.search(&x, t);
        }
        w.check_rust(t);
    }
}

impl World {
    /// An insertion that is only looked at by its number.
    pub(crate) fn fill(&mut self, id: u64, x: &[f64], t: &mut Tally) {
        t.equal(self.lent.insert(id, x), 0, || format!("insert {id} at {x:?}"));
        for p in self.points(x) {
            let key = self.rust.key_of(&p).unwrap() as u64;
            self.rows.insert((key, id), [x[0], x[1], if x.len() == 2 { 0.0 } else { x[2] }]);
        }
        let theirs = self.rust.insert(id as usize, x);
        t.check(theirs.is_ok(), || format!("insert {id} at {x:?}: gemlab says {theirs:?}"));
    }
}

/// Both calls on a library that is to be refused with `number`: nothing lent changes.
fn refused(lent: &Lent, x: &[f64], number: u64, t: &mut Tally, what: &dyn Fn() -> String) {
    let mut after = lent.clone();
    t.number("insert", after.insert(3, x), number, || format!("{}: {lent:?}", what()));
    t.check(after.same(lent), || format!("insert, {}: {lent:?} is now {after:?}", what()));
    let (told, found, id) = lent.search(x);
    t.number("search", told, number, || format!("{}: {lent:?}", what()));
    t.equal((found, id), (FOUND, ID), || format!("search, {}: {lent:?}", what()));
}

fn damages(t: &mut Tally) {
    damaged(13, t, |lent, x, number, t, what| {
        if number == 0 {
            t.equal(lent.search(x).0, 0, || format!("{}: {lent:?}", what()));
        } else {
            refused(lent, x, number, t, what);
        }
    });
}

/// Good libraries, and each with every clause of 13, and 24: `work` has the library, the position of its first row, the
/// number that is due, which is 0 or the refusal, and what was done.
pub(crate) fn damaged(
    seed: u64,
    t: &mut Tally,
    mut work: impl FnMut(&Lent, &[f64], u64, &mut Tally, &dyn Fn() -> String),
) {
    let mut s = Source::new(seed);
    let mut made = 0;
    for _ in 0..4000 {
        if made == 400 {
            break;
        }
        let settings = s.settings();
        let Some(mut w) = settings.make(24, &mut s.r, t) else { continue };
        for _ in 0..30 {
            let (id, x) = (s.id(), s.position(&w));
            w.insert(id, &x, t);
        }
        if w.rows.len() < 4 || w.rows.len() > 22 {
            continue;
        }
        made += 1;
        let ndim = w.ndim();
        let good = w.lent.clone();
        // a position that insertion and search take
        let x: Vec<f64> = w.rows.values().next().unwrap()[..ndim].to_vec();
        work(&good, &x, 0, t, &|| "a good library".to_string());
        let n = good.used as usize;
        let count = w.fields.ndiv.iter().product::<usize>() as u64;
        let mut bad = |change: &dyn Fn(&mut Lent), number: u64, what: &dyn Fn() -> String| {
            let mut lent = good.clone();
            change(&mut lent);
            work(&lent, &x, number, t, what);
        };
        // the sheet is not the one its settings give
        for i in 0..8 {
            for v in [good.numbers[i].wrapping_add(1), good.numbers[i] ^ 4, u64::MAX] {
                if v != good.numbers[i] {
                    bad(&|l| l.numbers[i] = v, 13, &|| format!("number {i} is {v}"));
                }
            }
        }
        for i in 0..17 {
            let mut values = vec![good.floats[i] + 1.0, f64::NAN, f64::INFINITY, -0.125];
            if (8..17).contains(&i) && good.floats[i] != 0.0 {
                values.push(up(good.floats[i]));
            }
            if good.floats[i] == 0.0 && ndim == 2 && (i == 2 || i == 5 || i == 10 || i == 13) {
                values.push(-0.0);
            }
            for v in values {
                let mut changed = good.clone();
                changed.floats[i] = v;
                // other settings may give the same sheet, as a shorter axis does that is not the longest
                if !changed.is_sheet() {
                    bad(&|l| l.floats[i] = v, 13, &|| format!("float {i} is {v}"));
                }
            }
        }
        bad(&|l| l.numbers.truncate(7), 13, &|| "7 numbers".to_string());
        bad(&|l| l.numbers.push(0), 13, &|| "9 numbers".to_string());
        bad(&|l| l.floats.truncate(16), 13, &|| "16 floats".to_string());
        bad(&|l| l.floats.clear(), 13, &|| "no floats".to_string());
        // lists of unequal length, by one or by all
        for list in 0..5 {
            let space = good.keys.len();
            for to in [0, space - 1, space + 1] {
                bad(&|l| l.resize(list, to), 13, &|| format!("list {list} of {to} entries and not {space}"));
            }
        }
        // used count above the space
        for used in [25, 26, MOST_ROWS as u64, 1 << 32, u64::MAX] {
            bad(&|l| l.used = used, 13, &|| format!("used {used}"));
        }
        // rows out of order: two changed, one twice, one with the key or id of a lower one
        for i in 0..n - 1 {
            bad(&|l| l.swap(i, i + 1), 13, &|| format!("rows {i} and {} changed", i + 1));
            bad(&|l| l.repeat(i), 13, &|| format!("row {i} twice"));
        }
        bad(&|l| l.swap(0, n - 1), 13, &|| "first and last row changed".to_string());
        // a key not below the container count
        for key in [count, count + 1, 1 << 32, u64::MAX] {
            bad(&|l| l.keys[n - 1] = key, 13, &|| format!("last key {key} of {count}"));
        }
        // coordinates not finite or past their limits, the third not +0 in 2D
        for i in 0..n {
            for v in [f64::NAN, -f64::NAN, f64::INFINITY, -f64::INFINITY, up(LIMIT), -up(LIMIT), f64::MAX] {
                bad(&|l| l.xs[i] = v, 13, &|| format!("x {i} is {v}"));
                bad(&|l| l.ys[i] = v, 13, &|| format!("y {i} is {v}"));
                bad(&|l| l.zs[i] = v, 13, &|| format!("z {i} is {v}"));
            }
            if ndim == 2 {
                for v in [-0.0, f64::from_bits(1), 1.0, -f64::from_bits(1)] {
                    bad(&|l| l.zs[i] = v, 13, &|| format!("z {i} is {v}"));
                }
            }
        }
        // 24 stands before 13: a list too long, whatever the others are
        if made % 40 == 0 {
            for list in 0..5 {
                let change = |l: &mut Lent| {
                    l.resize(list, MOST_ROWS + 1);
                    l.floats[14] = f64::NAN;
                };
                bad(&change, 24, &|| format!("list {list} too long"));
            }
        }
        // limits themselves are good, and entries past the rows in use are not looked at
        let mut lent = good.clone();
        let used = n;
        for i in used..lent.keys.len() {
            lent.keys[i] = u64::MAX;
            lent.zs[i] = f64::NAN;
        }
        lent.xs[0] = LIMIT;
        lent.ys[n - 1] = -LIMIT;
        work(&lent, &x, 0, t, &|| "limits".to_string());
    }
    t.equal(made, 400, || "libraries that were damaged".to_string());
}

/// Document 01's lines on ids 7 and 8, on sheet S.
fn examples(t: &mut Tally) {
    let settings = Settings::s();
    let mut r = Random::new(14);
    let Some(mut w) = settings.make(8, &mut r, t) else { return };
    let keys = |w: &World| w.lent.keys[..w.lent.used as usize].to_vec();
    t.equal(w.lent.insert(7, &[2.0, 1.0]), 0, || "7 at (2,1)".to_string());
    t.equal(keys(&w), vec![1, 2, 9, 10], || "keys of 7 at (2,1)".to_string());
    t.equal(w.lent.search(&[2.0, 1.0]), (0, 1, 7), || "(2,1)".to_string());
    t.equal(w.lent.insert(7, &[5.5, 2.5]), 0, || "7 at (5.5,2.5)".to_string());
    t.equal(keys(&w), vec![1, 2, 9, 10, 21], || "keys of 7 at (5.5,2.5) too".to_string());
    t.equal(w.lent.search(&[2.0, 1.0]), (0, 1, 7), || "(2,1) still".to_string());
    let Some(mut w) = settings.make(3, &mut r, t) else { return };
    t.equal(w.lent.insert(7, &[2.0, 1.0]), 12, || "7 at (2,1) with 3 free rows".to_string());
    t.equal(w.lent.insert(8, &[3.0 - 9.0 / 4096.0, 0.5]), 0, || "8".to_string());
    t.equal(keys(&w), vec![2], || "keys of 8".to_string());
    t.equal(w.lent.search(&[3.0, 0.5]), (0, 0, ID), || "(3,0.5)".to_string());
    t.equal(w.lent.insert(8, &[up(8.0), 4.0]), 11, || "the next float above 8".to_string());
}

pub fn compare(t: &mut Tally) {
    examples(t);
    runs(t);
    large(t);
    damages(t);
    // 17 is met by no position of a good sheet
    t.met("insert", &[0, 2, 3, 11, 12, 13, 24]);
    t.met("search", &[0, 2, 3, 11, 13, 24]);
}

/// Nanoseconds for one call of f: the best of several rounds of about 100 microseconds each.
fn time(mut f: impl FnMut(usize) -> u64) -> f64 {
    const ROUNDS: usize = 300;
    let start = Instant::now();
    black_box(f(0));
    let once = start.elapsed().as_nanos().max(1) as usize;
    let turns = (100_000 / once).clamp(1, 2000);
    let mut best = f64::INFINITY;
    let mut k = 0;
    for _ in 0..ROUNDS {
        let start = Instant::now();
        let mut sum = 0;
        for _ in 0..turns {
            sum += f(k);
            k += 1;
        }
        black_box(sum);
        best = best.min(start.elapsed().as_nanos() as f64 / turns as f64);
    }
    best
}

/// A library to measure on, of so much space but for some room, and the positions of its marks, whose ids count up from 0.
pub(crate) fn filled(ndim: usize, space: usize, r: &mut Random) -> (World, Vec<Vec<f64>>) {
    const ROOM: usize = 64;
    let (xmin, xmax) = (vec![-1.0; ndim], vec![1.0; ndim]);
    let settings = Settings { xmin, xmax, ndiv: None, tolerance: None, border_tol: None };
    let mut t = Tally::new("bench");
    let mut w = settings.make(space, r, &mut t).unwrap();
    let mut marks: Vec<Vec<f64>> = Vec::new();
    while w.rows.len() + ROOM < space {
        let x: Vec<f64> = (0..ndim).map(|_| r.between(-1.0, 1.0)).collect();
        w.fill(marks.len() as u64, &x, &mut t);
        marks.push(x);
    }
    (w, marks)
}

/// Whole calls beside gemlab's at several sizes, and apart from them the look at every row.
pub fn measure() {
    for ndim in [2, 3] {
        println!("bench rows, {ndim}D, in nanoseconds (gemlab in brackets)");
        println!("  rows     search at a mark    search elsewhere   insert again        insert new          check a row   past the check");
        for n in [100, 1000, 10_000, MOST_ROWS] {
            let mut r = Random::new(15);
            let (mut w, marks) = filled(ndim, n, &mut r);
            let used = w.lent.used as f64;
            let pick: Vec<usize> = (0..1024).map(|_| r.below(marks.len() as u64) as usize).collect();
            let others: Vec<Vec<f64>> = (0..1024).map(|_| (0..ndim).map(|_| r.between(-1.0, 1.0)).collect()).collect();
            let (lent, rust) = (&w.lent, &w.rust);
            let hit = time(|k| lent.search(&marks[pick[k % 1024]]).1);
            let rust_hit = time(|k| rust.search(&marks[pick[k % 1024]]).unwrap().is_some() as u64);
            let miss = time(|k| lent.search(&others[k % 1024]).1);
            let rust_miss = time(|k| rust.search(&others[k % 1024]).unwrap().is_some() as u64);
            // a list of another length is refused once every row was looked at
            let looked = time(|_| lent.search(&[]).0);
            let mut none = lent.clone();
            none.used = 0;
            let unlooked = time(|_| none.search(&[]).0);
            let again = time(|k| w.lent.insert(pick[k % 1024] as u64, &marks[pick[k % 1024]]));
            let rust_again = time(|k| w.rust.insert(pick[k % 1024], &marks[pick[k % 1024]]).is_ok() as u64);
            // new marks, one a call; the rows are put back before each
            let mut new = f64::INFINITY;
            let mut rust_new = f64::INFINITY;
            for (k, x) in others.iter().take(200).enumerate() {
                let mut lent = w.lent.clone();
                let id = (marks.len() + k) as u64;
                let start = Instant::now();
                black_box(lent.insert(id, x));
                new = new.min(start.elapsed().as_nanos() as f64);
                let start = Instant::now();
                black_box(w.rust.insert(id as usize, x).is_ok());
                rust_new = rust_new.min(start.elapsed().as_nanos() as f64);
            }
            println!(
                "  {used:6}  {hit:8.0} ({rust_hit:4.0})    {miss:8.0} ({rust_miss:4.0})    {again:8.0} ({rust_again:4.0})    {new:8.0} ({rust_new:4.0})    {:6.2}        {:6.0}",
                (looked - unlooked) / used,
                miss - looked
            );
        }
    }
}
