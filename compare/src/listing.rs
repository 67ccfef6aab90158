//! Module 8 beside gemlab's six `search_on_..`: random places and filters on random libraries, containers at the edge of the
//! radius test, long lists, and what a listing leaves in memory. And demand 3 as a test: the near and listed marks of a
//! library against those of libraries that have one mark each.

use crate::c::gemlab_grid_search_list;
use crate::choice::chosen;
use crate::near::{around, down, up};
use crate::random::Random;
use crate::rows::{on_lent, Lent, Settings, Source, World, LIMIT, MOST_ROWS};
use crate::tally::Tally;
use gemlab::util::GridSearch;
use std::collections::{BTreeMap, BTreeSet, HashSet};
use std::hint::black_box;
use std::time::Instant;

/// Random listings, and how many on one library.
const CALLS: usize = 1_000_000;
const CALLS_IN_A_RUN: usize = 100;

/// Listings on libraries that were changed at random.
const CHANGED: usize = 200_000;

/// Random lists of calls whose outcome is compared with that of single marks.
const STORIES: usize = 2_000;

/// What the list and the count hold before a call.
const ENTRY: u64 = 0x1234_5678_9abc_def0;
const COUNT: u64 = 0x0fed_cba9_8765_4321;

pub(crate) const LINE: u64 = 0;
const CIRCLE: u64 = 1;
const CYLINDER: u64 = 2;
const PLANE_XY: u64 = 3;
const PLANE_YZ: u64 = 4;
const PLANE_XZ: u64 = 5;

/// A place and a filter, as the C interface has them.
#[derive(Clone, Debug)]
pub(crate) struct Asked {
    pub(crate) place: u64,
    pub(crate) a: Vec<f64>,
    pub(crate) b: Vec<f64>,
    pub(crate) number: f64,
    pub(crate) filter: u64,
    pub(crate) axis: u64,
    pub(crate) low: f64,
    pub(crate) high: f64,
}

impl Asked {
    pub(crate) fn new(place: u64, a: &[f64], b: &[f64], number: f64) -> Self {
        Asked { place, a: a.to_vec(), b: b.to_vec(), number, filter: 0, axis: 9, low: f64::NAN, high: f64::NAN }
    }

    fn keeps(&self, x: &[f64]) -> bool {
        self.filter == 0 || (self.low <= x[self.axis as usize] && x[self.axis as usize] <= self.high)
    }

    /// What gemlab answers: the ids, or that the ends are too close.
    pub(crate) fn rust(&self, s: &GridSearch) -> Result<HashSet<usize>, &'static str> {
        let keep = |x: &[f64]| self.keeps(x);
        match self.place {
            LINE => s.search_on_line(&self.a, &self.b, keep),
            CIRCLE => s.search_on_circle(&self.a, self.number, keep),
            CYLINDER => s.search_on_cylinder(&self.a, &self.b, self.number, keep),
            PLANE_XY => s.search_on_plane_xy(self.number, keep),
            PLANE_YZ => s.search_on_plane_yz(self.number, keep),
            PLANE_XZ => s.search_on_plane_xz(self.number, keep),
            _ => Err("no place"),
        }
    }

    /// 16, 2 or 3: what document 01 refuses before it looks at rows.
    fn fault(&self, ndim: usize) -> Option<u64> {
        let fits = match self.place {
            LINE => true,
            CIRCLE => ndim == 2,
            CYLINDER | PLANE_XY | PLANE_YZ | PLANE_XZ => ndim == 3,
            _ => false,
        };
        if !fits || self.filter > 1 || (self.filter == 1 && self.axis >= ndim as u64) {
            return Some(16);
        }
        let mut lengths = Vec::new();
        let mut floats = Vec::new();
        match self.place {
            LINE | CYLINDER => {
                lengths.extend([self.a.len(), self.b.len()]);
                floats.extend(self.a.iter().chain(&self.b));
            }
            CIRCLE => {
                lengths.push(self.a.len());
                floats.extend(&self.a);
            }
            _ => {}
        }
        if lengths.iter().any(|n| *n != ndim) {
            return Some(2);
        }
        if self.place != LINE {
            floats.push(&self.number);
        }
        if self.filter == 1 {
            floats.extend([&self.low, &self.high]);
        }
        floats.iter().any(|x| !(x.abs() <= LIMIT)).then_some(3)
    }
}

/// The number, the count after the call, and the list, of which `room` entries are lent.
pub(crate) fn list(lent: &Lent, asked: &Asked, room: usize) -> (u64, u64, Vec<u64>) {
    let mut out = vec![ENTRY; room + 1];
    let mut count = COUNT;
    let number = list_into(lent, asked, &mut out[..room], &mut count);
    (number, count, out)
}

pub(crate) fn list_into(lent: &Lent, asked: &Asked, out: &mut [u64], count: &mut u64) -> u64 {
    // SAFETY: each pointer is a vector's or a local's, which is aligned and not null, with its length; the written ones are apart.
    unsafe {
        on_lent!(
            gemlab_grid_search_list,
            lent,
            as_ptr,
            0,
            lent.used,
            asked.place,
            asked.a.as_ptr(),
            asked.a.len(),
            asked.b.as_ptr(),
            asked.b.len(),
            asked.number,
            asked.filter,
            asked.axis,
            asked.low,
            asked.high,
            out.as_mut_ptr(),
            out.len(),
            count,
        )
    }
}

/// What a listing on a sound library gives: the ids, ascending, or a refusal, but for 14. 16, 2 and 3 are read from document 01,
/// the rest is gemlab's answer.
pub(crate) fn due(asked: &Asked, ndim: usize, rust: &GridSearch) -> Result<Vec<u64>, u64> {
    if let Some(number) = asked.fault(ndim) {
        return Err(number);
    }
    // too close, which gemlab says only where it has a container
    let mut ids: Vec<u64> = asked.rust(rust).map_err(|_| 15u64)?.into_iter().map(|id| id as u64).collect();
    ids.sort();
    Ok(ids)
}

/// One listing with so much room beside what is due; 14 stands last in the order.
fn told(lent: &Lent, asked: &Asked, room: usize, due: &Result<Vec<u64>, u64>, t: &mut Tally) {
    let what = || format!("{asked:?} with room for {room} in {lent:?}");
    let (number, count, entries) = list(lent, asked, room);
    let due = due.as_ref().map_err(|n| *n).and_then(|ids| if ids.len() > room { Err(14) } else { Ok(ids) });
    t.number("list", number, due.err().unwrap_or(0), what);
    let mut left = due.map_or(Vec::new(), |ids| ids.clone());
    let counted = due.map_or(COUNT, |ids| ids.len() as u64);
    left.resize(room + 1, ENTRY);
    t.equal((count, entries), (counted, left), what);
}

/// One listing beside gemlab's, with lists of several lengths.
pub(crate) fn listing(lent: &Lent, rust: &GridSearch, ndim: usize, asked: &Asked, t: &mut Tally) {
    let due = due(asked, ndim, rust);
    let n = due.as_ref().map_or(0, |ids| ids.len());
    for room in [n, n + 1, n + 3] {
        told(lent, asked, room, &due, t);
    }
    if n > 0 {
        told(lent, asked, n - 1, &due, t);
        told(lent, asked, 0, &due, t);
    }
}

/// Places and filters of all kinds, most of them by a mark.
pub(crate) struct Places {
    pub(crate) r: Random,
}

impl Places {
    fn direction(&mut self, ndim: usize) -> Vec<f64> {
        match self.r.below(3) {
            0 => {
                let axis = self.r.below(ndim as u64) as usize;
                (0..ndim).map(|i| if i == axis { 1.0 } else { 0.0 }).collect()
            }
            1 => (0..ndim).map(|_| self.r.below(3) as f64 - 1.0).collect(),
            _ => (0..ndim).map(|_| self.r.between(-1.0, 1.0)).collect(),
        }
    }

    /// How far off a mark: within the near distance, at its end, or beyond.
    fn off(&mut self, tol: f64) -> f64 {
        let d = match self.r.below(4) {
            0 => 0.0,
            1 => tol,
            2 => tol * self.r.between(0.0, 2.0),
            _ => tol * *self.r.pick(&[0.5, 0.7071067811865476, 0.5773502691896258, 1.0000001, 0.9999999]),
        };
        let d = *self.r.pick(&around(d));
        if self.r.below(2) == 0 {
            d
        } else {
            -d
        }
    }

    fn wild(&mut self, x: f64) -> f64 {
        match self.r.below(60) {
            0 => *self.r.pick(&[f64::NAN, f64::INFINITY, -f64::INFINITY, up(LIMIT), -up(LIMIT)]),
            1 => *self.r.pick(&[LIMIT, -LIMIT, 0.0, -0.0]),
            _ => x,
        }
    }

    pub(crate) fn asked(&mut self, w: &World) -> Asked {
        let f = &w.fields;
        let ndim = f.ndim;
        let mark: Vec<f64> = if w.rows.is_empty() || self.r.below(8) == 0 {
            (0..ndim).map(|i| self.r.between(f.xmin[i], f.xmax[i])).collect()
        } else {
            let n = self.r.below(w.rows.len() as u64) as usize;
            w.rows.values().nth(n).unwrap()[..ndim].to_vec()
        };
        let place = match self.r.below(20) {
            0 => self.r.below(8),
            1 => u64::MAX,
            _ if ndim == 2 => self.r.below(2),
            _ => *self.r.pick(&[LINE, LINE, CYLINDER, CYLINDER, PLANE_XY, PLANE_YZ, PLANE_XZ]),
        };
        let n = self.direction(ndim);
        let scale = *self.r.pick(&[1.0, f.side_length, f.side_length * 10.0, 1e-3]);
        let off = self.off(f.tol_dist);
        // a point off the mark, along one axis
        let axis = self.r.below(ndim as u64) as usize;
        let mut through = mark.clone();
        through[axis] += off;
        let (back, ahead) = (self.r.between(0.0, 3.0), self.r.between(0.0, 3.0));
        let mut a: Vec<f64> = through.iter().zip(&n).map(|(x, d)| x - d * scale * back).collect();
        let mut b: Vec<f64> = through.iter().zip(&n).map(|(x, d)| x + d * scale * ahead).collect();
        if self.r.below(20) == 0 {
            b = a.clone();
            if self.r.below(2) == 0 {
                let gap = *self.r.pick(&[26, 25, 24]);
                b[axis] = a[axis] + (0.5f64).powi(gap);
            }
        }
        let mut number = match place {
            CIRCLE => {
                let d = gemlab::geometry::point_point_distance(&a, &mark).unwrap_or(0.0);
                d + self.off(f.tol_dist)
            }
            CYLINDER => {
                let side = self.direction(ndim);
                let r = self.r.between(0.0, 2.0) * scale;
                for i in 0..ndim {
                    a[i] += side[i] * r;
                    b[i] += side[i] * r;
                }
                let d = gemlab::geometry::point_line_distance(&a, &b, &mark).unwrap_or(0.0);
                d + self.off(f.tol_dist)
            }
            PLANE_XY => mark[ndim - 1] + off,
            PLANE_YZ => mark[0] + off,
            PLANE_XZ => mark[1] + off,
            _ => f64::NAN,
        };
        if self.r.below(20) == 0 {
            number = -number;
        }
        number = self.wild(number);
        for x in a.iter_mut().chain(&mut b) {
            *x = self.wild(*x);
        }
        if self.r.below(40) == 0 {
            a.truncate(self.r.below(4) as usize);
        }
        if self.r.below(40) == 0 {
            b.push(0.0);
        }
        let mut asked = Asked::new(place, &a, &b, number);
        if self.r.below(3) == 0 {
            asked.filter = 1;
            asked.axis = self.r.below(ndim as u64);
            let at = mark[asked.axis as usize];
            let (low, high) = match self.r.below(4) {
                0 => (*self.r.pick(&around(at)), *self.r.pick(&around(at))),
                1 => (at - self.r.between(-1.0, 3.0), at + self.r.between(-1.0, 3.0)),
                2 => (-LIMIT, LIMIT),
                _ => (at, at),
            };
            asked.low = self.wild(low);
            asked.high = self.wild(high);
            match self.r.below(40) {
                0 => asked.axis = ndim as u64 + self.r.below(2),
                1 => asked.axis = u64::MAX,
                2 => asked.filter = 2 + self.r.below(2),
                _ => {}
            }
        }
        asked
    }
}

fn runs(t: &mut Tally) {
    let mut s = Source::new(21);
    let mut p = Places { r: Random::new(22) };
    let (mut calls, mut tried) = (0, 0);
    while calls < CALLS && tried < CALLS {
        tried += 1;
        let settings = s.settings();
        let Some(mut w) = settings.make(64, &mut s.r, t) else { continue };
        let marks = s.r.below(20);
        for _ in 0..marks {
            let (id, x) = (s.id(), s.position(&w));
            w.insert(id, &x, t);
        }
        for _ in 0..CALLS_IN_A_RUN {
            let asked = p.asked(&w);
            listing(&w.lent, &w.rust, w.ndim(), &asked, t);
        }
        calls += CALLS_IN_A_RUN;
    }
    t.equal(calls, CALLS, || "random listings".to_string());
}

/// Libraries with one or two things changed: every refusal in its place in the order 24, 13, 16, 2, 3, 15, 14, read from document
/// 01, and libraries that are only others.
fn changed(t: &mut Tally) {
    let mut s = Source::new(29);
    let mut p = Places { r: Random::new(30) };
    let (mut calls, mut tried) = (0, 0);
    while calls < CHANGED && tried < CHANGED {
        tried += 1;
        let settings = s.settings();
        let Some(mut w) = settings.make(24, &mut s.r, t) else { continue };
        for _ in 0..s.r.below(12) {
            let (id, x) = (s.id(), s.position(&w));
            w.insert(id, &x, t);
        }
        for _ in 0..CALLS_IN_A_RUN {
            let asked = p.asked(&w);
            let mut lent = w.lent.clone();
            for _ in 0..1 + s.r.below(2) {
                lent.change(&mut s.r);
            }
            let due = match lent.fault() {
                Some(number) => Err(number),
                None => due(&asked, lent.numbers[0] as usize, &lent.rust()),
            };
            told(&lent, &asked, s.r.below(5) as usize, &due, t);
        }
        calls += CALLS_IN_A_RUN;
    }
    t.equal(calls, CHANGED, || "listings on changed libraries".to_string());
}

/// A sheet of `ndiv` divisions with no rows, and gemlab's.
fn world(ndim: usize, ndiv: usize, space: usize, r: &mut Random, t: &mut Tally) -> Option<World> {
    let settings = Settings {
        xmin: vec![0.0; ndim],
        xmax: vec![8.0; ndim],
        ndiv: Some(ndiv),
        tolerance: Some(1.0 / 512.0),
        border_tol: Some(0.0),
    };
    settings.make(space, r, t)
}

/// Rows of any container, written into both libraries.
pub(crate) fn write_rows(w: &mut World, rows: &BTreeMap<(u64, u64), [f64; 3]>) {
    let ndim = w.ndim();
    for (i, ((key, id), at)) in rows.iter().enumerate() {
        w.lent.keys[i] = *key;
        w.lent.ids[i] = *id;
        w.lent.xs[i] = at[0];
        w.lent.ys[i] = at[1];
        w.lent.zs[i] = if ndim == 2 { 0.0 } else { at[2] };
        w.rust.put_row(*key as usize, *id as usize, &at[..ndim]);
    }
    w.lent.used = rows.len() as u64;
    w.rows = rows.clone();
}

/// One row on the place, in a container whose centre is at the edge of the radius test.
fn edges(t: &mut Tally) {
    let mut r = Random::new(23);
    for turn in 0..20_000 {
        let ndim = 2 + turn % 2;
        let ndiv = 2 + r.below(30) as usize;
        let Some(mut w) = world(ndim, ndiv, 1, &mut r, t) else { continue };
        let f = w.fields.clone();
        let key = r.below(f.ndiv.iter().product::<usize>() as u64);
        let center = w.rust.center_of(key as usize);
        let bound = f.radius + f.tol_dist;
        let nudge = |x: f64, by: i64| (0..by.abs()).fold(x, |x, _| if by < 0 { down(x) } else { up(x) });
        let by = r.below(9) as i64 - 4;
        let axis = r.below(ndim as u64) as usize;
        let other = (axis + 1) % ndim;
        let side = if r.below(2) == 0 { 1.0 } else { -1.0 };
        // where the place crosses the axis through the centre
        let v = nudge(center[axis] + side * bound, by);
        let mut at = center.clone();
        at[axis] = v;
        let mut asked = match (ndim, r.below(3)) {
            (3, 0) => Asked::new([PLANE_YZ, PLANE_XZ, PLANE_XY][axis], &[], &[], v),
            (_, 1) => {
                let mut b = at.clone();
                b[other] += 1.0 + r.below(4) as f64;
                Asked::new(LINE, &at, &b, f64::NAN)
            }
            _ => {
                // round a point further out, or in, so that the surface crosses at v
                let radius = r.between(0.5, 4.0);
                let mut c = at.clone();
                c[axis] += side * radius;
                let radius = nudge(radius, r.below(3) as i64 - 1);
                if ndim == 2 {
                    Asked::new(CIRCLE, &c, &[], radius)
                } else {
                    let mut d = c.clone();
                    d[other] += 2.0;
                    Asked::new(CYLINDER, &c, &d, radius)
                }
            }
        };
        if r.below(4) == 0 {
            asked.filter = 1;
            asked.axis = axis as u64;
            (asked.low, asked.high) = *r.pick(&[(v, v), (up(v), v), (v, down(v)), (down(v), up(v)), (up(v), up(v))]);
        }
        let mut point = [0.0; 3];
        point[..ndim].copy_from_slice(&at);
        write_rows(&mut w, &BTreeMap::from([((key, r.next()), point)]));
        listing(&w.lent, &w.rust, ndim, &asked, t);
    }
}

/// Libraries with more ids than fit a small buffer, each id in several rows, on places that all rows lie on.
fn many(t: &mut Tally) {
    let mut r = Random::new(24);
    for rows in [1, 2, 1023, 1024, 1025, 1026, 5000, MOST_ROWS - 1, MOST_ROWS] {
        for ndim in [2, 3] {
            for ids in [0, 1, 2, 100, rows as u64 / 2 + 1, rows as u64 * 4] {
                let ndiv = if ndim == 2 { 300 } else { 45 };
                let Some(mut w) = world(ndim, ndiv, rows, &mut r, t) else { continue };
                let containers = w.fields.ndiv.iter().product::<usize>() as u64;
                let mut all = BTreeMap::new();
                while all.len() < rows {
                    let id = if ids == 0 { r.next() } else { r.below(ids) };
                    // most rows lie at (1000, 0, 0)
                    let far = if r.below(10) == 0 { 5.0 } else { 1000.0 };
                    all.insert((r.below(containers), id), [far, 0.0, 0.0]);
                }
                write_rows(&mut w, &all);
                let asked = match ndim {
                    2 => Asked::new(CIRCLE, &[0.0, 0.0], &[], 1000.0),
                    _ => Asked::new(CYLINDER, &[0.0, 0.0, 0.0], &[0.0, 0.0, 1.0], 1000.0),
                };
                listing(&w.lent, &w.rust, ndim, &asked, t);
            }
        }
    }
}

/// Document 01's lines on listings, on sheet S.
fn examples(t: &mut Tally) {
    let mut r = Random::new(25);
    let Some(mut w) = Settings::s().make(8, &mut r, t) else { return };
    let ends = |gap: f64| Asked::new(LINE, &[1.0, 1.0], &[1.0 + gap, 1.0], f64::NAN);
    let tiny = [ends(0.0), ends(1.0 / 67108864.0), ends(1.0 / 33554432.0)];
    for asked in &tiny {
        t.equal(list(&w.lent, asked, 2), (0, 0, vec![ENTRY; 3]), || format!("{asked:?} with no rows"));
        listing(&w.lent, &w.rust, 2, asked, t);
    }
    w.insert(4, &[6.0, 3.0], t);
    for (asked, number) in tiny.iter().zip([15, 15, 0]) {
        t.equal(list(&w.lent, asked, 2).0, number, || format!("{asked:?} with a row"));
        listing(&w.lent, &w.rust, 2, asked, t);
    }
    // a refusal is the first in the order 24, 13, 16, 2, 3, 15, 14
    let mut bad = Asked::new(CYLINDER, &[0.0], &[f64::NAN], f64::NAN);
    t.equal(list(&w.lent, &bad, 0).0, 16, || format!("{bad:?}"));
    bad.place = LINE;
    t.equal(list(&w.lent, &bad, 0).0, 2, || format!("{bad:?}"));
    bad.a = vec![0.0, f64::NAN];
    bad.b = vec![0.0, f64::NAN];
    t.equal(list(&w.lent, &bad, 0).0, 3, || format!("{bad:?}"));
    let mut damaged = w.lent.clone();
    damaged.xs[0] = f64::NAN;
    t.equal(list(&damaged, &bad, 0).0, 13, || format!("{bad:?} in {damaged:?}"));
    damaged.keys.resize(MOST_ROWS + 1, 0);
    t.equal(list(&damaged, &bad, 0).0, 24, || format!("{bad:?} in a list too long"));
}

/// The marks of one list of calls, and the history of each: its accepted insertions by their positions, and its accepted
/// strikings, which have none.
struct Story {
    world: World,
    marks: BTreeMap<u64, Vec<Option<Vec<f64>>>>,
}

/// Demand 3: a mark is near a position, or on a place, exactly where it is so in a library of the same space that was given that
/// mark's history alone, of which each call is accepted there.
fn independence(t: &mut Tally) {
    let mut s = Source::new(26);
    let mut p = Places { r: Random::new(27) };
    let mut told = 0;
    let (mut near, mut listed, mut struck) = (0, 0, 0);
    for _ in 0..4 * STORIES {
        if told == STORIES {
            break;
        }
        let settings = s.settings();
        let space = s.space();
        let Some(world) = settings.make(space, &mut s.r, t) else { continue };
        told += 1;
        let mut story = Story { world, marks: BTreeMap::new() };
        let calls = s.r.below(60);
        for _ in 0..calls {
            let w = &mut story.world;
            let (id, x) = (s.id(), s.position(w));
            match s.r.below(7) {
                0 => {
                    w.lent.search(&x);
                }
                1 => {
                    list(&w.lent, &p.asked(w), 4);
                }
                2 => {
                    if w.lent.strike(id).0 == 0 {
                        story.marks.entry(id).or_default().push(None);
                        w.rows.retain(|row, _| row.1 != id);
                        struck += 1;
                    }
                }
                _ => {
                    let before = w.lent.clone();
                    if w.lent.insert(id, &x) == 0 {
                        story.marks.entry(id).or_default().push(Some(x.clone()));
                        let at = [x[0], x[1], if x.len() == 2 { 0.0 } else { x[2] }];
                        // the rows, for the places that are asked for
                        w.rows.insert((w.rust.key_of(&x).unwrap_or(0) as u64, id), at);
                    } else {
                        t.check(w.lent.same(&before), || {
                            format!("a refused insertion of {id} at {x:?} changed {before:?}")
                        });
                    }
                }
            }
        }
        let alone: BTreeMap<u64, Lent> = story
            .marks
            .iter()
            .filter_map(|(id, history)| {
                let mut lent = settings.make(space, &mut s.r, t)?.lent;
                for call in history {
                    let number = match call {
                        Some(x) => lent.insert(*id, x),
                        None => lent.strike(*id).0,
                    };
                    t.equal(number, 0, || format!("{call:?} of {id} alone"));
                }
                Some((*id, lent))
            })
            .collect();
        for _ in 0..20 {
            let w = &story.world;
            let x = s.position(w);
            let (number, found, id) = w.lent.search(&x);
            let answer = (number == 0 && found == 1).then_some(id);
            // the marks that are near by themselves, with their distances there
            let mut by_itself = Vec::new();
            for (id, lent) in &alone {
                let (n, f, i) = lent.search(&x);
                t.equal(n, number, || format!("search at {x:?} with {id} alone"));
                if n == 0 && f == 1 {
                    t.equal(i, *id, || format!("search at {x:?} with {id} alone"));
                    let key = w.rust.key_of(&x).map(|key| key as u64);
                    let row = (0..lent.used as usize).find(|row| Some(lent.keys[*row]) == key);
                    by_itself.extend(row.map(|row| (*id, lent.away(row, &x))));
                }
            }
            near += by_itself.len();
            t.equal(answer, chosen(&by_itself), || format!("search at {x:?} in {:?}", w.lent));

            let asked = p.asked(w);
            let all = list(&w.lent, &asked, space);
            let here: BTreeSet<u64> =
                if all.0 == 0 { all.2[..all.1 as usize].iter().copied().collect() } else { BTreeSet::new() };
            listed += here.len();
            for (id, lent) in &alone {
                let one = list(lent, &asked, space);
                // 15 looks at the rows of every mark, so that it can stand in one of the two only
                t.check(one.0 == all.0 || (one.0, all.0) == (0, 15), || {
                    format!("{asked:?} with {id} alone: {} and {}", one.0, all.0)
                });
                let is_listed = one.0 == 0 && one.1 == 1 && one.2[0] == *id;
                t.equal(here.contains(id), is_listed, || format!("{asked:?}: {id} in {:?}", w.lent));
            }
            t.check(here.iter().all(|id| alone.contains_key(id)), || format!("{asked:?} lists {here:?}"));
        }
    }
    t.equal(told, STORIES, || "lists of calls".to_string());
    t.check(near > STORIES && listed > STORIES && struck > STORIES / 2, || {
        format!("only {near} near, {listed} listed and {struck} struck marks were met")
    });
}

pub fn compare(t: &mut Tally) {
    examples(t);
    runs(t);
    changed(t);
    edges(t);
    many(t);
    independence(t);
    t.met("list", &[0, 2, 3, 13, 14, 15, 16, 24]);
}

/// Nanoseconds of a call: the best of several rounds.
fn best(mut f: impl FnMut()) -> f64 {
    let mut best = f64::INFINITY;
    for _ in 0..7 {
        let mut turns = 1;
        loop {
            let start = Instant::now();
            for _ in 0..turns {
                f();
            }
            let time = start.elapsed().as_nanos() as f64;
            if time > 5e6 {
                best = best.min(time / turns as f64);
                break;
            }
            turns *= 2;
        }
    }
    best
}

/// Libraries and places to measure listings on: so many rows, few or all of which are on the place. `work` has what the place is, the
/// library, the place, and how many ids are on it.
pub(crate) fn cases(mut work: impl FnMut(&str, &World, &Asked, usize)) {
    let mut r = Random::new(28);
    for rows in [1000, 10_000, MOST_ROWS] {
        for (name, ndim, asked) in [
            ("line", 2, Asked::new(LINE, &[0.0, 0.5], &[1.0, 0.5], 0.0)),
            ("line", 3, Asked::new(LINE, &[0.0, 0.5, 0.5], &[1.0, 0.5, 0.5], 0.0)),
            ("circle", 2, Asked::new(CIRCLE, &[0.5, 0.5], &[], 0.25)),
            ("cylinder", 3, Asked::new(CYLINDER, &[0.0, 0.5, 0.5], &[1.0, 0.5, 0.5], 0.25)),
            ("plane_xy", 3, Asked::new(PLANE_XY, &[], &[], 0.5)),
            ("plane_yz", 3, Asked::new(PLANE_YZ, &[], &[], 0.5)),
            ("plane_xz", 3, Asked::new(PLANE_XZ, &[], &[], 0.5)),
        ] {
            for all_on in [false, true] {
                let settings = Settings {
                    xmin: vec![0.0; ndim],
                    xmax: vec![1.0; ndim],
                    ndiv: None,
                    tolerance: None,
                    border_tol: None,
                };
                let mut w = settings.make(rows, &mut r, &mut Tally::new("bench-listing")).unwrap();
                let mut found = BTreeMap::new();
                let mut id = 0;
                while found.len() < rows {
                    // the ids of a mesh: counted up, in no order of places
                    let mut x: Vec<f64> = (0..ndim).map(|_| r.between(0.0, 1.0)).collect();
                    if all_on {
                        match (asked.place, ndim) {
                            (LINE, _) => x[1..].fill(0.5),
                            (CIRCLE, _) | (CYLINDER, _) => {
                                let angle = r.between(0.0, 6.283185307179586);
                                x[ndim - 2] = 0.5 + 0.25 * angle.cos();
                                x[ndim - 1] = 0.5 + 0.25 * angle.sin();
                            }
                            (PLANE_XY, _) => x[2] = 0.5,
                            (PLANE_YZ, _) => x[0] = 0.5,
                            _ => x[1] = 0.5,
                        }
                    }
                    let Some(key) = w.rust.key_of(&x) else { continue };
                    let mut at = [0.0; 3];
                    at[..ndim].copy_from_slice(&x);
                    found.insert((key as u64, id), at);
                    id += 1;
                }
                write_rows(&mut w, &found);
                let n = asked.rust(&w.rust).unwrap().len();
                work(&format!("{name} {ndim}D"), &w, &asked, n);
            }
        }
    }
}

pub fn measure() {
    println!("{:>6} {:<10} {:>6} {:>12} {:>12} {:>7}", "rows", "place", "ids", "here ns", "gemlab ns", "ratio");
    cases(|name, w, asked, n| {
        let rows = w.lent.used;
        let mut out = vec![0; n];
        let mut count = 0;
        let here = best(|| {
            let number = list_into(&w.lent, asked, &mut out, &mut count);
            assert_eq!((number, count as usize), (0, n));
        });
        let there = best(|| {
            black_box(asked.rust(&w.rust).unwrap().len());
        });
        println!("{rows:>6} {name:<11} {n:>6} {here:>12.0} {there:>12.0} {:>6.2}x", there / here);
    });
}
