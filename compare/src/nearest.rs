//! Request b of document 02, the nearer stud wins, beside gemlab: marks about a pole that are hard to tell apart, among others of their
//! container. Each answer has to be one that gemlab can give, and the one that the request picks. The searches are counted by kind,
//! and those too in which a wrong choice names another id: there have to be enough of each.

use crate::choice::{chosen, square};
use crate::listing::write_rows;
use crate::near::{around, down, same, up};
use crate::random::Random;
use crate::rows::{Settings, Source, World, LIMIT, MOST_ROWS};
use crate::strike::Story;
use crate::tally::{Kinds, Tally};
use crate::timing::{burst, in_turn};
use gemlab::geometry::point_point_distance;
use std::collections::{BTreeMap, BTreeSet};

/// Libraries with groups of marks about poles, with pairs alone, and with a crowded container, of each size.
const LIBRARIES: usize = 6_000;
const PAIRS: usize = 3_000;
const CROWDS: usize = 12;

/// One in so many searches is asked of gemlab anew until it gives the same id, so many times at most.
const ASKED_ANEW: u64 = 64;
const TIMES: usize = 1_000;

/// Offsets on this grid from a pole on the grid of 1/1,024 are exact where coordinates are below 256.
const GRID: f64 = 17592186044416.0;

fn on_grid(x: f64) -> f64 {
    (x * GRID).round() / GRID
}

/// A row of the container that is searched.
struct Row<'a> {
    id: u64,
    at: &'a [f64],
    square: f64,
    away: f64,
}

/// The id of the first row in an order.
fn first_by<K: PartialOrd>(rows: &[&Row], order: impl Fn(&Row) -> K) -> Option<u64> {
    rows.iter().copied().reduce(|a, b| if order(b) < order(a) { b } else { a }).map(|row| row.id)
}

/// How many searches were made, in how many gemlab was asked anew, and how many were of each kind.
#[derive(Default)]
struct Met {
    searches: u64,
    anew: u64,
    kinds: Kinds,
}

impl Met {
    fn count(&mut self, w: &World, x: &[f64], t: &mut Tally) {
        let row = |(id, at)| Row { id, at, square: square(at, x), away: point_point_distance(at, x).unwrap() };
        let rows: Vec<Row> = w.container(x).map(row).collect();
        t.check(rows.iter().all(|row| same(row.square.sqrt(), row.away)), || {
            format!("squares of distances from {x:?}")
        });
        let reach = w.fields.tol_dist;
        let near: Vec<&Row> = rows.iter().filter(|row| row.away <= reach).collect();
        let far = rows.len() - near.len();
        let picked = chosen(&near.iter().map(|row| (row.id, row.away)).collect::<Vec<_>>());
        let least = near.iter().map(|row| row.away).fold(f64::INFINITY, f64::min);
        let nearest: Vec<&Row> = near.iter().copied().filter(|row| row.away == least).collect();
        // those at the least distance: their squares, and their positions
        let squares: BTreeSet<u64> = nearest.iter().map(|row| row.square.to_bits()).collect();
        // both zeros are one
        let bits = |row: &&Row| row.at.iter().map(|x| (x + 0.0).to_bits()).collect::<Vec<u64>>();
        let positions: BTreeSet<Vec<u64>> = nearest.iter().map(bits).collect();
        let by_squares = first_by(&near, |row| (row.square, row.id));
        let in_plane = first_by(&near, |row| (square(&row.at[..2], &x[..2]).sqrt(), row.id));
        let kinds = [
            ("several near ids", near.len() > 1, 200_000),
            ("8 or more near ids", near.len() > 7, 50_000),
            ("near ids beside 8 or more far rows", !near.is_empty() && far > 7, 50_000),
            ("near ids in a container of 64 or more rows", !near.is_empty() && rows.len() > 63, 10_000),
            ("near ids in a container of 300 or more rows", !near.is_empty() && rows.len() > 299, 2_000),
            ("far rows alone", near.is_empty() && far > 0, 30_000),
            ("the next distance one unit on", near.iter().any(|row| row.away == up(least)), 20_000),
            ("equal least distances", nearest.len() > 1, 100_000),
            ("equal least distances at one position", positions.len() < nearest.len(), 50_000),
            ("equal least distances of one square at two positions", positions.len() > squares.len(), 50_000),
            ("equal least distances of two squares", squares.len() > 1, 10_000),
            ("no distance from two positions", least == 0.0 && positions.len() > 1, 3_000),
            ("the nearest at tol_dist", least == reach, 1_000),
            ("a near id of a square above that of tol_dist", near.iter().any(|r| r.square > reach * reach), 2_000),
            ("a row one unit past tol_dist", rows.iter().any(|row| row.away == up(reach)), 4_000),
            ("id 0 found", picked == Some(0), 20_000),
            ("id 2^64 - 1 found", picked == Some(u64::MAX), 5_000),
            // wrong choices
            ("another than the lowest near id", picked != first_by(&near, |row| row.id), 100_000),
            ("another than the last near id", picked != near.last().map(|row| row.id), 100_000),
            ("another than the highest of the nearest", picked != nearest.last().map(|row| row.id), 100_000),
            ("another than that of the least square", picked != by_squares, 5_000),
            ("another than the nearest in the plane", picked != in_plane, 20_000),
        ];
        self.searches += 1;
        self.kinds.count(&kinds);
    }

    /// A search: nothing lent changes, and what is found is what is due.
    fn search(&mut self, w: &mut World, x: &[f64], t: &mut Tally) {
        if x.iter().all(|x| x.abs() <= LIMIT) {
            self.count(w, x, t);
        }
        w.before.copy_from(&w.lent);
        let found = w.search(x, t);
        t.check(w.lent.same(&w.before), || format!("search at {x:?}: {:?} is now {:?}", w.before, w.lent));
        let near = w.near(x).len();
        if self.searches % ASKED_ANEW == 0 && (2..=8).contains(&near) && found.is_some() {
            // each hash map has an order of its own
            self.anew += 1;
            let given = (0..TIMES).any(|_| w.lent.rust().search(x).is_ok_and(|id| id.map(|id| id as u64) == found));
            t.check(given, || format!("search at {x:?}: gemlab never gave {found:?} in {:?}", w.lent));
        }
    }
}

/// How the marks of a group lie to their pole and to each other.
#[derive(Clone, Copy, PartialEq)]
enum Lie {
    /// one at the pole, and one a tenth of a millimetre off
    Tenth,
    /// on both sides of the pole: mirrored on an axis, or on a diagonal
    Mirrored,
    /// at exactly equal distances, so that computed squares are equal or next to each other
    Circle,
    /// along an axis, squares one or few units apart
    Units,
    /// the same at the end of the near distance
    End,
    /// coordinates one unit apart
    Beside,
    /// at one position
    One,
    /// so near that squares are 0 or have few digits
    Tiny,
    Anywhere,
}

/// A pole and the group of marks about it.
struct Site {
    pole: Vec<f64>,
    group: Vec<Vec<f64>>,
}

/// Sheets, poles, and marks about them.
struct Poles {
    s: Source,
}

impl Poles {
    fn one_of<T: Copy>(&mut self, from: &[T]) -> T {
        *self.s.r.pick(from)
    }

    fn below(&mut self, n: usize) -> usize {
        self.s.r.below(n as u64) as usize
    }

    fn sign(&mut self) -> f64 {
        self.one_of(&[1.0, -1.0])
    }

    fn settings(&mut self) -> Settings {
        let ndim = 2 + self.below(2);
        let over = |low: f64, high: f64, ndiv, tolerance, border_tol| Settings {
            xmin: vec![low; ndim],
            xmax: vec![high; ndim],
            ndiv,
            tolerance,
            border_tol,
        };
        match self.below(6) {
            // containers of a metre, a tenth of a millimetre
            0 => over(0.0, 100.0, None, None, None),
            1 => over(500000.0, 500100.0, None, None, None),
            // the origin in the middle of a container
            2 | 3 => {
                let tolerance = self.one_of(&[1e-4, 1.0 / 512.0, 0.125, 1.0, 1.0 / LIMIT]);
                over(-8.0, 8.0, Some(5), Some(tolerance), Some(0.0))
            }
            // the origin where containers meet, and most marks of a container near
            4 => {
                let tolerance = self.one_of(&[1.9, 1.5, 1.0]);
                over(-8.0, 8.0, Some(4), Some(tolerance), Some(0.0))
            }
            _ => self.s.settings(),
        }
    }

    /// A sheet with no rows, and gemlab's.
    fn sheet(&mut self, space: usize, t: &mut Tally) -> (Settings, World) {
        let made = (0..1000).find_map(|_| {
            let settings = self.settings();
            settings.make(space, &mut self.s.r, t).map(|w| (settings, w))
        });
        made.expect("settings of a sheet")
    }

    /// A pole: on a grid, anywhere, at the borders of containers and a tolerance off them, at the origin; or such on each axis.
    fn pole(&mut self, w: &World, lie: Lie) -> Vec<f64> {
        let f = &w.fields;
        // at the origin every offset is exact
        let kind = if lie == Lie::End || lie == Lie::Tiny { self.one_of(&[3, 3, 5]) } else { self.below(6) };
        let x = |axis: usize| {
            let (low, high) = (f.xmin[axis], f.xmax[axis]);
            let kind = if kind == 5 { self.below(5) } else { kind };
            let x = match kind {
                0 => (self.s.r.between(low, high) * 1024.0).round() / 1024.0,
                1 => self.s.r.between(low, high),
                2 => {
                    let i = self.below(f.ndiv[axis] + 1) as f64;
                    let off = self.one_of(&[0.0, 0.0, f.tolerance, -f.tolerance, f.tol_dist, -f.tol_dist]);
                    let x = low + i * f.side_length + off;
                    self.one_of(&around(x))
                }
                3 => self.one_of(&[0.0, -0.0]),
                _ => (self.s.r.between(low, high) * 8.0).round() / 8.0,
            };
            x.clamp(low, high)
        };
        (0..w.ndim()).map(x).collect()
    }

    /// Marks in the container of a pole, most of them far from it.
    fn beside(&mut self, w: &World, p: &[f64], n: usize) -> Vec<Vec<f64>> {
        let f = &w.fields;
        let key = w.rust.key_of(p).expect("a pole within the sheet");
        let center = w.rust.center_of(key);
        let half = f.side_length / 2.0;
        (0..n).map(|_| center.iter().map(|c| c + self.s.r.between(-half, half)).collect()).collect()
    }

    /// An offset with its axes changed and its signs.
    fn turned(&mut self, v: &[f64]) -> Vec<f64> {
        let mut v = v.to_vec();
        for i in (1..v.len()).rev() {
            let j = self.below(i + 1);
            v.swap(i, j);
        }
        v.iter().map(|x| x * self.sign()).collect()
    }

    /// Offsets of exactly equal lengths.
    fn on_circle(&mut self, ndim: usize, reach: f64, n: usize) -> Vec<Vec<f64>> {
        const FLAT: &[&[[f64; 2]]] = &[
            &[[5.0, 0.0], [3.0, 4.0]],
            &[[1.0, 7.0], [5.0, 5.0]],
            &[[1.0, 8.0], [4.0, 7.0]],
            &[[2.0, 9.0], [6.0, 7.0]],
        ];
        const ROUND: &[&[[f64; 3]]] = &[
            &[[3.0, 0.0, 0.0], [1.0, 2.0, 2.0]],
            &[[7.0, 0.0, 0.0], [2.0, 3.0, 6.0]],
            &[[9.0, 0.0, 0.0], [1.0, 4.0, 8.0], [4.0, 4.0, 7.0]],
            &[[1.0, 2.0, 3.0]],
        ];
        let vectors: Vec<Vec<f64>> = if ndim == 2 {
            self.one_of(FLAT).iter().map(|v| v.to_vec()).collect()
        } else {
            self.one_of(ROUND).iter().map(|v| v.to_vec()).collect()
        };
        let scale = on_grid(reach * self.s.r.between(0.0, 1.0) / square(&vectors[0], &vec![0.0; ndim]).sqrt());
        (0..n)
            .map(|_| {
                let v: Vec<f64> = self.s.r.pick(&vectors).iter().map(|x| x * scale).collect();
                self.turned(&v)
            })
            .collect()
    }

    /// Offsets along an axis with a second side whose square is few units of the first one's.
    fn by_units(&mut self, ndim: usize, long: f64, n: usize) -> Vec<Vec<f64>> {
        let unit = up(long * long) - long * long;
        let axis = self.below(ndim);
        let other = (axis + 1 + self.below(ndim - 1)) % ndim;
        (0..n)
            .map(|_| {
                let mut v = vec![0.0; ndim];
                v[axis] = long * self.sign();
                v[other] = (unit * self.below(4) as f64).sqrt() * self.sign();
                v
            })
            .collect()
    }

    /// A group of marks about a pole.
    fn group(&mut self, lie: Lie, n: usize, p: &[f64], reach: f64) -> Vec<Vec<f64>> {
        let ndim = p.len();
        let inner = reach / (ndim as f64).sqrt();
        let any = |r: &mut Random, by: f64| -> Vec<f64> { (0..ndim).map(|_| r.between(-by, by)).collect() };
        let offsets: Vec<Vec<f64>> = match lie {
            Lie::Tenth => {
                let mut v = vec![0.0; ndim];
                // less where that is too far
                v[self.below(ndim)] = inner.min(1e-4) * self.sign();
                vec![vec![0.0; ndim], v]
            }
            Lie::Mirrored => {
                let v: Vec<f64> = any(&mut self.s.r, inner).into_iter().map(on_grid).collect();
                let mirrored = |_| {
                    let (i, j) = (self.below(ndim), self.below(ndim));
                    let mut v = v.clone();
                    if self.below(2) == 0 {
                        v[i] = -v[i];
                    } else {
                        v.swap(i, j);
                    }
                    v
                };
                (0..n).map(mirrored).collect()
            }
            Lie::Circle => self.on_circle(ndim, reach, n),
            Lie::Units => {
                let long = on_grid(reach * self.s.r.between(0.01, 1.0));
                self.by_units(ndim, long, n)
            }
            Lie::End => {
                let long = self.one_of(&around(reach));
                self.by_units(ndim, long, n)
            }
            Lie::Beside | Lie::One => {
                let v = any(&mut self.s.r, inner);
                let mut beside = |x: f64| if lie == Lie::One { x } else { self.one_of(&[down(x), x, x, up(x)]) };
                return (0..n).map(|_| p.iter().zip(&v).map(|(p, v)| beside(p + v)).collect()).collect();
            }
            Lie::Tiny => {
                let few = [0.0, 5e-324, 1e-310, 1e-170, 1.6e-162, 2e-162, 3e-162, 1e-161, 1e-155];
                (0..n).map(|_| (0..ndim).map(|_| self.one_of(&few) * self.sign()).collect()).collect()
            }
            Lie::Anywhere => (0..n).map(|_| any(&mut self.s.r, 1.2 * reach)).collect(),
        };
        offsets.iter().map(|v| p.iter().zip(v).map(|(p, v)| p + v).collect()).collect()
    }

    fn lie(&mut self) -> Lie {
        use Lie::*;
        self.one_of(&[Tenth, Mirrored, Circle, Circle, Units, Units, Units, End, Beside, One, Tiny, Anywhere])
    }

    /// A pole with a group about it, at times with two.
    fn site(&mut self, w: &World) -> Site {
        let (lie, n) = (self.lie(), self.one_of(&[2, 2, 3, 4, 6, 9]));
        let pole = self.pole(w, lie);
        let group = self.group(lie, n, &pole, w.fields.tol_dist);
        let mut site = Site { pole, group };
        if self.below(4) == 0 {
            self.join(w, &mut site);
        }
        site
    }

    /// One more group about the same pole.
    fn join(&mut self, w: &World, site: &mut Site) {
        let (lie, n) = (self.lie(), self.one_of(&[2, 2, 3, 4, 6, 9]));
        site.group.extend(self.group(lie, n, &site.pole, w.fields.tol_dist));
    }

    /// Different ids: both ends of the 64-bit numbers, low ones and any.
    fn ids(&mut self, n: usize) -> Vec<u64> {
        let mut ids = BTreeSet::new();
        while ids.len() < n {
            let any = self.s.r.next();
            ids.insert(match self.below(6) {
                0 => 0,
                1 => u64::MAX,
                2 => any,
                _ => any % (4 * n as u64),
            });
        }
        let mut ids: Vec<u64> = ids.into_iter().collect();
        self.shuffle(&mut ids);
        ids
    }

    fn shuffle<T>(&mut self, list: &mut [T]) {
        for i in (1..list.len()).rev() {
            let j = self.below(i + 1);
            list.swap(i, j);
        }
    }

    /// Positions to search at: the pole and beside it, at marks and between them, on the other side, anywhere in the container.
    fn asked(&mut self, w: &World, site: &Site) -> Vec<Vec<f64>> {
        let p = &site.pole;
        let mut asked = vec![p.to_vec(), p.iter().map(|x| self.one_of(&around(*x))).collect()];
        for _ in 0..2 {
            let (a, b) = (self.s.r.pick(&site.group).clone(), self.s.r.pick(&site.group).clone());
            asked.push(a.iter().zip(&b).map(|(a, b)| a + (b - a) / 2.0).collect());
            asked.push(p.iter().zip(&a).map(|(p, a)| p + (p - a)).collect());
            asked.push(b);
        }
        asked.extend(self.beside(w, p, 1));
        let within = |x: &Vec<f64>| (0..p.len()).all(|i| (w.fields.xmin[i]..=w.fields.xmax[i]).contains(&x[i]));
        asked.retain(within);
        asked
    }
}

/// Groups about poles, inserted in any order among other marks; then some are moved, and some are struck off.
fn groups(met: &mut Met, t: &mut Tally) {
    let mut p = Poles { s: Source::new(71) };
    let (mut moved, mut struck) = (0, 0);
    for _ in 0..LIBRARIES {
        let (settings, w) = p.sheet(256, t);
        let sites: Vec<Site> = (0..1 + p.below(5)).map(|_| p.site(&w)).collect();
        let mut marks: Vec<Vec<f64>> = sites.iter().flat_map(|site| site.group.clone()).collect();
        let others = p.one_of(&[0, 0, 1, 2, 3, 7, 20, 40, 64]);
        marks.extend(p.beside(&w, &sites[0].pole, others));
        p.shuffle(&mut marks);
        let ids = p.ids(marks.len());
        let mut story = Story::new(settings, w);
        for (id, x) in ids.iter().zip(&marks) {
            story.insert(*id, x, t);
        }
        // a mark that is refused is not moved
        story.insert(ids[0], &vec![f64::NAN; story.w.ndim()], t);
        for turn in 0..3 {
            for site in &sites {
                for x in p.asked(&story.w, site) {
                    met.search(&mut story.w, &x, t);
                }
            }
            for _ in 0..3 {
                let id = p.one_of(&ids);
                if turn == 0 {
                    // where another one is, or beside it
                    let x: Vec<f64> = p.s.r.pick(&marks).clone().iter().map(|x| p.one_of(&around(*x))).collect();
                    moved += (story.insert(id, &x, t) == 0) as u64;
                } else {
                    struck += (story.strike(id, t) == 0) as u64;
                }
            }
        }
        let pole = &sites[0].pole;
        story.w.search(&pole[1..], t);
        story.w.search(&vec![f64::NAN; pole.len()], t);
        story.w.search(&vec![LIMIT; pole.len()], t);
    }
    t.occurs("marks moved", moved, LIBRARIES as u64);
    t.occurs("marks struck off", struck, LIBRARIES as u64);
}

/// Pairs at equal or nearly equal distances from their poles, of which there are many.
fn pairs(met: &mut Met, t: &mut Tally) {
    let mut p = Poles { s: Source::new(75) };
    for _ in 0..PAIRS {
        let (_, mut w) = p.sheet(512, t);
        let mut poles = Vec::new();
        let mut marks = Vec::new();
        for _ in 0..24 {
            let lie = p.one_of(&[Lie::Units, Lie::Units, Lie::Circle, Lie::Mirrored]);
            let pole = p.pole(&w, lie);
            marks.extend(p.group(lie, 2, &pole, w.fields.tol_dist));
            poles.push(pole);
        }
        for (id, x) in p.ids(marks.len()).iter().zip(&marks) {
            w.insert(*id, x, t);
        }
        w.check_rust(t);
        for pole in &poles {
            met.search(&mut w, pole, t);
        }
    }
}

/// Containers of 1 to 700 marks, put in one by one.
fn crowds(met: &mut Met, t: &mut Tally) {
    let mut p = Poles { s: Source::new(72) };
    for size in [1, 2, 8, 64, 300, 700] {
        for turn in 0..CROWDS {
            let (_, mut w) = p.sheet(8 * size, t);
            let mut site = p.site(&w);
            // few groups or many
            while turn % 2 == 0 && site.group.len() < size {
                p.join(&w, &mut site);
            }
            site.group.truncate(size);
            let mut marks = site.group.clone();
            marks.extend(p.beside(&w, &site.pole, size - marks.len()));
            p.shuffle(&mut marks);
            for (id, x) in p.ids(size).iter().zip(&marks) {
                w.insert(*id, x, t);
            }
            w.check_rust(t);
            for _ in 0..20 {
                for x in p.asked(&w, &site) {
                    met.search(&mut w, &x, t);
                }
            }
        }
    }
}

/// Rows that no insertion writes: up to the most in one container, and rows of the same places in other containers.
fn written(met: &mut Met, t: &mut Tally) {
    let mut p = Poles { s: Source::new(73) };
    for size in [3, 17, 1000, 5000, MOST_ROWS] {
        for turn in 0..6 {
            let ndim = 2 + turn % 2;
            let (xmin, xmax) = (vec![-8.0; ndim], vec![8.0; ndim]);
            let settings = Settings { xmin, xmax, ndiv: Some(5), tolerance: Some(0.125), border_tol: Some(0.0) };
            let Some(mut w) = settings.make(size, &mut p.s.r, t) else { return };
            let mut site = p.site(&w);
            while site.group.len() < size.min(64) {
                p.join(&w, &mut site);
            }
            let key = w.rust.key_of(&site.pole).expect("a pole within the sheet") as u64;
            let mut rows = BTreeMap::new();
            for (k, id) in p.ids(size).into_iter().enumerate() {
                // in one turn of two a third of the rows is in containers beside
                let elsewhere = turn > 2 && k < size / 3;
                let x = match elsewhere || p.below(2) == 0 {
                    true => p.s.r.pick(&site.group).clone(),
                    false => p.beside(&w, &site.pole, 1).remove(0),
                };
                let key = if elsewhere { p.one_of(&[key.saturating_sub(1), (key + 1).min(24)]) } else { key };
                rows.insert((key, id), [x[0], x[1], x.get(2).copied().unwrap_or(0.0)]);
            }
            write_rows(&mut w, &rows);
            for x in p.asked(&w, &site) {
                met.search(&mut w, &x, t);
            }
        }
    }
}

/// Document 02's two anchors, 0.1 mm apart, and two that are equally near.
fn examples(met: &mut Met, t: &mut Tally) {
    for ndim in [2, 3] {
        let settings = Settings {
            xmin: vec![0.0; ndim],
            xmax: vec![8.0; ndim],
            ndiv: Some(8),
            tolerance: Some(0.0001),
            border_tol: Some(0.0),
        };
        let at = |x: f64, y: f64| [&[x, y], &vec![0.5; ndim - 2][..]].concat();
        let mut found = |marks: [(u64, f64, f64); 2], x: f64, y: f64, due: u64| {
            let Some(mut w) = settings.make(32, &mut Random::new(74), t) else { return };
            for (id, x, y) in marks {
                w.insert(id, &at(x, y), t);
            }
            met.search(&mut w, &at(x, y), t);
            t.equal(w.lent.search(&at(x, y)), (0, 1, due), || format!("({x}, {y}) of {marks:?} in {ndim}D"));
        };
        for (x, due) in [(3.5, 4), (3.5001, 9), (3.50004, 4), (3.50006, 9), (3.4999, 4), (3.5002, 9)] {
            found([(4, 3.5, 2.5), (9, 3.5001, 2.5)], x, 2.5, due);
        }
        // on both sides; and squares of 2^-28 and one unit more, whose roots are both 2^-14
        let (off, unit) = (1.0 / 16384.0, 1.0 / 1099511627776.0);
        let (left, right) = ((3.5 - off, 2.5), (3.5 + off, 2.5));
        let above = (3.5 + off, 2.5 + unit);
        for (a, b) in [(left, right), (right, left), (right, above), (above, right), (left, above), (above, left)] {
            found([(4, a.0, a.1), (9, b.0, b.1)], 3.5, 2.5, 4);
            found([(9, a.0, a.1), (4, b.0, b.1)], 3.5, 2.5, 4);
        }
    }
}

pub fn compare(t: &mut Tally) {
    let mut met = Met::default();
    examples(&mut met, t);
    groups(&mut met, t);
    pairs(&mut met, t);
    crowds(&mut met, t);
    written(&mut met, t);
    t.occur(met.kinds);
    t.occurs("gemlab asked anew", met.anew, 3_000);
    t.met("search", &[0, 2, 3, 11]);
    t.met("insert", &[0, 3, 11, 12]);
    t.met("strike", &[0, 26]);
}

/// The most poles that are searched at in turn.
const POLES: usize = 256;

/// A library of about so many rows, so many in each container that is used; in each of these a pole with so many marks about it.
/// No other mark is near another, and each has one row.
fn crowded(ndim: usize, rows: usize, crowd: usize, near: usize) -> (World, Vec<Vec<f64>>) {
    let mut p = Poles { s: Source::new(76) };
    let settings =
        Settings { xmin: vec![-1.0; ndim], xmax: vec![1.0; ndim], ndiv: None, tolerance: None, border_tol: None };
    let mut t = Tally::new("bench-nearest");
    let mut w = settings.make(rows, &mut p.s.r, &mut t).unwrap();
    let mut poles: Vec<Vec<f64>> = Vec::new();
    let mut used = BTreeSet::new();
    while w.rows.len() + crowd <= rows {
        let key = p.below(w.fields.ndiv.iter().product());
        if !used.insert(key) {
            continue;
        }
        let pole = free_place(&mut p, &w, key, &[]);
        let full = w.rows.len() + crowd;
        // one is on the pole
        for k in 0..near {
            let off = if k == 0 { 0.0 } else { w.fields.tolerance };
            let x: Vec<f64> = pole.iter().map(|c| c + p.s.r.between(-off, off)).collect();
            w.fill(p.s.r.next(), &x, &mut t);
        }
        while w.rows.len() < full {
            let x = free_place(&mut p, &w, key, &[&pole]);
            w.fill(p.s.r.next(), &x, &mut t);
        }
        assert_eq!(w.container(&pole).count(), crowd);
        assert_eq!(w.near(&pole).len(), near);
        poles.push(pole);
    }
    p.shuffle(&mut poles);
    poles.truncate(POLES);
    (w, poles)
}

/// A position well within a container, to which no mark and none of the other positions is near, with some way between.
fn free_place(p: &mut Poles, w: &World, key: usize, others: &[&[f64]]) -> Vec<f64> {
    let inner = 0.45 * w.fields.side_length;
    let center = w.rust.center_of(key);
    loop {
        let x: Vec<f64> = center.iter().map(|c| c + p.s.r.between(-inner, inner)).collect();
        let mut taken = w.container(&x).map(|(_, at)| at).chain(others.iter().copied());
        if taken.all(|at| point_point_distance(at, &x).unwrap() > 3.0 * w.fields.tol_dist) {
            return x;
        }
    }
}

/// Searches of containers with few and many rows, some near or none, beside gemlab's at the same positions. Past the check is what
/// a search takes more than one at a position of another length, which is refused once every row was looked at.
pub fn measure() {
    for ndim in [2, 3] {
        println!("bench nearest, {ndim}D, in nanoseconds");
        println!("  rows  in the container  near   search   past the check   gemlab");
        let mut past = BTreeMap::new();
        for (rows, crowd, near) in [
            (1000, 0, 0),
            (1000, 1, 0),
            (1000, 1, 1),
            (1000, 8, 0),
            (1000, 8, 1),
            (1000, 8, 2),
            (1000, 8, 8),
            (1000, 64, 0),
            (1000, 64, 1),
            (1000, 64, 2),
            (1000, 64, 8),
            (9000, 0, 0),
            (10_000, 1, 0),
            (10_000, 1, 1),
            (10_000, 64, 0),
            (10_000, 64, 1),
        ] {
            let (w, mut poles) = crowded(ndim, rows, crowd.max(1), near);
            if crowd == 0 {
                let containers: usize = w.fields.ndiv.iter().product();
                let empty = (0..containers).rev().map(|key| w.rust.center_of(key));
                poles = empty.filter(|x| w.container(x).next().is_none()).take(POLES).collect();
            }
            let at = |k: usize| &poles[k % poles.len()];
            let (lent, rust) = (&w.lent, &w.rust);
            let [check, here, there] = in_turn([
                &burst(|_| lent.search(&[]).0),
                &burst(|k| lent.search(at(k)).1),
                &burst(|k| rust.search(at(k)).unwrap().is_some() as u64),
            ]);
            past.insert((rows, crowd, near), (here - check, there));
            println!("{:6}  {crowd:16}  {near:4}  {here:7.0}  {:15.1}  {there:7.1}", w.lent.used, here - check);
        }
        for (near, place) in [(1, "at a mark"), (0, "elsewhere")] {
            let ((few, rust_few), (many, rust_many)) = (past[&(1000, 8, near)], past[&(1000, 64, near)]);
            let (here, there) = ((many - few) / 56.0, (rust_many - rust_few) / 56.0);
            println!("  each further row that is not near, {place}: {here:.2} (gemlab: {there:.2})");
        }
    }
}
