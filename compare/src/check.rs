//! Request c of document 02, the shelf checked in a single walk, beside a reading of the request; gemlab checks no rows. Libraries are
//! damaged by each clause of 13 at each row, by one and by several at once. The other calls are held to each library too: they refuse
//! it with 13 exactly where the check does so or tells a row.

use crate::c::gemlab_grid_search_check;
use crate::listing::{list, Asked};
use crate::near::{down, up};
use crate::random::Random;
use crate::rows::{damaged, filled, on_lent, Lent, Settings, Source, LIMIT, MOST_ROWS};
use crate::strike::{Story, ABSENT};
use crate::tally::{Kinds, Tally};
use crate::timing::{burst, in_turn};
use std::hint::black_box;

/// Checks of libraries that were changed at random, and how many of one library.
const CHANGED: usize = 400_000;
const CHANGED_IN_A_RUN: usize = 100;

/// What the results hold before a call, and what stands beside them.
const BROKEN: u64 = 0x1234_5678_9abc_def0;
const ROW: u64 = 0x0fed_cba9_8765_4321;
const VISITED: u64 = 0x1122_3344_5566_7788;
const BESIDE: u64 = 0x5555_aaaa_5555_aaaa;

/// A check's results with what stands before, between and behind them.
fn results(broken: u64, row: u64, visited: u64) -> [u64; 7] {
    [BESIDE, broken, BESIDE, row, BESIDE, visited, BESIDE]
}

impl Lent {
    /// The number, and what the results and the entries beside them hold after the call.
    pub(crate) fn check(&self) -> (u64, [u64; 7]) {
        self.check_but(0)
    }

    /// The same with the last entries of each list not lent.
    fn check_but(&self, last: usize) -> (u64, [u64; 7]) {
        let mut results = results(BROKEN, ROW, VISITED);
        let [_, broken, _, row, _, visited, _] = &mut results;
        // SAFETY: each pointer is a vector's or a local's, which is aligned and not null, with at most its length; the written ones
        // are apart.
        let number = unsafe { on_lent!(gemlab_grid_search_check, self, as_ptr, last, self.used, broken, row, visited) };
        (number, results)
    }

    /// One more entry in each list: a row that is bad by itself and above no other.
    fn push_bad(&mut self) {
        self.keys.push(0);
        self.ids.push(0);
        for list in [&mut self.xs, &mut self.ys, &mut self.zs] {
            list.push(f64::NAN);
        }
    }

    fn containers(&self) -> u64 {
        self.numbers[5..8].iter().product()
    }

    fn is_2d(&self) -> bool {
        self.numbers[0] == 2
    }

    /// A row at the origin.
    fn write(&mut self, row: usize, key: u64, id: u64) {
        (self.keys[row], self.ids[row]) = (key, id);
        (self.xs[row], self.ys[row], self.zs[row]) = (0.0, 0.0, 0.0);
    }
}

/// Which clauses of 13 a row breaks: by its key, its x, its y, its z, and by not standing above the row before it.
fn breaks(lent: &Lent, row: usize) -> [bool; 5] {
    let is_no_coordinate = |x: f64| !x.is_finite() || x.abs() > LIMIT;
    let (key, id, z) = (lent.keys[row], lent.ids[row], lent.zs[row]);
    let is_above = |before: usize| key > lent.keys[before] || (key == lent.keys[before] && id > lent.ids[before]);
    [
        key >= lent.containers(),
        is_no_coordinate(lent.xs[row]),
        is_no_coordinate(lent.ys[row]),
        if lent.is_2d() { z.to_bits() != 0 } else { is_no_coordinate(z) },
        row > 0 && !is_above(row - 1),
    ]
}

/// What is due of a check: the lowest bad row or none, or the refusal.
type Due = Result<Option<usize>, u64>;

/// What the request says of a library.
fn due(lent: &Lent) -> Due {
    match lent.layout_fault() {
        Some(number) => Err(number),
        None => Ok((0..lent.used as usize).find(|row| breaks(lent, *row).contains(&true))),
    }
}

/// The number that the other calls then return, where it is 24 or 13.
fn damage(due: Due) -> Option<u64> {
    match due {
        Err(number) => Some(number),
        Ok(Some(_)) => Some(13),
        Ok(None) => None,
    }
}

/// The checks that were made, by what is due of them, and room for what is lent before and after a call.
#[derive(Default)]
struct Met {
    kinds: Kinds,
    before: Lent,
    after: Lent,
}

impl Met {
    fn count(&mut self, lent: &Lent, told: Option<usize>) {
        let used = lent.used as usize;
        let none = told.is_none();
        let is_bad_by_itself = |row: &usize| breaks(lent, *row)[..4].contains(&true);
        let is_out_of_order = |row: &usize| breaks(lent, *row)[4];
        let by_itself = (0..used).find(is_bad_by_itself);
        let by_order = (0..used).find(is_out_of_order);
        let last = (0..used).rfind(|row| is_bad_by_itself(row) || is_out_of_order(row));
        let broken = told.map(|row| breaks(lent, row));
        let alone = |clause: usize| broken == Some(std::array::from_fn(|i| i == clause));
        let is_minus_zero = |row: usize| lent.zs[row].to_bits() == (-0.0f64).to_bits();
        let is_bad_behind = used < lent.keys.len() && breaks(lent, used).contains(&true);
        let is_zero_first = used > 0 && (lent.keys[0], lent.ids[0]) == (0, 0);
        let is_zero_next = |row: usize| (lent.ids[row - 1], lent.ids[row]) == (u64::MAX, 0);
        self.kinds.count(&[
            ("none told", none, 40_000),
            ("none told of no row", used == 0, 5_000),
            ("none told of one row", none && used == 1, 3_000),
            ("none told of 65,536 rows", none && used == MOST_ROWS, 2),
            ("none told with every entry in use", none && used > 0 && used == lent.keys.len(), 2_000),
            ("none told before a bad entry", none && is_bad_behind, 30_000),
            ("none told with key 0 and id 0 first", none && is_zero_first, 1_000),
            ("none told with id 0 after id 2^64 - 1", none && (1..used).any(is_zero_next), 4_000),
            ("none told with a z of -0", none && (0..used).any(is_minus_zero), 50),
            ("the only row told", told == Some(0) && used == 1, 5_000),
            ("the first row told", told == Some(0) && used > 2, 40_000),
            ("a middle row told", told.is_some_and(|row| row > 0 && row + 1 < used), 150_000),
            ("the last row told", told.is_some_and(|row| row > 1 && row + 1 == used), 15_000),
            ("row 65,535 told", told == Some(MOST_ROWS - 1), 80),
            ("told by the key alone", alone(0), 20_000),
            ("told by x alone", alone(1), 50_000),
            ("told by y alone", alone(2), 50_000),
            ("told by z alone", alone(3), 50_000),
            ("told by a z of -0 alone", alone(3) && told.is_some_and(is_minus_zero), 3_000),
            ("told by the order alone", alone(4), 30_000),
            ("told by itself and by the order", told.is_some() && by_itself == by_order, 3_000),
            // rows that other readings would tell
            ("another than the lowest bad by itself", by_itself.is_some() && told != by_itself, 8_000),
            ("another than the lowest out of order", by_order.is_some() && told != by_order, 40_000),
            ("another than the last bad row", told != last, 100_000),
        ]);
    }

    /// One check beside what is due of it, and the other calls on the same library: nothing lent changes.
    fn check(&mut self, lent: &Lent, t: &mut Tally, what: &dyn Fn() -> String) -> Due {
        let due = due(lent);
        if let Ok(told) = due {
            self.count(lent, told);
        }
        let expected = match due {
            Err(number) => (number, results(BROKEN, ROW, VISITED)),
            Ok(None) => (0, results(0, ROW, lent.used)),
            Ok(Some(row)) => (0, results(1, row as u64, row as u64 + 1)),
        };
        let Met { before, after, .. } = self;
        before.copy_from(lent);
        let exact = lent.check();
        t.check(lent.same(before), || format!("check, {}: what is lent changed", what()));
        before.push_bad();
        after.copy_from(before);
        let longer = after.check_but(1);
        t.check(after.same(before), || format!("check, {}: what is lent or behind it changed", what()));
        for told in [exact, longer] {
            t.number("check", told.0, expected.0, what);
            t.equal(told.1, expected.1, || format!("results of check, {}", what()));
        }

        let fault = lent.fault();
        t.equal(fault, damage(due), || format!("two readings of 13, {}", what()));
        // what each of these is given is refused directly after 13
        let nowhere = Asked::new(6, &[], &[], 0.0);
        after.copy_from(lent);
        t.number("insert", after.insert(3, &[]), fault.unwrap_or(2), what);
        t.number("strike", after.strike(ABSENT).0, fault.unwrap_or(26), what);
        t.number("search", after.search(&[]).0, fault.unwrap_or(2), what);
        t.number("list", list(after, &nowhere, 0).0, fault.unwrap_or(16), what);
        t.check(after.same(lent), || format!("another call, {}: what is lent changed", what()));
        due
    }

    /// The same where it is known by how the library was made what is due.
    fn known(&mut self, lent: &Lent, known: Due, t: &mut Tally, what: &dyn Fn() -> String) {
        let due = self.check(lent, t, what);
        t.equal(due, known, || format!("the reading, {}", what()));
    }
}

/// A sheet with room for so many rows, whose entries hold anything.
fn sheet(xmax: &[f64], ndiv: usize, space: usize, t: &mut Tally) -> Option<Lent> {
    let (xmin, xmax) = (vec![0.0; xmax.len()], xmax.to_vec());
    let settings = Settings { xmin, xmax, ndiv: Some(ndiv), tolerance: None, border_tol: Some(0.0) };
    settings.make(space, &mut Random::new(81), t).map(|w| w.lent)
}

/// A library of so many good rows: three in a container, of id 0, of one between, and of id 2^64 - 1.
fn library(ndim: usize, rows: usize, free: usize, t: &mut Tally) -> Option<Lent> {
    let mut r = Random::new(82);
    let ndiv = if rows < 85 { 8 } else { [256, 64][ndim - 2] };
    let mut lent = sheet(&[8.0, 4.0, 2.0][..ndim], ndiv, rows + free, t)?;
    for row in 0..rows {
        // the keys before these are left for rows that are out of order
        lent.write(row, 4 + row as u64 / 3, [0, 1 + r.below(u64::MAX - 1), u64::MAX][row % 3]);
        lent.xs[row] = r.between(-LIMIT, LIMIT);
        lent.ys[row] = r.between(-LIMIT, LIMIT);
        if ndim == 3 {
            lent.zs[row] = r.between(-LIMIT, LIMIT);
        }
    }
    lent.used = rows as u64;
    Some(lent)
}

/// What is done to a row.
#[derive(Clone, Copy, Debug)]
enum Fault {
    Key(u64),
    /// so much added to its key
    KeyPlus(u64),
    X(f64),
    Y(f64),
    Z(f64),
    /// exchanged with the row before it
    Exchanged,
    /// the row before it again
    Repeated,
    /// the key and the id of the row before it
    Same,
    /// a key below that of the row before it, with the highest id
    KeyLowered,
    /// the key of the row before it, with a lower id unless that is 0
    IdLowered,
    /// key 0 and id 0
    Zero,
}

impl Fault {
    /// Each makes a row of `library` bad by itself, or puts it out of order.
    fn all(lent: &Lent) -> Vec<Fault> {
        use Fault::*;
        let count = lent.containers();
        let mut all = vec![Exchanged, Repeated, Same, KeyLowered, IdLowered, Zero];
        all.extend([count, count + 1, 1 << 32, u64::MAX].map(Key));
        all.extend([1 << 32, 1 << 63].map(KeyPlus));
        let signalling = f64::from_bits(0x7ff0_0000_0000_0001);
        let past = [f64::NAN, signalling, f64::INFINITY, up(LIMIT), f64::MAX];
        for x in past.into_iter().chain(past.map(|x| -x)) {
            all.extend([X(x), Y(x), Z(x)]);
        }
        if lent.is_2d() {
            let least = f64::from_bits(1);
            all.extend([-0.0, least, -least, 1.0, -1.0].map(Z));
        }
        all
    }

    /// Does it, and says whether that can be: a first row is not out of order.
    fn apply(self, lent: &mut Lent, row: usize) -> bool {
        use Fault::*;
        if row == 0 && !matches!(self, Key(_) | KeyPlus(_) | X(_) | Y(_) | Z(_)) {
            return false;
        }
        match self {
            Key(key) => lent.keys[row] = key,
            KeyPlus(more) => lent.keys[row] = lent.keys[row].wrapping_add(more),
            X(x) => lent.xs[row] = x,
            Y(y) => lent.ys[row] = y,
            Z(z) => lent.zs[row] = z,
            Exchanged => lent.swap(row - 1, row),
            Repeated => {
                lent.repeat(row - 1);
                for list in [&mut lent.xs, &mut lent.ys, &mut lent.zs] {
                    list[row] = list[row - 1];
                }
            }
            Same => lent.repeat(row - 1),
            KeyLowered => {
                lent.keys[row] = lent.keys[row - 1].saturating_sub(1);
                lent.ids[row] = u64::MAX;
            }
            IdLowered => {
                lent.keys[row] = lent.keys[row - 1];
                lent.ids[row] = lent.ids[row - 1].saturating_sub(1);
            }
            Zero => (lent.keys[row], lent.ids[row]) = (0, 0),
        }
        true
    }
}

/// Each fault at each row: that row is told where it is in use, and what is not in use does not matter.
fn singles(met: &mut Met, t: &mut Tally) {
    for ndim in [2, 3] {
        for (rows, free) in [(0, 0), (0, 1), (1, 0), (1, 1), (2, 0), (3, 0), (3, 2), (4, 1), (80, 0)] {
            let Some(good) = library(ndim, rows, free, t) else { continue };
            met.known(&good, Ok(None), t, &|| format!("{rows} good rows in {ndim}D"));
            for fault in Fault::all(&good) {
                for row in 0..rows {
                    let mut lent = good.clone();
                    if !fault.apply(&mut lent, row) {
                        continue;
                    }
                    for (used, told) in [(row, None), (row + 1, Some(row)), (rows, Some(row))] {
                        lent.used = used as u64;
                        met.known(&lent, Ok(told), t, &|| format!("{fault:?} at row {row} of {used} in {ndim}D"));
                    }
                }
            }
        }
    }
}

/// The same at the ends and in the middle of the largest library.
fn large(met: &mut Met, t: &mut Tally) {
    const LAST: usize = MOST_ROWS - 1;
    for ndim in [2, 3] {
        let Some(good) = library(ndim, MOST_ROWS, 0, t) else { continue };
        met.known(&good, Ok(None), t, &|| format!("the most good rows in {ndim}D"));
        for fault in Fault::all(&good) {
            for row in [0, MOST_ROWS / 2, LAST] {
                let mut lent = good.clone();
                if fault.apply(&mut lent, row) {
                    met.known(&lent, Ok(Some(row)), t, &|| format!("{fault:?} at row {row} of the most in {ndim}D"));
                }
            }
        }
        for used in [0, 3, LAST] {
            let mut lent = good.clone();
            lent.used = used as u64;
            lent.blank(used);
            met.known(&lent, Ok(None), t, &|| format!("{used} rows of the most in {ndim}D"));
        }
    }
}

/// Two faults at once, at each two rows and in one row: the lower row is told.
fn pairs(met: &mut Met, t: &mut Tally) {
    const ROWS: usize = 5;
    for ndim in [2, 3] {
        let Some(good) = library(ndim, ROWS, 1, t) else { continue };
        let faults = Fault::all(&good);
        let rows = || (0..ROWS).flat_map(|i| (0..ROWS).map(move |j| (i, j)));
        for (a, b) in faults.iter().flat_map(|a| faults.iter().map(move |b| (a, b))) {
            for (i, j) in rows() {
                let mut lent = good.clone();
                if !(a.apply(&mut lent, i) && b.apply(&mut lent, j)) {
                    continue;
                }
                let what = || format!("{a:?} at row {i} and then {b:?} at row {j} in {ndim}D");
                let due = met.check(&lent, t, &what);
                // in one row or the next, the second may change what the first has done
                t.check(i.abs_diff(j) < 2 || due == Ok(Some(i.min(j))), || format!("the reading {due:?}, {}", what()));
            }
        }
    }
}

/// Sheets with divisions that differ, and one with the most containers.
const SHEETS: [(&[f64], usize); 3] = [(&[8.0, 4.0], 8), (&[8.0, 4.0, 2.0], 8), (&[8.0, 8.0, 8.0], 1024)];

/// Each two rows of a list that ascends: only the lower one first is good.
fn orders(met: &mut Met, t: &mut Tally) {
    const TWO_32: u64 = 1 << 32;
    const TWO_53: u64 = 1 << 53;
    const TWO_63: u64 = 1 << 63;
    const IDS: [u64; 10] = [0, 1, TWO_32 - 1, TWO_32, TWO_53, TWO_53 + 1, TWO_63 - 1, TWO_63, u64::MAX - 1, u64::MAX];
    for (xmax, ndiv) in SHEETS {
        let Some(mut lent) = sheet(xmax, ndiv, 2, t) else { continue };
        let count = lent.containers();
        let keys = [0, 1, count / 2, count - 1];
        let ascending: Vec<(u64, u64)> = keys.iter().flat_map(|key| IDS.map(|id| (*key, id))).collect();
        lent.used = 2;
        for (i, a) in ascending.iter().enumerate() {
            for (j, b) in ascending.iter().enumerate() {
                lent.write(0, a.0, a.1);
                lent.write(1, b.0, b.1);
                let told = if i < j { None } else { Some(1) };
                met.known(&lent, Ok(told), t, &|| format!("rows {a:?} and {b:?} of {count} containers"));
            }
        }
    }
}

/// Keys and coordinates up to their limits are good, and both zeros, but for a third coordinate in 2D.
fn limits(met: &mut Met, t: &mut Tally) {
    let least = f64::from_bits(1);
    for (xmax, ndiv) in SHEETS {
        for x in [0.0, least, f64::MIN_POSITIVE, 1.0, down(LIMIT), LIMIT] {
            for x in [x, -x] {
                for axis in 0..xmax.len() {
                    let Some(mut lent) = sheet(xmax, ndiv, 3, t) else { continue };
                    let count = lent.containers();
                    for (row, key) in [0, count - 2, count - 1].into_iter().enumerate() {
                        lent.write(row, key, 0);
                        [&mut lent.xs, &mut lent.ys, &mut lent.zs][axis][row] = x;
                    }
                    lent.used = 3;
                    met.known(&lent, Ok(None), t, &|| format!("{x:e} on axis {axis} of {xmax:?}"));
                }
            }
        }
    }
}

/// Refusals come before any row is looked at, 24 first: with good rows, and with each row bad.
fn refusals(met: &mut Met, t: &mut Tally) {
    const ROWS: usize = 5;
    const SPACE: usize = ROWS + 2;
    for (ndim, is_good) in [(2, true), (2, false), (3, true), (3, false)] {
        let Some(mut rows) = library(ndim, ROWS, SPACE - ROWS, t) else { continue };
        if !is_good {
            rows.xs.fill(f64::NAN);
        }
        let mut refused = |change: &dyn Fn(&mut Lent), number: u64, what: &dyn Fn() -> String| {
            for used in [rows.used, 0] {
                let mut lent = rows.clone();
                lent.used = used;
                change(&mut lent);
                met.known(&lent, Err(number), t, &|| {
                    format!("{} with {used} rows in {ndim}D, good: {is_good}", what())
                });
            }
        };
        for used in [SPACE + 1, MOST_ROWS, MOST_ROWS + 1, 1 << 32, (1 << 32) + ROWS, usize::MAX] {
            refused(&|lent| lent.used = used as u64, 13, &|| format!("used {used} of {SPACE}"));
        }
        refused(&|lent| lent.floats[14] = f64::NAN, 13, &|| "another side".to_string());
        refused(&|lent| lent.numbers[5] += 1, 13, &|| "other divisions".to_string());
        // the lists of a sheet do not count for 24
        refused(&|lent| lent.numbers.resize(MOST_ROWS + 1, 0), 13, &|| "65,537 numbers".to_string());
        refused(&|lent| lent.floats.resize(MOST_ROWS + 1, 0.0), 13, &|| "65,537 floats".to_string());
        for to in [0, ROWS, SPACE - 1, SPACE + 1, MOST_ROWS, MOST_ROWS + 1, MOST_ROWS + 9] {
            let number = if to > MOST_ROWS { 24 } else { 13 };
            for list in 0..5 {
                refused(&|lent| lent.resize(list, to), number, &|| format!("list {list} of {to}"));
                let all = |lent: &mut Lent| {
                    lent.resize(list, to);
                    lent.used = u64::MAX;
                    lent.floats[14] = f64::NAN;
                };
                refused(&all, number, &|| format!("list {list} of {to}, 2^64 - 1 used, another side"));
            }
        }
        let too_long = |lent: &mut Lent| (0..5).for_each(|list| lent.resize(list, MOST_ROWS + 1));
        refused(&too_long, 24, &|| "lists of 65,537".to_string());
    }
}

/// Every clause of 13, and 24, on libraries that insertions made.
fn damages(met: &mut Met, t: &mut Tally) {
    damaged(83, t, |lent, _, number, t, what| {
        let due = met.check(lent, t, &|| format!("{}: {lent:?}", what()));
        t.equal(damage(due).unwrap_or(0), number, || format!("the reading, {}: {lent:?}", what()));
    });
}

/// Libraries that insertions and strikings made, which are good, and with up to four things changed or up to four faults at rows.
fn changed(met: &mut Met, t: &mut Tally) {
    let mut s = Source::new(84);
    let (mut calls, mut tried) = (0, 0);
    while calls < CHANGED && tried < CHANGED {
        tried += 1;
        let settings = s.settings();
        let Some(w) = settings.make(24, &mut s.r, t) else { continue };
        let mut story = Story::new(settings, w);
        for _ in 0..s.r.below(24) {
            let (id, x) = (s.id(), s.position(&story.w));
            if s.r.below(8) == 0 {
                story.strike(id, t);
            } else {
                story.insert(id, &x, t);
            }
            let lent = &story.w.lent;
            met.known(lent, Ok(None), t, &|| format!("made by calls: {lent:?}"));
        }
        let faults = Fault::all(&story.w.lent);
        for _ in 0..CHANGED_IN_A_RUN {
            let mut lent = story.w.lent.clone();
            let rows_alone = lent.used > 0 && s.r.below(2) == 0;
            for _ in 0..1 + s.r.below(4) {
                if rows_alone {
                    let row = s.r.below(lent.used) as usize;
                    s.r.pick(&faults).apply(&mut lent, row);
                } else {
                    lent.change(&mut s.r);
                }
            }
            let due = met.check(&lent, t, &|| format!("changed: {lent:?}"));
            t.check(due.is_ok() || !rows_alone, || format!("refused for its rows: {lent:?}"));
        }
        calls += CHANGED_IN_A_RUN;
    }
    t.equal(calls, CHANGED, || "checks of changed libraries".to_string());
}

/// The request on document 01's sheet S.
fn examples(t: &mut Tally) {
    let Some(mut w) = Settings::s().make(8, &mut Random::new(85), t) else { return };
    let lent = &mut w.lent;
    t.equal(lent.check(), (0, results(0, ROW, 0)), || "an empty library".to_string());
    t.equal(lent.insert(7, &[2.0, 1.0]), 0, || "7 at (2,1)".to_string());
    t.equal(lent.check(), (0, results(0, ROW, 4)), || "7 at (2,1)".to_string());
    lent.xs[3] = f64::NAN;
    t.equal(lent.check(), (0, results(1, 3, 4)), || "its last x is NaN".to_string());
    lent.keys[2] = 2;
    t.equal(lent.check(), (0, results(1, 2, 3)), || "and its third key the second".to_string());
    lent.keys[0] = 32;
    t.equal(lent.check(), (0, results(1, 0, 1)), || "and its first key 32".to_string());
    lent.used = 9;
    t.equal(lent.check(), (13, results(BROKEN, ROW, VISITED)), || "and 9 rows in use of 8".to_string());
    lent.resize(4, MOST_ROWS + 1);
    t.equal(lent.check(), (24, results(BROKEN, ROW, VISITED)), || "and a list of 65,537 entries".to_string());
}

pub fn compare(t: &mut Tally) {
    let mut met = Met::default();
    examples(t);
    singles(&mut met, t);
    large(&mut met, t);
    pairs(&mut met, t);
    orders(&mut met, t);
    limits(&mut met, t);
    refusals(&mut met, t);
    damages(&mut met, t);
    changed(&mut met, t);
    t.occur(met.kinds);
    t.met("check", &[0, 13, 24]);
    t.met("insert", &[0, 2, 3, 11, 12, 13, 24]);
    t.met("strike", &[0, 13, 24, 26]);
    t.met("search", &[2, 13, 24]);
    t.met("list", &[13, 16, 24]);
}

/// The walk in plain Rust: the lowest bad row of a library whose layout is good.
fn walk(lent: &Lent) -> Option<usize> {
    let used = lent.used as usize;
    let (keys, ids) = (&lent.keys[..used], &lent.ids[..used]);
    let (xs, ys, zs) = (&lent.xs[..used], &lent.ys[..used], &lent.zs[..used]);
    let (containers, is_2d) = (lent.containers(), lent.is_2d());
    let mut before = (0, 0);
    for i in 0..used {
        let row = (keys[i], ids[i]);
        let third = if is_2d { zs[i].to_bits() == 0 } else { zs[i].abs() <= LIMIT };
        let is_good = keys[i] < containers && xs[i].abs() <= LIMIT && ys[i].abs() <= LIMIT && third;
        if !is_good || (i > 0 && row <= before) {
            return Some(i);
        }
        before = row;
    }
    None
}

/// The bits of every entry in use, added up list by list.
fn sum(lent: &Lent) -> u64 {
    let used = lent.used as usize;
    let numbers = [&lent.keys, &lent.ids].map(|list| list[..used].iter().fold(0, |sum: u64, n| sum.wrapping_add(*n)));
    let floats = [&lent.xs, &lent.ys, &lent.zs]
        .map(|list| list[..used].iter().fold(0, |sum: u64, x| sum.wrapping_add(x.to_bits())));
    numbers.iter().chain(&floats).fold(0, |sum, n| sum.wrapping_add(*n))
}

/// A check for each row, which is what it takes more than one of no rows; beside it the walk in plain Rust and the sum of what it
/// reads, for each row too. Whole checks of no rows and where the first is bad. And a search anywhere, whole and past the check.
pub fn measure() {
    for ndim in [2, 3] {
        println!("bench check, {ndim}D, in nanoseconds");
        println!("  rows  check a row  in plain Rust    sum  no rows  first row bad   search  past the check");
        for space in [1000, 10_000, MOST_ROWS] {
            let mut r = Random::new(86);
            let (w, _) = filled(ndim, space, &mut r);
            let elsewhere: Vec<Vec<f64>> =
                (0..1024).map(|_| (0..ndim).map(|_| r.between(-1.0, 1.0)).collect()).collect();
            let lent = &w.lent;
            let (mut none, mut bad) = (lent.clone(), lent.clone());
            none.used = 0;
            bad.keys[0] = u64::MAX;
            assert_eq!((walk(lent), lent.check()), (None, (0, results(0, ROW, lent.used))));
            assert_eq!((walk(&bad), bad.check()), (Some(0), (0, results(1, 0, 1))));
            let [of_none, of_bad, whole, plain, read, search] = in_turn([
                &burst(|_| none.check().0),
                &burst(|_| bad.check().0),
                &burst(|_| lent.check().0),
                &burst(|_| walk(black_box(lent)).is_some() as u64),
                &burst(|_| sum(black_box(lent))),
                &burst(|k| lent.search(&elsewhere[k % 1024]).1),
            ]);
            let rows = lent.used as f64;
            println!(
                "{rows:6}  {:11.3}  {:13.3}  {:5.3}  {of_none:7.0}  {of_bad:13.0}  {search:7.0}  {:14.0}",
                (whole - of_none) / rows,
                plain / rows,
                read / rows,
                search - whole
            );
        }
    }
}
