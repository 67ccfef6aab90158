//! Request e of document 02, a directory of containers, beside the calls without one, gemlab and a reading of the request. Lists of
//! calls are made on three libraries at once: one with a directory, one without, and gemlab's. Answers and rows have to be the same,
//! and after each accepted call the directory has to be the one of the rows, and the one that a build writes. Directories that do not
//! match are tried in every kind, at every refusal's place in the order, and spaces with too few places.

use crate::directories::{entries_of, results, sought, Both, Directory, Entry, MOST_READS, RESULT};
use crate::listing::{cases, due as listed, list, list_into, listing, write_rows, Asked, Places, LINE};
use crate::near::up;
use crate::random::Random;
use crate::rows::{damaged, Lent, Settings, Source, World, LIMIT, MOST_ROWS};
use crate::strike::{best as best_of_fresh, stocked, Shares, Story, ABSENT};
use crate::tally::{Kinds, Tally};
use crate::timing::{burst, long_in_turn, more};
use std::cell::RefCell;
use std::collections::BTreeMap;

/// Calls of random runs, and how many on one sheet.
const CALLS: usize = 240_000;
const CALLS_IN_A_RUN: usize = 160;

/// Libraries and directories that were changed at random, and how many of one library.
const CHANGED: usize = 60_000;
const CHANGED_IN_A_RUN: usize = 60;

/// What calls are given, on one library.
#[derive(Default)]
struct Given {
    ids: Vec<u64>,
    positions: Vec<Vec<f64>>,
    places: Vec<(Asked, usize)>,
    keys: Vec<u64>,
}

/// Each call on copies, beside what is due of it by the reading and by the calls without a directory. A refused one changes nothing.
fn held(both: &Both, given: &Given, t: &mut Tally, what: &dyn Fn() -> String) -> Option<u64> {
    let of = |call: &str| format!("{call}, {}: {both:?}", what());
    let fault = both.fault();
    let before = both.clone();

    let due = both.built();
    let mut after = both.clone();
    let number = after.build();
    t.number("build", number, due.as_ref().err().copied().unwrap_or(0), || of("build"));
    t.check(after.same(due.as_ref().unwrap_or(both)), || format!("{} is now {after:?}", of("build")));

    for key in &given.keys {
        let due = match fault {
            Some(number) => (number, results(RESULT, RESULT, RESULT)),
            None => match sought(&both.dir.keys[..both.dir.used as usize], *key) {
                (Some(place), reads) => (0, results(1, place, reads)),
                (None, reads) => (0, results(0, RESULT, reads)),
            },
        };
        let told = both.look_up(*key);
        t.number("look_up", told.0, due.0, || of(&format!("key {key}")));
        t.equal(told.1, due.1, || of(&format!("key {key}")));
        t.check(due.0 != 0 || due.1[5] <= MOST_READS, || of(&format!("{} reads of key {key}", due.1[5])));
    }
    for x in &given.positions {
        let told = both.search(x);
        let (number, found, id) = fault.map_or_else(|| both.lent.search(x), |number| (number, RESULT, RESULT));
        let due = match (number, found) {
            (0, 1) => (0, 1, id),
            (0, _) => (0, 0, RESULT),
            _ => (number, RESULT, RESULT),
        };
        t.number("search", told.0, due.0, || of(&format!("at {x:?}")));
        t.equal(told, due, || of(&format!("search at {x:?}")));
        for id in &given.ids {
            let due = both.inserted(*id, x, fault);
            let mut after = both.clone();
            let number = after.insert(*id, x);
            t.number("insert", number, due.as_ref().err().copied().unwrap_or(0), || of(&format!("{id} at {x:?}")));
            let left = due.as_ref().unwrap_or(both);
            t.check(after.same(left), || format!("{} is now {after:?}", of(&format!("insert {id} at {x:?}"))));
        }
    }
    for id in &given.ids {
        let due = both.struck(*id, fault);
        let mut after = both.clone();
        let told = after.strike(*id);
        t.number("strike", told.0, due.as_ref().err().copied().unwrap_or(0), || of(&format!("{id}")));
        let (left, removed) = due.as_ref().map_or((both, RESULT), |(left, removed)| (left, *removed));
        t.equal(told.1, removed, || of(&format!("removed by strike {id}")));
        t.check(after.same(left), || format!("{} is now {after:?}", of(&format!("strike {id}"))));
    }
    for (asked, room) in &given.places {
        told_list(both, asked, *room, fault, t, &|| of(&format!("{asked:?} with room for {room}")));
    }
    t.check(both.same(&before), || format!("a call that only reads, {}: {before:?} is now {both:?}", what()));
    fault
}

/// One listing beside that without a directory.
fn told_list(both: &Both, asked: &Asked, room: usize, fault: Option<u64>, t: &mut Tally, what: &dyn Fn() -> String) {
    let mut left = vec![RESULT; room + 1];
    let mut due = (fault.unwrap_or(0), RESULT);
    if fault.is_none() {
        let (number, count, entries) = list(&both.lent, asked, room);
        due.0 = number;
        if number == 0 {
            due.1 = count;
            left[..count as usize].copy_from_slice(&entries[..count as usize]);
        }
    }
    let (number, count, entries) = both.list(asked, room);
    t.number("list", number, due.0, what);
    t.equal((count, entries), (due.1, left), what);
}

/// Three libraries at once: one with a directory, one without, and gemlab's; and what each mark was accepted for.
struct Twin {
    story: Story,
    both: Both,
    histories: BTreeMap<u64, Vec<Option<Vec<f64>>>>,
}

impl Twin {
    fn new(settings: Settings, w: World, places: usize, r: &mut Random, t: &mut Tally) -> Self {
        let mut both = Both { lent: w.lent.clone(), dir: Directory::new(places, r) };
        t.number("build", both.build(), 0, || format!("of no rows in {places} places"));
        t.equal(&both.dir, &Directory::of(&[], places), || format!("a build of no rows in {places} places"));
        both.dir.scribble(r);
        Twin { story: Story::new(settings, w), both, histories: BTreeMap::new() }
    }

    /// The same garbage past the rows in use of both, and garbage past the places in use.
    fn scribble(&mut self, r: &mut Random) {
        self.story.w.lent.scribble(r);
        self.both.lent.copy_from(&self.story.w.lent);
        self.both.dir.scribble(r);
    }

    /// The rows are those without a directory, and the directory is the one of the rows, with zeros past it, and the one built afresh.
    fn check(&self, built: &mut Both, r: &mut Random, t: &mut Tally, what: &dyn Fn() -> String) {
        let (lent, dir) = (&self.both.lent, &self.both.dir);
        t.check(lent.same(&self.story.w.lent), || format!("{}: {lent:?}, without {:?}", what(), self.story.w.lent));
        let entries = entries_of(lent);
        let places = dir.keys.len();
        t.check(*dir == Directory::of(&entries, places), || format!("{}: {dir:?} of {lent:?}", what()));
        built.lent.copy_from(lent);
        built.dir = Directory::new(places, r);
        let number = built.before(t, |both| both.build_but(1));
        t.number("build", number, 0, || format!("{}: of {lent:?}", what()));
        t.check(built.lent.same(lent) && built.dir == *dir, || format!("{}: {dir:?}, built {:?}", what(), built.dir));
        // just enough places, and one too few
        for places in [entries.len(), entries.len().wrapping_sub(1)] {
            if places > entries.len() || r.below(4) != 0 {
                continue;
            }
            built.dir = Directory::new(places, r);
            let due = if places < entries.len() { Err(built.dir.clone()) } else { Ok(Directory::of(&entries, places)) };
            let number = built.before(t, |both| both.build_but(1));
            t.number("build", number, if due.is_err() { 12 } else { 0 }, || format!("{lent:?} in {places} places"));
            let left = due.unwrap_or_else(|before| before);
            t.check(built.lent.same(lent) && built.dir == left, || format!("{}: built in {places} places", what()));
        }
    }

    /// The number that is due, and whether places alone are too few for it.
    fn insert(&mut self, id: u64, x: &[f64], t: &mut Tally) -> (u64, bool) {
        let both = &mut self.both;
        let due = both.inserted(id, x, None);
        let before = both.clone();
        let number = both.before(t, |both| both.insert_but(1, id, x));
        // the library without a directory would take it, and is not asked, so that both stay the same
        let is_short = matches!(due, Err(12)) && self.story.w.lent.clone().insert(id, x) == 0;
        let due = if is_short { 12 } else { self.story.insert(id, x, t) };
        t.number("insert", number, due, || format!("{id} at {x:?} into {before:?}"));
        if due == 0 {
            self.histories.entry(id).or_default().push(Some(x.to_vec()));
        } else {
            t.check(both.same(&before), || format!("insert {id} at {x:?}: refused, {before:?} is now {both:?}"));
        }
        (due, is_short)
    }

    /// The number that is due.
    fn strike(&mut self, id: u64, t: &mut Tally) -> u64 {
        let before = self.both.clone();
        let rows = self.story.w.rows.len();
        let (number, removed) = self.both.before(t, |both| both.strike_but(1, id));
        let due = self.story.strike(id, t);
        t.number("strike", number, due, || format!("{id} in {before:?}"));
        let both = &self.both;
        if due == 0 {
            t.equal(removed, (rows - self.story.w.rows.len()) as u64, || {
                format!("removed by strike {id} in {before:?}")
            });
            self.histories.entry(id).or_default().push(None);
        } else {
            t.equal(removed, RESULT, || format!("removed by strike {id} in {before:?}"));
            t.check(both.same(&before), || format!("strike {id}: refused, {before:?} is now {both:?}"));
        }
        due
    }

    fn search(&mut self, x: &[f64], t: &mut Tally) {
        let without = self.story.w.search(x, t);
        let (number, found, id) = self.both.search(x);
        let due = self.both.lent.search(x).0;
        t.number("search", number, due, || format!("at {x:?} in {:?}", self.both));
        let due = match (due, without) {
            (0, Some(id)) => (1, id),
            (0, None) => (0, RESULT),
            _ => (RESULT, RESULT),
        };
        t.equal((found, id), due, || format!("search at {x:?} in {:?}", self.both));
    }

    fn list(&self, asked: &Asked, t: &mut Tally) {
        let w = &self.story.w;
        listing(&w.lent, &w.rust, w.ndim(), asked, t);
        let n = listed(asked, w.ndim(), &w.rust).map_or(0, |ids| ids.len());
        for room in [n, n + 2, n.saturating_sub(1)] {
            told_list(&self.both, asked, room, None, t, &|| format!("{asked:?} in {:?}", self.both));
        }
    }

    /// Look-ups of every key in use, and of others between, above, and of no container.
    fn look_ups(&self, t: &mut Tally) {
        let used = &self.both.dir.keys[..self.both.dir.used as usize];
        let beside = used.iter().flat_map(|key| [key.wrapping_sub(1), *key, key + 1]);
        let keys = beside.chain([0, self.both.lent.numbers[5..8].iter().product(), 1 << 32, u64::MAX]).collect();
        look_ups(&self.both, keys, t);
    }

    /// Each mark's history alone, on rows and a directory of equal space, is accepted and leaves the rows that the mark has here.
    fn alone(&self, w: &World, t: &mut Tally) {
        let lent = &self.both.lent;
        for (id, history) in &self.histories {
            let mut own = Both { lent: w.lent.clone(), dir: Directory::of(&[], self.both.dir.keys.len()) };
            for call in history {
                let number = match call {
                    Some(x) => own.insert(*id, x),
                    None => own.strike(*id).0,
                };
                t.equal(number, 0, || format!("{call:?} of {id} alone, in {own:?}"));
            }
            let row = |lent: &Lent, i: usize| (lent.keys[i], [lent.xs[i], lent.ys[i], lent.zs[i]].map(f64::to_bits));
            let here: Vec<_> = (0..lent.used as usize).filter(|i| lent.ids[*i] == *id).map(|i| row(lent, i)).collect();
            let there: Vec<_> = (0..own.lent.used as usize).map(|i| row(&own.lent, i)).collect();
            t.equal(here, there, || format!("rows of {id} among others and alone"));
        }
    }
}

/// Look-ups in a directory that matches.
fn look_ups(both: &Both, mut keys: Vec<u64>, t: &mut Tally) {
    keys.sort();
    keys.dedup();
    let used = &both.dir.keys[..both.dir.used as usize];
    for key in keys {
        let (number, told) = both.look_up(key);
        let (place, reads) = sought(used, key);
        t.number("look_up", number, 0, || format!("key {key} in {both:?}"));
        let due = place.map_or(results(0, RESULT, reads), |place| results(1, place, reads));
        t.equal(told, due, || format!("key {key} in {both:?}"));
        t.check(reads <= MOST_READS, || format!("{reads} reads of key {key}"));
    }
}

/// What the random lists of calls have met.
#[derive(Default)]
struct Met {
    no_row_free: u64,
    no_place_free: u64,
    places_gone: u64,
    fullest: u64,
}

fn runs(t: &mut Tally) {
    let mut s = Source::new(101);
    let mut p = Places { r: Random::new(102) };
    let mut built = Both::default();
    let mut met = Met::default();
    let (mut calls, mut tried) = (0, 0);
    while calls < CALLS && tried < CALLS {
        tried += 1;
        let mut settings = s.settings();
        let (mut space, mut ids) = (s.space(), 8);
        if s.r.below(3) == 0 {
            // few containers, so that they fill
            settings.ndiv = Some(2 + s.r.below(2) as usize);
            (space, ids) = (40 + s.r.below(200) as usize, 60);
        }
        let places = match s.r.below(4) {
            0 => space,
            1 => space + 1 + s.r.below(9) as usize,
            2 => s.r.below(9) as usize,
            _ => s.r.below(space as u64 + 1) as usize,
        };
        let Some(empty) = settings.make(space, &mut s.r, t) else { continue };
        let Some(w) = settings.make(space, &mut s.r, t) else { continue };
        let mut twin = Twin::new(settings, w, places, &mut s.r, t);
        for _ in 0..CALLS_IN_A_RUN {
            let x = s.position(&twin.story.w);
            if s.r.below(4) == 0 {
                twin.scribble(&mut s.r);
            }
            let what = match s.r.below(12) {
                0 => {
                    let (id, used) = (twin.story.id(&mut s), twin.both.dir.used);
                    if twin.strike(id, t) != 0 {
                        continue;
                    }
                    met.places_gone += used - twin.both.dir.used;
                    format!("strike {id}")
                }
                1 | 2 => {
                    twin.search(&x, t);
                    continue;
                }
                3 => {
                    twin.list(&p.asked(&twin.story.w), t);
                    continue;
                }
                4 => {
                    if s.r.below(4) == 0 {
                        twin.look_ups(t);
                    }
                    continue;
                }
                n => {
                    let id = if n < 8 { s.r.below(ids) } else { s.id() };
                    let (number, is_short) = twin.insert(id, &x, t);
                    met.no_row_free += (number == 12 && !is_short) as u64;
                    met.no_place_free += is_short as u64;
                    if number != 0 {
                        continue;
                    }
                    format!("insert {id} at {x:?}")
                }
            };
            twin.check(&mut built, &mut s.r, t, &|| what.clone());
            met.fullest = met.fullest.max(*twin.both.dir.counts.iter().max().unwrap_or(&0));
        }
        twin.look_ups(t);
        twin.alone(&empty, t);
        calls += CALLS_IN_A_RUN;
    }
    t.equal(calls, CALLS, || "calls of random runs".to_string());
    t.occurs("insertions with no row free", met.no_row_free, 1000);
    t.occurs("insertions with rows free and no place", met.no_place_free, 1000);
    t.occurs("places that went with a striking", met.places_gone, 1000);
    t.occurs("rows in the fullest container", met.fullest, 25);
}

/// Libraries of the largest size, and their directories.
fn large(t: &mut Tally) {
    let mut s = Source::new(103);
    let mut p = Places { r: Random::new(104) };
    let mut built = Both::default();
    for (ndim, shares) in
        [(2, Shares::One), (3, Shares::One), (2, Shares::Half), (3, Shares::Marks), (2, Shares::Marks)]
    {
        let Some(story) = stocked(ndim, shares, &mut s, t) else { continue };
        let mut both = Both { lent: story.w.lent.clone(), dir: Directory::new(MOST_ROWS, &mut s.r) };
        t.number("build", both.build(), 0, || format!("{shares:?} in {ndim}D"));
        let mut twin = Twin { story, both, histories: BTreeMap::new() };
        twin.check(&mut built, &mut s.r, t, &|| format!("built, {shares:?} in {ndim}D"));
        let used = &twin.both.dir.keys[..twin.both.dir.used as usize];
        let mut keys: Vec<u64> = (0..60).map(|_| *s.r.pick(used)).flat_map(|key| [key, key + 1]).collect();
        keys.extend([0, used[0], used[used.len() - 1], used[used.len() - 1] + 1, u64::MAX]);
        look_ups(&twin.both, keys, t);
        if used.len() == MOST_ROWS {
            // the last of 65,536 places is found by the most reads, and a key above it missed by as many
            let last = used[MOST_ROWS - 1];
            let due = (0, results(1, MOST_ROWS as u64 - 1, MOST_READS));
            t.equal(twin.both.look_up(last), due, || "the last of 65,536 places".to_string());
            let due = (0, results(0, RESULT, MOST_READS));
            t.equal(twin.both.look_up(u64::MAX), due, || "above 65,536 places".to_string());
        }
        let ids: Vec<u64> = twin.story.w.rows.keys().map(|row| row.1).collect();
        for id in [ids[0], ids[ids.len() / 2], ids[ids.len() - 1]] {
            let x = s.position(&twin.story.w);
            twin.scribble(&mut s.r);
            twin.insert(9, &x, t);
            twin.strike(id, t);
            twin.check(&mut built, &mut s.r, t, &|| format!("strike {id}, {shares:?} in {ndim}D"));
            twin.insert(id, &x, t);
            twin.check(&mut built, &mut s.r, t, &|| format!("insert {id}, {shares:?} in {ndim}D"));
            twin.search(&x, t);
            twin.list(&p.asked(&twin.story.w), t);
        }
    }
}

/// A library with at least so many rows and a directory that matches it, with room for a few places.
fn matching(s: &mut Source, rows: usize, t: &mut Tally) -> Option<(World, Both)> {
    let mut settings = s.settings();
    if s.r.below(2) == 0 {
        settings.ndiv = Some(2 + s.r.below(2) as usize);
    }
    let mut w = settings.make(40, &mut s.r, t)?;
    for _ in 0..30 {
        let (id, x) = (s.r.below(20), s.position(&w));
        if w.rows.len() < 30 {
            w.insert(id, &x, t);
        }
    }
    let entries = entries_of(&w.lent);
    let mut both = Both { lent: w.lent.clone(), dir: Directory::of(&entries, entries.len() + 4) };
    both.dir.scribble(&mut s.r);
    (w.rows.len() >= rows).then_some((w, both))
}

/// What every call of a library can be given: what is answered, and what is refused in each way.
fn given(w: &World) -> Given {
    let ndim = w.ndim();
    let good: Vec<f64> = w.rows.values().next().map_or_else(|| w.rust.center_of(0), |at| at[..ndim].to_vec());
    let with = |x: f64| {
        let mut at = good.clone();
        at[0] = x;
        at
    };
    let line = |a: &[f64], b: &[f64]| Asked::new(LINE, a, b, 0.0);
    let ahead = with(good[0] + 1.0);
    let places = vec![
        (line(&good, &ahead), 40),
        (line(&good, &ahead), 0),                // 14, where a mark is on it
        (Asked::new(6, &[], &[], 0.0), 40),      // 16
        (line(&good, &[]), 40),                  // 2
        (line(&good, &with(f64::NAN)), 40),      // 3
        (line(&good, &good), 40),                // 15
        (line(&with(up(LIMIT)), &with(0.0)), 0), // 3
    ];
    let first = w.rows.keys().next().copied().unwrap_or_default();
    let last = w.rows.keys().last().copied().unwrap_or_default();
    Given {
        ids: vec![first.1, ABSENT],
        // answered, 2, 3 and 11
        positions: vec![good.clone(), vec![], with(f64::NAN), with(w.fields.xmax[0] + 1.0)],
        places,
        keys: vec![first.0, last.0, last.0 + 1, u64::MAX],
    }
}

/// The entries with one thing wrong, each in another way, and what it is.
fn wrong_entries(right: &[Entry], rows: u64) -> Vec<(String, Vec<Entry>)> {
    let mut all: Vec<(String, Vec<Entry>)> = Vec::new();
    let mut wrong = |what: String, change: &dyn Fn(&mut Vec<Entry>)| {
        let mut entries = right.to_vec();
        change(&mut entries);
        if entries != right {
            all.push((what, entries));
        }
    };
    let n = right.len();
    for p in [0, n / 2, n - 1] {
        for (field, name) in ["key", "first", "count"].iter().enumerate() {
            let was = right[p][field];
            let others =
                [was.wrapping_add(1), was.wrapping_sub(1), 0, was ^ (1 << 16), was ^ (1 << 32), 1 << 63, u64::MAX];
            for to in others {
                wrong(format!("{name} {p} of {n} is {to} and not {was}"), &|e| e[p][field] = to);
            }
        }
        let [key, first, count] = right[p];
        wrong(format!("place {p} of {n} missing"), &|e| {
            e.remove(p);
        });
        wrong(format!("place {p} of {n} twice"), &|e| e.insert(p, right[p]));
        // each place after it holds what it would hold without it
        for more in [[key, first, 0], [key + 1, first + count, 0], [key.wrapping_sub(1), first, 0], [0, 0, 0]] {
            wrong(format!("{more:?} put in before place {p} of {n}"), &|e| e.insert(p, more));
            wrong(format!("{more:?} put in after place {p} of {n}"), &|e| e.insert(p + 1, more));
        }
        for part in [1, count - 1] {
            for second in [key, key + 1] {
                wrong(format!("place {p} of {n} split after {part} rows"), &|e| {
                    e[p][2] = part;
                    e.insert(p + 1, [second, first + part, count - part]);
                });
            }
        }
        // two places whose rows are as many as one has, but for 2^64
        for part in [u64::MAX, 1 << 63, count + 1] {
            wrong(format!("place {p} of {n} split after {part} rows"), &|e| {
                e[p][2] = part;
                e.insert(p + 1, [key + 1, first.wrapping_add(part), count.wrapping_sub(part)]);
            });
        }
    }
    for p in [0, n.saturating_sub(1) / 2, n.saturating_sub(2)] {
        if p + 1 < n {
            for keep in [0, 1] {
                wrong(format!("places {p} and {} of {n} joined", p + 1), &|e| {
                    e[p] = [right[p + keep][0], right[p][1], right[p][2] + right[p + 1][2]];
                    e.remove(p + 1);
                });
            }
            wrong(format!("places {p} and {} of {n} exchanged", p + 1), &|e| e.swap(p, p + 1));
            // one row more in one place and one fewer in the next, also by way of 2^64
            for more in [1, u64::MAX, 1 << 63] {
                wrong(format!("{more} rows more in place {p} of {n} and fewer in the next"), &|e| {
                    e[p][2] = right[p][2].wrapping_add(more);
                    e[p + 1][1] = right[p + 1][1].wrapping_add(more);
                    e[p + 1][2] = right[p + 1][2].wrapping_sub(more);
                });
            }
            wrong(format!("keys {p} and {} of {n} exchanged", p + 1), &|e| {
                (e[p][0], e[p + 1][0]) = (right[p + 1][0], right[p][0]);
            });
        }
    }
    for more in [[right[n - 1][0] + 1, rows, 1], [u64::MAX, rows, 1], [right[n - 1][0] + 1, rows, u64::MAX]] {
        wrong(format!("one more, {more:?}"), &|e| e.push(more));
    }
    wrong("firsts counted from 1".to_string(), &|e| e.iter_mut().for_each(|entry| entry[1] += 1));
    wrong("no place at all".to_string(), &|e| e.clear());
    wrong("one count for each row".to_string(), &|e| e.iter_mut().for_each(|entry| entry[2] = 1));
    all
}

/// Every kind of a directory that does not match: 29, before whatever else there is to refuse.
fn mismatches(t: &mut Tally) {
    let mut s = Source::new(105);
    let (mut made, mut tried, mut wrongs) = (0, 0, 0);
    while made < 120 && tried < 4000 {
        tried += 1;
        let Some((w, good)) = matching(&mut s, 1 + made % 8, t) else { continue };
        made += 1;
        let given = given(&w);
        let right = entries_of(&w.lent);
        let fault = held(&good, &given, t, &|| "a directory that matches".to_string());
        t.equal(fault, None, || format!("the reading of {good:?}"));
        for (what, entries) in wrong_entries(&right, good.lent.used) {
            let mut both = good.clone();
            both.dir = Directory::of(&entries, right.len() + 4);
            // what stands past the used places is not looked at
            if s.r.below(2) == 0 {
                both.dir.scribble(&mut s.r);
            }
            let fault = held(&both, &given, t, &|| what.clone());
            t.equal(fault, Some(29), || format!("the reading, {what}: {both:?}"));
            wrongs += 1;
        }
        // a used count too low, with the places still there, and too high, with the next place as one might expect it
        for used in 0..=right.len() + 4 {
            for next in [[0, 0, 0], [u64::MAX, good.lent.used, 0]] {
                let mut both = good.clone();
                for p in right.len()..right.len() + 4 {
                    (both.dir.keys[p], both.dir.firsts[p], both.dir.counts[p]) = (next[0], next[1], next[2]);
                }
                both.dir.used = used as u64;
                let fault = held(&both, &given, t, &|| format!("{used} places in use"));
                t.equal(fault, (used != right.len()).then_some(29), || format!("the reading of {both:?}"));
            }
        }
    }
    t.equal(made, 120, || "libraries with directories that do not match".to_string());
    t.occurs("directories that do not match", wrongs, 10_000);
}

/// A directory that is refused for its layout, in its own way or with that of the rows: 24, then 13, then 29.
fn layouts(t: &mut Tally) {
    let mut s = Source::new(106);
    let (mut made, mut tried) = (0, 0);
    while made < 6 && tried < 400 {
        tried += 1;
        let Some((w, good)) = matching(&mut s, 4, t) else { continue };
        made += 1;
        let mut given = given(&w);
        given.ids.truncate(1);
        given.positions.truncate(2);
        given.places.truncate(3);
        given.keys.truncate(1);
        let n = good.dir.keys.len();
        let mut refused = |change: &dyn Fn(&mut Both), number: u64, what: &dyn Fn() -> String| {
            for is_right in [true, false] {
                let mut both = good.clone();
                if !is_right {
                    both.dir.firsts[0] += 1;
                }
                change(&mut both);
                let fault = held(&both, &given, t, &|| format!("{}, right: {is_right}", what()));
                t.equal(fault, Some(number), || format!("the reading, {}", what()));
            }
        };
        for used in [n + 1, n + 2, MOST_ROWS, MOST_ROWS + 1, 1 << 32, usize::MAX] {
            refused(&|b| b.dir.used = used as u64, 13, &|| format!("{used} places in use of {n}"));
        }
        for to in [0, n - 1, n + 1, MOST_ROWS, MOST_ROWS + 1, MOST_ROWS + 9] {
            let number = if to > MOST_ROWS { 24 } else { 13 };
            for list in 0..3 {
                let resize = |b: &mut Both| b.dir.lists_mut()[list].resize(to, 0);
                let what = || format!("directory list {list} of {to} and not {n}");
                refused(&resize, number, &what);
                let all = |b: &mut Both| {
                    resize(b);
                    b.dir.used = u64::MAX;
                    b.lent.used = u64::MAX;
                    b.lent.floats[14] = f64::NAN;
                };
                refused(&all, number, &|| format!("{}, all the rest damaged", what()));
            }
        }
        for list in 0..5 {
            // rows too long, with a directory whose lists differ, or too long too
            let rows = |b: &mut Both| b.lent.resize(list, MOST_ROWS + 1);
            refused(&rows, 24, &|| format!("list {list} too long"));
            refused(&|b| (rows(b), b.dir.keys.clear()).0, 24, &|| format!("list {list} too long, and no keys"));
            refused(&|b| (rows(b), b.dir.used = u64::MAX).0, 24, &|| format!("list {list} too long, 2^64 - 1 used"));
        }
        let long = |b: &mut Both| b.dir.lists_mut().into_iter().for_each(|list| list.resize(MOST_ROWS + 1, 0));
        refused(&long, 24, &|| "directory lists of 65,537".to_string());
        // one place fewer than are in use, in each list
        let short = |b: &mut Both| {
            let used = b.dir.used as usize;
            b.dir.lists_mut().into_iter().for_each(|list| list.truncate(used - 1));
        };
        refused(&short, 13, &|| "lists one shorter than the places in use".to_string());
        // the longest lists are none too many
        let mut both = good.clone();
        both.dir.lists_mut().into_iter().for_each(|list| list.resize(MOST_ROWS, 7));
        let fault = held(&both, &given, t, &|| "65,536 places".to_string());
        t.equal(fault, None, || "65,536 places".to_string());
    }
    t.equal(made, 6, || "libraries with damaged layouts".to_string());
}

/// Every clause of 13, and 24, of the rows: before 29.
fn damages(t: &mut Tally) {
    let mut r = Random::new(107);
    let (mut right, mut turn) = (Vec::new(), 0);
    damaged(108, t, |lent, x, number, t, what| {
        turn += 1;
        if what() == "a good library" {
            right = entries_of(lent);
        } else if turn % 4 != 0 && number == 13 {
            return;
        }
        let given = Given {
            ids: vec![lent.ids.first().copied().unwrap_or(0), ABSENT],
            positions: vec![x.to_vec(), vec![]],
            places: vec![(Asked::new(6, &[], &[], 0.0), 0)],
            keys: vec![right[0][0]],
        };
        let mut both = Both { lent: lent.clone(), dir: Directory::of(&right, right.len() + 2) };
        let fault = held(&both, &given, t, what);
        t.equal(fault.unwrap_or(0), number, || format!("the reading, {}: {both:?}", what()));
        both.dir.counts[r.below(right.len() as u64) as usize] += 1;
        let fault = held(&both, &given, t, what);
        t.equal(fault, Some(if number == 0 { 29 } else { number }), || format!("the reading, {}: {both:?}", what()));
    });
}

/// Libraries and directories with a few things changed: every refusal in its place.
fn changed(t: &mut Tally) {
    let mut s = Source::new(109);
    let mut p = Places { r: Random::new(110) };
    let mut kinds = Kinds::default();
    let (mut calls, mut tried) = (0, 0);
    while calls < CHANGED && tried < CHANGED {
        tried += 1;
        let Some((w, good)) = matching(&mut s, 0, t) else { continue };
        for _ in 0..CHANGED_IN_A_RUN {
            let mut both = good.clone();
            for _ in 0..s.r.below(2) {
                both.lent.change(&mut s.r);
            }
            for _ in 0..s.r.below(3) {
                both.dir.change(&mut s.r);
            }
            let given = Given {
                ids: vec![s.r.below(20)],
                positions: vec![s.position(&w)],
                places: vec![(p.asked(&w), s.r.below(4) as usize)],
                keys: vec![s.r.below(40)],
            };
            let fault = held(&both, &given, t, &|| "changed".to_string());
            kinds.count(&[
                ("changed and right", fault.is_none(), 10_000),
                ("changed and 24", fault == Some(24), 100),
                ("changed and 13", fault == Some(13), 10_000),
                ("changed and 29", fault == Some(29), 5_000),
            ]);
        }
        calls += CHANGED_IN_A_RUN;
    }
    t.equal(calls, CHANGED, || "changed libraries and directories".to_string());
    t.occur(kinds);
}

/// Rows and places that are just enough, and too few by one or more: of an insertion that needs some, and of a build.
fn spaces(t: &mut Tally) {
    let mut r = Random::new(111);
    for ndim in [2, 3] {
        let settings = Settings {
            xmin: vec![0.0; ndim],
            xmax: vec![8.0; ndim],
            ndiv: Some(8),
            tolerance: Some(1.0 / 512.0),
            border_tol: Some(0.0),
        };
        let (middle, corner) = (vec![2.5; ndim], vec![2.0; ndim]);
        let most = 1 << ndim;
        // a mark in one container; one where containers meet, of which the first is one; the same again
        let marks = [
            (7, &middle, 1, 1),
            (8, &corner, most + 1, most),
            (8, &corner, most + 1, most),
            (7, &corner, 2 * most, most),
        ];
        for (k, (id, x, rows, places)) in marks.iter().enumerate() {
            for (space, room) in (0..=rows + 1).flat_map(|space| (0..=places + 1).map(move |room| (space, room))) {
                let before = if k == 0 { (0, 0) } else { (marks[k - 1].2, marks[k - 1].3) };
                if space < before.0 || room < before.1 {
                    continue;
                }
                let Some(w) = settings.make(space, &mut r, t) else { continue };
                let mut both = Both { lent: w.lent, dir: Directory::of(&[], room) };
                both.dir.scribble(&mut r);
                for (id, x, ..) in &marks[..k] {
                    t.number("insert", both.insert(*id, x), 0, || format!("{id} at {x:?} into {both:?}"));
                }
                both.dir.scribble(&mut r);
                let due = if space < *rows || room < *places { 12 } else { 0 };
                let fitting = both.inserted(*id, x, both.fault());
                t.equal(fitting.as_ref().err().copied().unwrap_or(0), due, || {
                    format!("the reading of {id} at {x:?} into {both:?}")
                });
                let mut after = both.clone();
                t.number("insert", after.insert(*id, x), due, || format!("{id} at {x:?} into {both:?}"));
                t.check(after.same(fitting.as_ref().unwrap_or(&both)), || {
                    format!("{id} at {x:?}: {both:?} is now {after:?}")
                });
            }
        }
        // builds, with any used count, which is not read and stays where the places are too few
        let Some(mut w) = settings.make(40, &mut r, t) else { continue };
        for (id, x, ..) in &marks {
            w.insert(*id, x, t);
        }
        for (places, used) in
            (0..=most + 2).flat_map(|n| [0, 1, n as u64, n as u64 + 1, u64::MAX].map(|used| (n, used)))
        {
            let mut both = Both { lent: w.lent.clone(), dir: Directory::new(places, &mut r) };
            both.dir.used = used;
            let before = both.clone();
            t.number("build", both.build(), if places < most { 12 } else { 0 }, || format!("{before:?}"));
            let due = if places < most {
                before.clone()
            } else {
                Both { dir: Directory::of(&entries_of(&w.lent), places), ..before.clone() }
            };
            t.check(both.same(&due), || format!("build: {before:?} is now {both:?}"));
        }
    }
}

/// Containers with sixty rows each, and none: search and listings through the directory.
fn crowded(t: &mut Tally) {
    let mut s = Source::new(112);
    let mut p = Places { r: Random::new(113) };
    for (rows, each) in [(0, 1), (1, 1), (59, 60), (600, 60), (6000, 60), (MOST_ROWS, MOST_ROWS), (MOST_ROWS, 60)] {
        let w = shelf(rows, each, &mut s.r);
        let mut both = Both { lent: w.lent.clone(), dir: Directory::new(rows.div_ceil(each), &mut s.r) };
        t.number("build", both.build(), 0, || format!("{rows} rows, {each} in a container"));
        t.equal(both.dir.used as usize, rows.div_ceil(each), || {
            format!("places of {rows} rows, {each} in a container")
        });
        let calls = if rows > 10_000 { 10 } else { 200 };
        let given = Given {
            positions: (0..calls).map(|_| s.position(&w)).collect(),
            places: (0..calls).map(|_| (p.asked(&w), s.r.below(70) as usize)).collect(),
            keys: (0..calls).map(|_| s.r.below(1 << 16)).collect(),
            ..given(&w)
        };
        held(&both, &given, t, &|| format!("{rows} rows, {each} in a container"));
    }
}

/// The request on document 01's sheet S.
fn examples(t: &mut Tally) {
    let Some(w) = Settings::s().make(8, &mut Random::new(114), t) else { return };
    let mut both = Both { lent: w.lent, dir: Directory { used: 99, ..Directory::of(&[[5, 5, 5]; 5], 5) } };
    t.equal(both.look_up(1).0, 13, || "99 places in use".to_string());
    t.equal((both.build(), &both.dir), (0, &Directory::of(&[], 5)), || "of no rows".to_string());
    t.equal(both.look_up(1), (0, results(0, RESULT, 0)), || "key 1 of no rows".to_string());
    t.equal(both.insert(7, &[2.0, 1.0]), 0, || "7 at (2,1)".to_string());
    let four = [[1, 0, 1], [2, 1, 1], [9, 2, 1], [10, 3, 1]];
    t.equal(both.dir.entries(), four.to_vec(), || "7 at (2,1)".to_string());
    for (key, place, reads) in [
        (1, Some(0), 2),
        (2, Some(1), 1),
        (9, Some(2), 2),
        (10, Some(3), 3),
        (0, None, 2),
        (3, None, 2),
        (11, None, 3),
        (32, None, 3),
    ] {
        let due = place.map_or(results(0, RESULT, reads), |place| results(1, place, reads));
        t.equal(both.look_up(key), (0, due), || format!("key {key} of 1, 2, 9, 10"));
    }
    t.equal(both.insert(3, &[2.5, 1.5]), 0, || "3 at (2.5,1.5)".to_string());
    t.equal(both.insert(3, &[0.5, 0.5]), 0, || "3 at (0.5,0.5)".to_string());
    let five = [[0, 0, 1], [1, 1, 1], [2, 2, 1], [9, 3, 1], [10, 4, 2]];
    t.equal(both.dir.entries(), five.to_vec(), || "3 at (2.5,1.5) and (0.5,0.5)".to_string());
    t.equal(both.insert(8, &[4.5, 0.5]), 12, || "8 at (4.5,0.5) with no place free".to_string());
    t.equal(both.insert(8, &[1.5, 0.5]), 0, || "8 at (1.5,0.5), in a container in use".to_string());
    t.equal(both.search(&[2.0, 1.0]), (0, 1, 7), || "(2,1)".to_string());
    t.equal(both.strike(7), (0, 4), || "7 struck".to_string());
    t.equal(&both.dir, &Directory::of(&[[0, 0, 1], [1, 1, 1], [10, 2, 1]], 5), || "7 struck".to_string());
    both.dir.counts[2] = 2;
    t.equal(both.search(&[]), (29, RESULT, RESULT), || "a count too high".to_string());
    both.lent.used = 9;
    t.equal(both.search(&[]), (13, RESULT, RESULT), || "and 9 rows in use of 8".to_string());
    both.dir.keys.resize(MOST_ROWS + 1, 0);
    t.equal(both.search(&[]), (24, RESULT, RESULT), || "and a list of 65,537 entries".to_string());
}

pub fn compare(t: &mut Tally) {
    examples(t);
    runs(t);
    spaces(t);
    mismatches(t);
    layouts(t);
    damages(t);
    changed(t);
    crowded(t);
    large(t);
    t.met("build", &[0, 12, 13, 24]);
    t.met("look_up", &[0, 13, 24, 29]);
    t.met("insert", &[0, 2, 3, 11, 12, 13, 24, 29]);
    t.met("strike", &[0, 13, 24, 26, 29]);
    t.met("search", &[0, 2, 3, 11, 13, 24, 29]);
    t.met("list", &[0, 2, 3, 13, 14, 15, 16, 24, 29]);
}

/// The divisions of the sheet to measure on, along both axes, and its containers.
const NDIV: usize = 256;
const CONTAINERS: usize = NDIV * NDIV;

/// The key of the container that a library to measure on leaves free, in the middle of those in use.
fn free_key(rows: usize, each: usize) -> usize {
    let containers = rows.div_ceil(each).max(1);
    containers / 2 * ((CONTAINERS - 1) / containers)
}

/// A library of so many rows, so many in a container, each of a mark of its own that lies anywhere in the container but at its edge;
/// with room for some more.
fn shelf(rows: usize, each: usize, r: &mut Random) -> World {
    const ROOM: usize = 64;
    let (xmin, xmax) = (vec![0.0; 2], vec![8.0; 2]);
    let settings = Settings { xmin, xmax, ndiv: Some(NDIV), tolerance: None, border_tol: Some(0.0) };
    let mut w = settings.make((rows + ROOM).min(MOST_ROWS), r, &mut Tally::new("bench-directory")).unwrap();
    let apart = (CONTAINERS - 1) / rows.div_ceil(each).max(1);
    let free = free_key(rows, each);
    let mut table = BTreeMap::new();
    for row in 0..rows {
        let key = row / each * apart;
        let key = key + (key >= free) as usize;
        let at: Vec<f64> =
            w.rust.center_of(key).iter().map(|x| x + w.fields.side_length * r.between(-0.3, 0.3)).collect();
        table.insert((key as u64, row as u64), [at[0], at[1], 0.0]);
    }
    write_rows(&mut w, &table);
    w
}

/// A directory that matches, with a place for each row.
fn with_directory(w: &World) -> Both {
    let mut both = Both { lent: w.lent.clone(), dir: Directory::of(&[], w.lent.keys.len()) };
    assert_eq!(both.build(), 0);
    both
}

/// Searches and listings past the checks, which are calls that are refused directly after them, and what 29 takes.
fn measure_asking() {
    println!("bench directory, in nanoseconds: search at a mark and listing of a line, past the checks, with a directory and without");
    println!(
        "{:>6} {:>4} {:>9} {:>9} {:>9} {:>7}  {:>7} {:>7} {:>7}  {:>9} {:>9} {:>9}",
        "rows", "each", "check", "with 29", "29", "a row", "search", "with", "gemlab", "list", "with", "gemlab"
    );
    let nowhere = Asked::new(6, &[], &[], 0.0);
    let line = Asked::new(LINE, &[0.0, 4.0], &[8.0, 4.0], 0.0);
    for (rows, each) in [(1000, 1), (1000, 60), (10_000, 1), (10_000, 60), (65_472, 1), (65_472, 60)] {
        let mut r = Random::new(115);
        let w = shelf(rows, each, &mut r);
        let both = with_directory(&w);
        let (lent, rust) = (&w.lent, &w.rust);
        let all: Vec<(&(u64, u64), &[f64; 3])> = w.rows.iter().collect();
        let marks: Vec<(u64, [f64; 2])> =
            (0..1024).map(|_| *r.pick(&all)).map(|(row, at)| (row.0, [at[0], at[1]])).collect();
        let mark = |k: usize| &marks[k % 1024];
        for k in 0..1024 {
            assert_eq!(both.search(&mark(k).1).2, lent.search(&mark(k).1).2);
        }
        let of_list = |both: Option<&Both>, asked: &Asked| {
            let (mut out, mut count) = ([0; 1024], 0);
            match both {
                Some(both) => both.list_into(asked, &mut out, &mut count),
                None => list_into(lent, asked, &mut out, &mut count),
            }
        };
        let [check, with_29, gemlab, listed_by_gemlab] = long_in_turn([
            &burst(|_| lent.search(&[]).0),
            &burst(|_| both.search(&[]).0),
            &|k, _| (k..k + 100).fold(0, |sum, k| sum ^ rust.search(&mark(k).1).unwrap().unwrap_or(0) as u64),
            &burst(|_| line.rust(rust).unwrap().len() as u64),
        ]);
        let of_29 = more(|k| both.look_up(mark(k).0).0, |_| lent.check().0);
        println!(
            "{rows:>6} {each:>4} {check:>9.0} {with_29:>9.0} {of_29:>9.0} {:>7.3}  {:>7.0} {:>7.0} {:>7.0}  {:>9.0} {:>9.0} {listed_by_gemlab:>9.0}",
            of_29 / rows as f64,
            more(|k| lent.search(&mark(k).1).2, |_| lent.search(&[]).0),
            more(|k| both.search(&mark(k).1).2, |_| both.search(&[]).0),
            gemlab / 100.0,
            more(|_| of_list(None, &line), |_| of_list(None, &nowhere)),
            more(|_| of_list(Some(&both), &line), |_| of_list(Some(&both), &nowhere)),
        );
    }
}

/// Whole calls that change rows, with a directory and without: a build, an insertion into a container in use and into one that is free,
/// and a striking, each in the middle of the rows.
fn measure_changing() {
    println!("bench directory, in nanoseconds: build, insertion (into a container in use, and a free one), striking; with a directory and without");
    println!(
        "{:>6} {:>4} {:>9} {:>9}  {:>9} {:>9}  {:>9} {:>9}  {:>9} {:>9}",
        "rows", "each", "check", "build", "insert", "with", "free", "with", "strike", "with"
    );
    let clock = best_of_fresh(&mut (), |_, _| (), |_| 0);
    for (rows, each) in [(1000, 1), (1000, 60), (10_000, 1), (10_000, 60), (65_472, 1), (65_472, 60)] {
        let mut r = Random::new(116);
        let w = shelf(rows, each, &mut r);
        let good = with_directory(&w);
        let middle = rows / 2;
        let struck = good.lent.ids[middle];
        let (in_use, free) = ([good.lent.xs[middle], good.lent.ys[middle]], w.rust.center_of(free_key(rows, each)));
        let mut both = good.clone();
        let mut took = |call: &dyn Fn(&mut Both) -> u64| {
            let put_back = |both: &mut Both, _| {
                both.lent.copy_from(&good.lent);
                both.dir.clone_from(&good.dir);
            };
            put_back(&mut both, 0);
            assert_eq!(call(&mut both), 0);
            best_of_fresh(&mut both, put_back, call) - clock
        };
        println!(
            "{rows:>6} {each:>4} {:>9.0} {:>9.0}  {:>9.0} {:>9.0}  {:>9.0} {:>9.0}  {:>9.0} {:>9.0}",
            took(&|both| both.lent.check().0),
            took(&|both| both.build()),
            took(&|both| both.lent.insert(ABSENT, &in_use)),
            took(&|both| both.insert(ABSENT, &in_use)),
            took(&|both| both.lent.insert(ABSENT, &free)),
            took(&|both| both.insert(ABSENT, &free)),
            took(&|both| both.lent.strike(struck).0),
            took(&|both| both.strike(struck).0),
        );
    }
}

/// The listings of bench-listing: whole calls with a directory and without, the two checks, and gemlab.
fn measure_listing() {
    println!("bench directory, in nanoseconds: listings with a directory and without, whole and past the checks, and gemlab's");
    println!(
        "{:>6} {:<11} {:>6} {:>6} {:>12} {:>12} {:>10} {:>10} {:>12}",
        "rows", "place", "places", "ids", "without", "with", "past", "past, with", "gemlab"
    );
    let nowhere = Asked::new(6, &[], &[], 0.0);
    cases(|name, w, asked, n| {
        let rows = w.lent.used;
        let both = with_directory(w);
        let lent = RefCell::new((vec![0; n], 0));
        let into = |list: &dyn Fn(&mut [u64], &mut u64) -> u64| {
            let (out, count) = &mut *lent.borrow_mut();
            list(out, count)
        };
        let without = |asked: &Asked| into(&|out, count| list_into(&w.lent, asked, out, count));
        let with = |asked: &Asked| into(&|out, count| both.list_into(asked, out, count));
        assert_eq!((without(asked), with(asked)), (0, 0));
        let [whole, check, whole_with, check_with, there] = long_in_turn([
            &burst(|_| without(asked)),
            &burst(|_| without(&nowhere)),
            &burst(|_| with(asked)),
            &burst(|_| with(&nowhere)),
            &burst(|_| asked.rust(&w.rust).unwrap().len() as u64),
        ]);
        println!(
            "{rows:>6} {name:<11} {:>6} {n:>6} {whole:>12.0} {whole_with:>12.0} {:>10.0} {:>10.0} {there:>12.0}",
            both.dir.used,
            whole - check,
            whole_with - check_with
        );
    });
}

pub fn measure() {
    measure_asking();
    measure_changing();
    measure_listing();
}
