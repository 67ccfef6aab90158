//! Request a of document 02, striking an id off, beside gemlab. gemlab strikes nothing, but its answer is known: after any list of
//! calls a library equals a `GridSearch` that was given, in order, the accepted insertions since each id's last striking. Runs of
//! insertions, strikings, searches and listings are held to that after each call, and refusals to a reading of the request.

use crate::c::gemlab_grid_search_strike;
use crate::listing::{listing, write_rows, Places};
use crate::random::Random;
use crate::rows::{damaged, on_lent, Lent, Settings, Source, World, MOST_ROWS};
use crate::tally::Tally;
use gemlab::util::GridSearch;
use std::collections::BTreeMap;
use std::hint::black_box;
use std::time::{Duration, Instant};

/// Calls of random runs, and how many on one sheet.
const CALLS: usize = 1_200_000;
const CALLS_IN_A_RUN: usize = 200;

/// Strikings on libraries that were changed at random, and how many on one library.
const CHANGED: usize = 300_000;
const CHANGED_IN_A_RUN: usize = 100;

/// An id that no library has.
pub(crate) const ABSENT: u64 = 0x5555_5555_5555_5555;

/// What `removed` holds before a call.
const REMOVED: u64 = 0x1234_5678_9abc_def0;

/// What stands behind each list and is not lent.
const BEHIND: u64 = 0x0fed_cba9_8765_4321;

impl Lent {
    /// The number, and what `removed` holds after the call.
    pub(crate) fn strike(&mut self, id: u64) -> (u64, u64) {
        self.strike_but(0, id)
    }

    /// The same with the last entries of each list not lent.
    fn strike_but(&mut self, last: usize, id: u64) -> (u64, u64) {
        let mut removed = REMOVED;
        // SAFETY: each pointer is a vector's or a field's, which is aligned and not null, with at most its length; the written ones
        // are apart.
        let number =
            unsafe { on_lent!(gemlab_grid_search_strike, self, as_mut_ptr, last, &mut self.used, id, &mut removed) };
        (number, removed)
    }

    /// The same with an entry behind each list, which has to stay.
    fn strike_before(&mut self, id: u64, t: &mut Tally) -> (u64, u64) {
        self.keys.push(BEHIND);
        self.ids.push(BEHIND);
        for list in [&mut self.xs, &mut self.ys, &mut self.zs] {
            list.push(f64::from_bits(BEHIND));
        }
        let told = self.strike_but(1, id);
        let numbers = [&mut self.keys, &mut self.ids].map(|list| list.pop());
        let floats = [&mut self.xs, &mut self.ys, &mut self.zs].map(|list| list.pop().map(f64::to_bits));
        let stays = numbers.iter().chain(&floats).all(|entry| *entry == Some(BEHIND));
        t.check(stays, || format!("strike {id}: behind the lists stand {numbers:?} and {floats:?}"));
        told
    }
}

/// What the request says of a striking: how many rows go and what is then lent, or the refusal.
fn due(lent: &Lent, id: u64) -> Result<(u64, Lent), u64> {
    if let Some(number) = lent.fault() {
        return Err(number);
    }
    let used = lent.used as usize;
    let left: Vec<usize> = (0..used).filter(|i| lent.ids[*i] != id).collect();
    if left.len() == used {
        return Err(26);
    }
    let mut after = lent.clone();
    after.blank(0);
    for (to, from) in left.iter().enumerate() {
        after.keys[to] = lent.keys[*from];
        after.ids[to] = lent.ids[*from];
        after.xs[to] = lent.xs[*from];
        after.ys[to] = lent.ys[*from];
        after.zs[to] = lent.zs[*from];
    }
    after.used = left.len() as u64;
    Ok(((used - left.len()) as u64, after))
}

/// One striking on a copy, with what is due of it.
fn told(lent: &Lent, id: u64, due: &Result<(u64, Lent), u64>, t: &mut Tally, what: &dyn Fn() -> String) {
    let mut after = lent.clone();
    let (number, removed) = after.strike_before(id, t);
    let (gone, left) = due.as_ref().map_or((REMOVED, lent), |(gone, left)| (*gone, left));
    t.number("strike", number, due.as_ref().err().copied().unwrap_or(0), || format!("{id}, {}: {lent:?}", what()));
    t.equal(removed, gone, || format!("removed by strike {id}, {}: {lent:?}", what()));
    t.check(after.same(left), || format!("strike {id}, {}: {lent:?} is now {after:?}", what()));
}

/// gemlab's containers as rows.
fn rows_of(rust: &GridSearch) -> BTreeMap<(u64, u64), [f64; 3]> {
    let third = |x: &[f64]| x.get(2).copied().unwrap_or(0.0);
    let row = |key: usize, id: usize, x: Vec<f64>| ((key as u64, id as u64), [x[0], x[1], third(&x)]);
    rust.rows().into_iter().map(|r| row(r.key, r.id, r.x)).collect()
}

/// A library beside gemlab's, and the insertions that gemlab's was given: those accepted since each id's last striking, in order.
pub(crate) struct Story {
    settings: Settings,
    pub(crate) w: World,
    given: Vec<(u64, Vec<f64>)>,
    /// the last id that was struck
    last: u64,
}

impl Story {
    pub(crate) fn new(settings: Settings, w: World) -> Self {
        Story { settings, w, given: Vec::new(), last: 0 }
    }

    /// gemlab's library anew, from the insertions.
    fn start_again(&mut self, t: &mut Tally) {
        let mut rust = self.settings.rust().expect("the settings of a sheet");
        let taken = self.given.iter().all(|(id, x)| rust.insert(*id as usize, x).is_ok());
        t.check(taken, || format!("gemlab does not take all of {:?}", self.given));
        self.w.rows = rows_of(&rust);
        self.w.rust = rust;
    }

    /// The number that is due.
    pub(crate) fn insert(&mut self, id: u64, x: &[f64], t: &mut Tally) -> u64 {
        let number = self.w.insert(id, x, t);
        if number == 0 {
            self.given.push((id, x.to_vec()));
        }
        self.w.check_rust(t);
        number
    }

    /// The number that is due.
    pub(crate) fn strike(&mut self, id: u64, t: &mut Tally) -> u64 {
        let w = &mut self.w;
        w.before.copy_from(&w.lent);
        let (number, removed) = w.lent.strike_before(id, t);
        if !w.rows.keys().any(|row| row.1 == id) {
            let (lent, before) = (&w.lent, &w.before);
            t.number("strike", number, 26, || format!("{id} in {before:?}"));
            t.equal(removed, REMOVED, || format!("removed by strike {id} in {before:?}"));
            t.check(lent.same(before), || format!("strike {id}: refused, and {before:?} is now {lent:?}"));
            return 26;
        }
        let rows = w.rows.len();
        self.last = id;
        self.given.retain(|mark| mark.0 != id);
        self.start_again(t);
        let w = &mut self.w;
        t.number("strike", number, 0, || format!("{id} in {:?}", w.before));
        t.equal(removed, (rows - w.rows.len()) as u64, || format!("removed by strike {id} in {:?}", w.before));
        // past the rows zeros are due, to the end of each list
        w.before.blank(0);
        t.check(w.stands(), || format!("strike {id}: {:?} is now {:?}", w.rows, w.lent));
        0
    }

    fn list(&self, p: &mut Places, t: &mut Tally) {
        let asked = p.asked(&self.w);
        listing(&self.w.lent, &self.w.rust, self.w.ndim(), &asked, t);
    }

    /// An id to strike: most often one that has rows; or one beside it, the last one struck, any.
    pub(crate) fn id(&self, s: &mut Source) -> u64 {
        if self.w.rows.is_empty() {
            return s.id();
        }
        let n = s.r.below(self.w.rows.len() as u64) as usize;
        let id = self.w.rows.keys().nth(n).unwrap().1;
        match s.r.below(12) {
            0 => s.id(),
            1 => self.last,
            2 => id.wrapping_add(1),
            3 => id.wrapping_sub(1),
            _ => id,
        }
    }
}

fn runs(t: &mut Tally) {
    let mut s = Source::new(61);
    let mut p = Places { r: Random::new(62) };
    let (mut calls, mut tried) = (0, 0);
    // insertions that were refused for room and are accepted after a striking, and the most rows that went
    let (mut freed, mut most) = (0, 0);
    while calls < CALLS && tried < CALLS {
        tried += 1;
        let settings = s.settings();
        let space = s.space();
        let Some(w) = settings.make(space, &mut s.r, t) else { continue };
        let mut story = Story::new(settings, w);
        let apart = 2 + s.r.below(24);
        let mut no_room: Option<(u64, Vec<f64>)> = None;
        for _ in 0..CALLS_IN_A_RUN {
            let x = s.position(&story.w);
            match s.r.below(8 * apart) {
                // a striking, one in so many calls; what stands past the rows is to go as well
                n if n < 8 => {
                    if n < 4 {
                        story.w.lent.scribble(&mut s.r);
                    }
                    let (id, rows) = (story.id(&mut s), story.w.rows.len());
                    if story.strike(id, t) == 0 {
                        most = most.max(rows - story.w.rows.len());
                        if let Some((id, x)) = no_room.take() {
                            freed += (story.insert(id, &x, t) == 0) as usize;
                        }
                    }
                }
                n if n % 8 < 2 => {
                    story.w.search(&x, t);
                }
                n if n % 8 == 2 => story.list(&mut p, t),
                _ => {
                    let id = s.id();
                    if story.insert(id, &x, t) == 12 {
                        no_room = Some((id, x));
                    }
                }
            }
        }
        calls += CALLS_IN_A_RUN;
    }
    t.equal(calls, CALLS, || "calls of random runs".to_string());
    t.check(freed > CALLS / 100 && most > 20, || format!("only {freed} insertions had room, at most {most} rows went"));
}

/// How the rows of a large library are shared out.
#[derive(Clone, Copy, Debug)]
pub(crate) enum Shares {
    /// every row is of one id
    All,
    /// every second row, and the others of a second id
    Turns,
    /// half of the rows, anywhere, and each other row of an id of its own
    Half,
    /// one row each
    One,
    /// marks anywhere, several of an id, with rows in the containers around them
    Marks,
}

/// A library of the largest size: its lists are written as gemlab's containers are.
pub(crate) fn stocked(ndim: usize, shares: Shares, s: &mut Source, t: &mut Tally) -> Option<Story> {
    let ndiv = if ndim == 2 { 256 } else { 41 };
    let settings = Settings {
        xmin: vec![0.0; ndim],
        xmax: vec![8.0; ndim],
        ndiv: Some(ndiv),
        tolerance: Some(8.0 / ndiv as f64 / 5.0),
        border_tol: Some(0.0),
    };
    let w = settings.make(MOST_ROWS, &mut s.r, t)?;
    let mut story = Story::new(settings, w);
    let marks = if let Shares::Marks = shares { 20_000 } else { MOST_ROWS };
    for k in 0..marks {
        let id = match shares {
            Shares::All => 5,
            Shares::Turns => [0, u64::MAX][k % 2],
            Shares::Half if s.r.below(2) == 0 => 7,
            Shares::Half | Shares::One => u64::MAX - k as u64,
            Shares::Marks => s.r.below(5_000),
        };
        let x = match shares {
            Shares::Marks => (0..ndim).map(|_| s.r.between(0.0, 8.0)).collect(),
            // a container's centre has no other container in reach
            _ => story.w.rust.center_of(k),
        };
        story.given.push((id, x));
    }
    story.start_again(t);
    let rows = story.w.rows.clone();
    let full = rows.len() == MOST_ROWS;
    t.check(full || matches!(shares, Shares::Marks), || format!("{} rows, {shares:?} in {ndim}D", rows.len()));
    write_rows(&mut story.w, &rows);
    Some(story)
}

fn large(t: &mut Tally) {
    let mut s = Source::new(63);
    let mut p = Places { r: Random::new(64) };
    for ndim in [2, 3] {
        for shares in [Shares::All, Shares::Turns, Shares::Half, Shares::One, Shares::Marks] {
            let Some(mut story) = stocked(ndim, shares, &mut s, t) else { continue };
            let ids: Vec<u64> = story.w.rows.keys().map(|row| row.1).collect();
            let many = if let Shares::Half = shares { 7 } else { 5 };
            for id in [ids[0], ids[ids.len() / 2], ids[ids.len() - 1], many] {
                let x = s.position(&story.w);
                story.insert(9, &x, t);
                story.strike(id, t);
                story.strike(id, t);
                story.insert(id, &x, t);
                story.w.search(&x, t);
                story.list(&mut p, t);
            }
        }
    }
}

/// Every clause of 13, and 24: the refusal comes before that of an id without rows, and nothing lent changes.
fn damages(t: &mut Tally) {
    damaged(65, t, |lent, _, number, t, what| {
        for id in [lent.ids.first().copied().unwrap_or(0), ABSENT] {
            let due = if number == 0 { due(lent, id) } else { Err(number) };
            told(lent, id, &due, t, what);
        }
    });
}

/// Each list by itself longer than the others: 13 up to the most rows and 24 above, before 13 and 26.
fn lengths(t: &mut Tally) {
    let Some(mut w) = Settings::s().make(8, &mut Random::new(66), t) else { return };
    w.insert(7, &[2.0, 1.0], t);
    for (id, whole) in [(7, true), (ABSENT, true), (7, false), (ABSENT, false)] {
        for (to, number) in [(9, 13), (MOST_ROWS, 13), (MOST_ROWS + 1, 24), (MOST_ROWS + 9, 24)] {
            for list in 0..5 {
                let mut lent = w.lent.clone();
                lent.resize(list, to);
                if !whole {
                    lent.used = u64::MAX;
                    lent.numbers.clear();
                }
                told(&lent, id, &Err(number), t, &|| format!("list {list} of {to} entries"));
            }
        }
    }
}

/// Libraries with up to three things changed: every refusal in its place in the order 24, 13, 26, and libraries that are only others.
fn changed(t: &mut Tally) {
    let mut s = Source::new(67);
    let (mut calls, mut tried) = (0, 0);
    while calls < CHANGED && tried < CHANGED {
        tried += 1;
        let settings = s.settings();
        let Some(w) = settings.make(24, &mut s.r, t) else { continue };
        let mut story = Story::new(settings, w);
        for _ in 0..s.r.below(24) {
            let (id, x) = (s.id(), s.position(&story.w));
            story.insert(id, &x, t);
        }
        for _ in 0..CHANGED_IN_A_RUN {
            let mut lent = story.w.lent.clone();
            for _ in 0..s.r.below(4) {
                lent.change(&mut s.r);
            }
            let id = story.id(&mut s);
            told(&lent, id, &due(&lent, id), t, &|| "changed".to_string());
        }
        calls += CHANGED_IN_A_RUN;
    }
    t.equal(calls, CHANGED, || "strikings on changed libraries".to_string());
}

/// The request on document 01's sheet S: rows go, the mark is not found, and their room is free.
fn examples(t: &mut Tally) {
    let mut r = Random::new(68);
    let Some(mut w) = Settings::s().make(8, &mut r, t) else { return };
    t.equal(w.lent.strike(7), (26, REMOVED), || "7 in an empty library".to_string());
    t.equal(w.lent.insert(7, &[2.0, 1.0]), 0, || "7 at (2,1)".to_string());
    t.equal(w.lent.strike(7), (0, 4), || "7 struck".to_string());
    let (number, found, _) = w.lent.search(&[2.0, 1.0]);
    t.equal((number, found), (0, 0), || "(2,1)".to_string());
    t.equal(w.lent.strike(7), (26, REMOVED), || "7 struck again".to_string());
    let Some(mut w) = Settings::s().make(4, &mut r, t) else { return };
    t.equal(w.lent.insert(7, &[2.0, 1.0]), 0, || "7 at (2,1) with 4 free rows".to_string());
    t.equal(w.lent.insert(8, &[6.0, 3.0]), 12, || "8 at (6,3) with none".to_string());
    t.equal(w.lent.strike(8), (26, REMOVED), || "8 struck".to_string());
    t.equal(w.lent.strike(7), (0, 4), || "7 struck".to_string());
    t.equal(w.lent.insert(8, &[6.0, 3.0]), 0, || "8 at (6,3) after that".to_string());
}

pub fn compare(t: &mut Tally) {
    examples(t);
    runs(t);
    large(t);
    damages(t);
    lengths(t);
    changed(t);
    t.met("strike", &[0, 13, 24, 26]);
    t.met("insert", &[0, 2, 3, 11, 12]);
    t.met("search", &[0, 2, 3, 11]);
    t.met("list", &[0, 2, 3, 14, 15, 16]);
}

/// Nanoseconds of a call, the best of many; the k-th time `put_back` brings back what a call changes, and that is not timed.
pub(crate) fn best<S>(state: &mut S, put_back: impl Fn(&mut S, usize), call: impl Fn(&mut S) -> u64) -> f64 {
    let mut best = f64::INFINITY;
    let until = Instant::now() + Duration::from_millis(200);
    for k in 0.. {
        put_back(state, k);
        let start = Instant::now();
        if start > until {
            break;
        }
        black_box(call(state));
        best = best.min(start.elapsed().as_nanos() as f64);
    }
    best
}

/// A library in which these rows are of id 7, and each other row of an id of its own; one row in a container.
fn with_sevens(rows: usize, space: usize, is_seven: impl Fn(usize, &mut Random) -> bool, r: &mut Random) -> Lent {
    let (xmin, xmax) = (vec![0.0; 2], vec![1.0; 2]);
    let settings = Settings { xmin, xmax, ndiv: Some(256), tolerance: None, border_tol: None };
    let mut w = settings.make(space, r, &mut Tally::new("bench-strike")).unwrap();
    let mut table = BTreeMap::new();
    for k in 0..rows {
        let id = if is_seven(k, r) { 7 } else { 1000 + k as u64 };
        table.insert((k as u64, id), [r.between(0.0, 1.0), r.between(0.0, 1.0), 0.0]);
    }
    write_rows(&mut w, &table);
    w.lent
}

/// A row of a library that is one `Vec`.
struct Row {
    id: u64,
    #[allow(dead_code)]
    rest: (u64, [f64; 3]),
}

/// The same rows in one `Vec`.
fn as_rows(l: &Lent) -> Vec<Row> {
    (0..l.used as usize).map(|i| Row { id: l.ids[i], rest: (l.keys[i], [l.xs[i], l.ys[i], l.zs[i]]) }).collect()
}

/// A striking in plain Rust over the five lists, with no check and no refusal.
fn close_up(l: &mut Lent, id: u64) -> u64 {
    let used = l.used as usize;
    let mut left = 0;
    for i in 0..used {
        if l.ids[i] != id {
            l.keys[left] = l.keys[i];
            l.ids[left] = l.ids[i];
            l.xs[left] = l.xs[i];
            l.ys[left] = l.ys[i];
            l.zs[left] = l.zs[i];
            left += 1;
        }
    }
    l.blank(left);
    l.used = left as u64;
    (used - left) as u64
}

/// Whole strikings beside the check of the rows alone, which is a search at a position of another length: that is refused once every
/// row was looked at, where a striking that is refused with 26 has looked for the id too. And plain Rust, which checks nothing.
pub fn measure() {
    println!("bench strike, in nanoseconds; past the check for each row in use");
    println!("  rows  space  of the id     check   26      strike  past it  retain  5 lists");
    let clock = best(&mut (), |_, _| (), |_| 0);
    for (rows, space) in [(1000, 1000), (10_000, 10_000), (MOST_ROWS, MOST_ROWS), (1000, MOST_ROWS)] {
        for (name, kind) in [("1, first", 0), ("1, middle", 1), ("1, last", 2), ("9", 3), ("half", 4)] {
            let mut r = Random::new(69);
            let is_seven = |k: usize, r: &mut Random| match kind {
                0 => k == 0,
                1 => k == rows / 2,
                2 => k == rows - 1,
                3 => (0..9).any(|i| k == (2 * i + 1) * rows / 18),
                _ => r.below(2) == 0,
            };
            // so many libraries in turn that the machine does not learn where the rows of half are
            let libraries = if kind == 4 { MOST_ROWS.div_ceil(rows) } else { 1 };
            let good: Vec<Lent> = (0..libraries).map(|_| with_sevens(rows, space, is_seven, &mut r)).collect();
            let (mut here, mut plain) = (good[0].clone(), good[0].clone());
            assert_eq!(here.strike(7), (0, close_up(&mut plain, 7)));
            assert!(here.same(&plain), "plain Rust leaves other rows");
            let lent = &mut here;
            let anew = |l: &mut Lent, k: usize| l.copy_from(&good[k % libraries]);
            let check = best(lent, anew, |l| l.search(&[]).0) - clock;
            let refused = best(lent, anew, |l| l.strike(ABSENT).0) - clock;
            let struck = best(lent, anew, |l| l.strike(7).1) - clock;
            let lists = best(lent, anew, |l| close_up(l, 7)) - clock;
            let anew = |v: &mut Vec<Row>, k: usize| *v = as_rows(&good[k % libraries]);
            let retain = |v: &mut Vec<Row>| {
                v.retain(|row| row.id != 7);
                v.len() as u64
            };
            let retained = best(&mut Vec::new(), anew, retain) - clock;
            let past = (struck - check) / rows as f64;
            println!(
                "{rows:6} {space:6}  {name:<10} {check:7.0} {refused:7.0} {struck:7.0} {past:8.2} {retained:7.0} {lists:8.0}"
            );
        }
    }
}
