//! A directory of containers as it is lent, the calls of request e on a library that has one, and what the request says of each.

use crate::c::{
    gemlab_directory_build, gemlab_directory_insert, gemlab_directory_list, gemlab_directory_look_up,
    gemlab_directory_search, gemlab_directory_strike,
};
use crate::listing::Asked;
use crate::random::Random;
use crate::rows::{on_lent, Lent, MOST_ROWS};
use crate::tally::Tally;
use std::collections::BTreeMap;

/// What results hold before a call, and what stands beside them and behind lists.
pub(crate) const RESULT: u64 = 0x1234_5678_9abc_def0;
const BESIDE: u64 = 0x5555_aaaa_5555_aaaa;

/// The most places that a look-up reads.
pub(crate) const MOST_READS: u64 = 17;

/// A container in use: its key, its first row, and how many rows it has.
pub(crate) type Entry = [u64; 3];

/// A directory as it is lent.
#[derive(Clone, Debug, Default, PartialEq)]
pub(crate) struct Directory {
    pub(crate) keys: Vec<u64>,
    pub(crate) firsts: Vec<u64>,
    pub(crate) counts: Vec<u64>,
    pub(crate) used: u64,
}

impl Directory {
    /// So many places of any content, and any used count.
    pub(crate) fn new(places: usize, r: &mut Random) -> Self {
        let mut list = || (0..places).map(|_| r.next()).collect();
        Directory { keys: list(), firsts: list(), counts: list(), used: r.next() }
    }

    /// These entries in use, and zeros past them.
    pub(crate) fn of(entries: &[Entry], places: usize) -> Self {
        let list = |field: usize| {
            let mut list: Vec<u64> = entries.iter().map(|entry| entry[field]).collect();
            list.resize(places, 0);
            list
        };
        Directory { keys: list(0), firsts: list(1), counts: list(2), used: entries.len() as u64 }
    }

    pub(crate) fn lists(&self) -> [&Vec<u64>; 3] {
        [&self.keys, &self.firsts, &self.counts]
    }

    pub(crate) fn lists_mut(&mut self) -> [&mut Vec<u64>; 3] {
        [&mut self.keys, &mut self.firsts, &mut self.counts]
    }

    pub(crate) fn entries(&self) -> Vec<Entry> {
        (0..self.used as usize).map(|i| self.lists().map(|list| list[i])).collect()
    }

    /// The lists are of one length, and the used count is not above it.
    fn is_level(&self) -> bool {
        self.lists().iter().all(|list| list.len() == self.keys.len()) && self.used <= self.keys.len() as u64
    }

    /// Any content past the places in use.
    pub(crate) fn scribble(&mut self, r: &mut Random) {
        let used = self.used as usize;
        for list in self.lists_mut() {
            list[used..].fill_with(|| r.next());
        }
    }

    /// Changes one thing at random.
    pub(crate) fn change(&mut self, r: &mut Random) {
        let places = self.keys.len();
        match r.below(8) {
            0 => {
                self.used =
                    *r.pick(&[0, self.used.wrapping_sub(1), self.used.wrapping_add(1), places as u64 + 1, u64::MAX])
            }
            1 => {
                let to = match r.below(50) {
                    0 => MOST_ROWS + 1,
                    n if n % 2 == 0 && places > 0 => places - 1,
                    _ => places + 1,
                };
                match r.below(4) as usize {
                    3 => self.lists_mut().into_iter().for_each(|list| list.resize(to, 0)),
                    list => self.lists_mut()[list].resize(to, 0),
                }
            }
            _ => {
                let list = r.below(3) as usize;
                let list = &mut self.lists_mut()[list];
                if !list.is_empty() {
                    let i = r.below(list.len() as u64) as usize;
                    let n = list[i];
                    list[i] = *r.pick(&[0, n.wrapping_add(1), n.wrapping_sub(1), n ^ (1 << 32), u64::MAX]);
                }
            }
        }
    }
}

/// What is lent: a library and its directory.
#[derive(Clone, Debug, Default)]
pub(crate) struct Both {
    pub(crate) lent: Lent,
    pub(crate) dir: Directory,
}

/// A call of C on a library and a directory, but for the last entries of each list of rows and places: the pointers and the used count
/// of each, and what it takes after them.
macro_rules! on_both {
    ($call:ident, $both:expr, $but:expr, ($rows:ident, $used:expr), ($places:ident, $places_used:expr) $(, $rest:expr)* $(,)?) => {
        on_lent!(
            $call,
            $both.lent,
            $rows,
            $but,
            $used,
            $both.dir.keys.$places(),
            $both.dir.keys.len() - $but,
            $both.dir.firsts.$places(),
            $both.dir.firsts.len() - $but,
            $both.dir.counts.$places(),
            $both.dir.counts.len() - $but,
            $places_used
            $(, $rest)*
        )
    };
}

/// A look-up's results with what stands before, between and behind them.
pub(crate) fn results(found: u64, place: u64, reads: u64) -> [u64; 7] {
    [BESIDE, found, BESIDE, place, BESIDE, reads, BESIDE]
}

// SAFETY, of every call here: each pointer is a vector's, a field's or a local's, which is aligned and not null, with at most its
// length; the written ones are apart.
impl Both {
    pub(crate) fn build(&mut self) -> u64 {
        self.build_but(0)
    }

    /// With the last entries of each list of rows and places not lent, here and below.
    pub(crate) fn build_but(&mut self, last: usize) -> u64 {
        unsafe {
            on_both!(gemlab_directory_build, self, last, (as_ptr, self.lent.used), (as_mut_ptr, &mut self.dir.used))
        }
    }

    /// The number, and what the results and the entries beside them hold after the call.
    pub(crate) fn look_up(&self, key: u64) -> (u64, [u64; 7]) {
        let mut results = results(RESULT, RESULT, RESULT);
        let [_, found, _, place, _, reads, _] = &mut results;
        let number = unsafe {
            on_both!(
                gemlab_directory_look_up,
                self,
                0,
                (as_ptr, self.lent.used),
                (as_ptr, self.dir.used),
                key,
                found,
                place,
                reads,
            )
        };
        (number, results)
    }

    pub(crate) fn insert(&mut self, id: u64, x: &[f64]) -> u64 {
        self.insert_but(0, id, x)
    }

    pub(crate) fn insert_but(&mut self, last: usize, id: u64, x: &[f64]) -> u64 {
        unsafe {
            on_both!(
                gemlab_directory_insert,
                self,
                last,
                (as_mut_ptr, &mut self.lent.used),
                (as_mut_ptr, &mut self.dir.used),
                id,
                x.as_ptr(),
                x.len(),
            )
        }
    }

    /// The number, and what `removed` holds after the call.
    pub(crate) fn strike(&mut self, id: u64) -> (u64, u64) {
        self.strike_but(0, id)
    }

    pub(crate) fn strike_but(&mut self, last: usize, id: u64) -> (u64, u64) {
        let mut removed = RESULT;
        let number = unsafe {
            on_both!(
                gemlab_directory_strike,
                self,
                last,
                (as_mut_ptr, &mut self.lent.used),
                (as_mut_ptr, &mut self.dir.used),
                id,
                &mut removed,
            )
        };
        (number, removed)
    }

    /// The number, and what the two results hold after the call.
    pub(crate) fn search(&self, x: &[f64]) -> (u64, u64, u64) {
        let (mut found, mut id) = (RESULT, RESULT);
        let number = unsafe {
            on_both!(
                gemlab_directory_search,
                self,
                0,
                (as_ptr, self.lent.used),
                (as_ptr, self.dir.used),
                x.as_ptr(),
                x.len(),
                &mut found,
                &mut id,
            )
        };
        (number, found, id)
    }

    /// The number, the count after the call, and the list, of which `room` entries are lent.
    pub(crate) fn list(&self, asked: &Asked, room: usize) -> (u64, u64, Vec<u64>) {
        let mut out = vec![RESULT; room + 1];
        let mut count = RESULT;
        let number = self.list_into(asked, &mut out[..room], &mut count);
        (number, count, out)
    }

    pub(crate) fn list_into(&self, asked: &Asked, out: &mut [u64], count: &mut u64) -> u64 {
        unsafe {
            on_both!(
                gemlab_directory_list,
                self,
                0,
                (as_ptr, self.lent.used),
                (as_ptr, self.dir.used),
                asked.place,
                asked.a.as_ptr(),
                asked.a.len(),
                asked.b.as_ptr(),
                asked.b.len(),
                asked.number,
                asked.filter,
                asked.axis,
                asked.low,
                asked.high,
                out.as_mut_ptr(),
                out.len(),
                count,
            )
        }
    }

    /// A call with an entry behind each list, which is not lent and has to stay.
    pub(crate) fn before<T>(&mut self, t: &mut Tally, call: impl FnOnce(&mut Both) -> T) -> T {
        let floats = |lent: &mut Lent, work: &mut dyn FnMut(&mut Vec<f64>)| {
            work(&mut lent.xs);
            work(&mut lent.ys);
            work(&mut lent.zs);
        };
        self.lent.keys.push(BESIDE);
        self.lent.ids.push(BESIDE);
        floats(&mut self.lent, &mut |list| list.push(f64::from_bits(BESIDE)));
        self.dir.lists_mut().into_iter().for_each(|list| list.push(BESIDE));
        let told = call(self);
        let mut behind = vec![self.lent.keys.pop(), self.lent.ids.pop()];
        floats(&mut self.lent, &mut |list| behind.push(list.pop().map(f64::to_bits)));
        behind.extend(self.dir.lists_mut().map(|list| list.pop()));
        t.check(behind.iter().all(|entry| *entry == Some(BESIDE)), || format!("behind the lists stand {behind:?}"));
        told
    }

    pub(crate) fn same(&self, other: &Both) -> bool {
        self.lent.same(&other.lent) && self.dir == other.dir
    }
}

/// The directory of rows, read from the request: for each container in use its key, its lowest row and how many rows have the key.
pub(crate) fn entries_of(lent: &Lent) -> Vec<Entry> {
    let mut containers: BTreeMap<u64, (u64, u64)> = BTreeMap::new();
    for (row, key) in lent.keys[..lent.used as usize].iter().enumerate() {
        containers.entry(*key).or_insert((row as u64, 0)).1 += 1;
    }
    containers.into_iter().map(|(key, (first, count))| [key, first, count]).collect()
}

/// Where a look-up finds a key among keys that ascend, and how many it reads: the middle one left, of two the lower, until found.
pub(crate) fn sought(keys: &[u64], key: u64) -> (Option<u64>, u64) {
    let (mut left, mut reads) = (0..keys.len(), 0);
    while !left.is_empty() {
        let middle = (left.start + left.end - 1) / 2;
        reads += 1;
        if keys[middle] == key {
            return (Some(middle as u64), reads);
        }
        left = if keys[middle] < key { middle + 1..left.end } else { left.start..middle };
    }
    (None, reads)
}

impl Both {
    /// 24 or 13, of the rows and of the directory; a build does not look at the directory's used count.
    fn layout_fault(&self, is_build: bool) -> Option<u64> {
        let of_rows = self.lent.fault();
        let is_long = self.dir.lists().iter().any(|list| list.len() > MOST_ROWS);
        let of_places = if is_build { Directory { used: 0, ..self.dir.clone() } } else { self.dir.clone() };
        if is_long || of_rows == Some(24) {
            return Some(24);
        }
        (of_rows.is_some() || !of_places.is_level()).then_some(13)
    }

    /// What turns a call away that has a directory: 24, 13 or 29.
    pub(crate) fn fault(&self) -> Option<u64> {
        self.layout_fault(false).or_else(|| (self.dir.entries() != entries_of(&self.lent)).then_some(29))
    }

    /// These rows and their directory, where that has places enough.
    fn filed(&self, lent: Lent) -> Result<Both, u64> {
        let (entries, places) = (entries_of(&lent), self.dir.keys.len());
        if entries.len() > places {
            return Err(12);
        }
        Ok(Both { dir: Directory::of(&entries, places), lent })
    }

    pub(crate) fn built(&self) -> Result<Both, u64> {
        match self.layout_fault(true) {
            Some(number) => Err(number),
            None => self.filed(self.lent.clone()),
        }
    }

    pub(crate) fn inserted(&self, id: u64, x: &[f64], fault: Option<u64>) -> Result<Both, u64> {
        let mut lent = self.lent.clone();
        match fault.unwrap_or_else(|| lent.insert(id, x)) {
            0 => self.filed(lent),
            number => Err(number),
        }
    }

    pub(crate) fn struck(&self, id: u64, fault: Option<u64>) -> Result<(Both, u64), u64> {
        let mut lent = self.lent.clone();
        match fault.map_or_else(|| lent.strike(id), |number| (number, 0)) {
            (0, removed) => self.filed(lent).map(|both| (both, removed)),
            (number, _) => Err(number),
        }
    }
}
