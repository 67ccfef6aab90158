//! Counts what was compared and which answers were met, and shows the first differences.

use crate::near::same;
use std::fmt::Debug;

const SHOWN: u64 = 10;

/// Numbers that a call may return: 0 for success, and the refusals.
const NUMBERS: usize = 30;

pub struct Tally {
    name: String,
    compared: u64,
    differ: u64,
    met: Vec<(&'static str, [u64; NUMBERS])>,
    kinds: Vec<(&'static str, u64)>,
}

impl Tally {
    pub fn new(name: &str) -> Self {
        Tally { name: name.to_string(), compared: 0, differ: 0, met: Vec::new(), kinds: Vec::new() }
    }

    /// One comparison: `what` is only asked where the two differ and it is shown.
    #[inline]
    pub fn check(&mut self, agrees: bool, what: impl FnOnce() -> String) {
        self.compared += 1;
        if !agrees {
            self.differ += 1;
            if self.differ <= SHOWN {
                println!("compare {}: {}", self.name, what());
            }
        }
    }

    /// Two floats, bit for bit; any two NaNs agree.
    #[inline]
    pub fn float(&mut self, ours: f64, rust: f64, of: impl FnOnce() -> String) {
        self.check(same(ours, rust), || format!("{}: {ours:e} here, {rust:e} there", of()));
    }

    #[inline]
    pub fn equal<T: PartialEq + Debug>(&mut self, ours: T, rust: T, of: impl FnOnce() -> String) {
        let agrees = ours == rust;
        self.check(agrees, || format!("{}: {ours:?} here, {rust:?} there", of()));
    }

    /// The number that a call of the library returned, beside the one that is due. It counts as met where they agree.
    #[inline]
    pub fn number(&mut self, call: &'static str, ours: u64, due: u64, of: impl FnOnce() -> String) {
        if ours == due && ours < NUMBERS as u64 {
            self.counts(call)[ours as usize] += 1;
        }
        self.equal(ours, due, || format!("{call}, {}", of()));
    }

    fn counts(&mut self, call: &'static str) -> &mut [u64; NUMBERS] {
        let at = self.met.iter().position(|(name, _)| *name == call).unwrap_or_else(|| {
            self.met.push((call, [0; NUMBERS]));
            self.met.len() - 1
        });
        &mut self.met[at].1
    }

    /// At the end: the numbers that a call was met with are these and no others.
    pub fn met(&mut self, call: &'static str, due: &[u64]) {
        let counts = *self.counts(call);
        let met: Vec<u64> = (0..NUMBERS as u64).filter(|n| counts[*n as usize] > 0).collect();
        self.equal(met.as_slice(), due, || format!("the numbers met by {call}"));
    }

    /// At the end: a kind of input occurred so often, which has to be enough.
    pub fn occurs(&mut self, kind: &'static str, count: u64, enough: u64) {
        self.kinds.push((kind, count));
        self.check(count >= enough, || format!("{kind}: {count}, and {enough} are due"));
    }

    /// At the end: inputs of each kind occurred so often, which has to be enough.
    pub fn occur(&mut self, kinds: Kinds) {
        for (kind, count, enough) in kinds.0 {
            self.occurs(kind, count, enough);
        }
    }

    /// Says how it went; true where something was compared and nothing differs.
    pub fn report(&self) -> bool {
        for (call, counts) in &self.met {
            let met: Vec<String> =
                counts.iter().enumerate().filter(|(_, k)| **k > 0).map(|(n, k)| format!("{n} ({k})")).collect();
            println!("compare {}: {call} gave {}", self.name, met.join(", "));
        }
        if !self.kinds.is_empty() {
            let kinds: Vec<String> = self.kinds.iter().map(|(kind, count)| format!("{kind} ({count})")).collect();
            println!("compare {}: met {}", self.name, kinds.join(", "));
        }
        println!("compare {}: {} results compared, {} differ", self.name, self.compared, self.differ);
        self.compared > 0 && self.differ == 0
    }
}

/// How many inputs were of each kind, with the least number that is asked for.
#[derive(Default)]
pub struct Kinds(Vec<(&'static str, u64, u64)>);

impl Kinds {
    /// One input: for each kind whether it is of that kind, and how many are enough. The kinds are the same for every input.
    pub fn count(&mut self, kinds: &[(&'static str, bool, u64)]) {
        if self.0.is_empty() {
            self.0 = kinds.iter().map(|(kind, _, enough)| (*kind, 0, *enough)).collect();
        }
        for (kind, (_, is, _)) in self.0.iter_mut().zip(kinds) {
            kind.1 += *is as u64;
        }
    }
}
