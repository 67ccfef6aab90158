//! Numbers of eight bytes, the lowest first, of which the stored answers consist. docs/STORED.md has their layout.

use crate::numbers::number;
use gemlab::StrError;
use std::collections::BTreeMap;

/// The bytes of a file, how many entries of each kind it has, and how often answers are of a kind that matters.
#[derive(Default)]
pub struct Words {
    pub bytes: Vec<u8>,
    pub entries: [u64; 32],
    pub met: BTreeMap<&'static str, u64>,
}

impl Words {
    /// The first word of an entry.
    pub fn entry(&mut self, kind: u64) {
        self.entries[kind as usize] += 1;
        self.word(kind);
    }

    pub fn meets(&mut self, kind: &'static str, is: bool) {
        *self.met.entry(kind).or_default() += is as u64;
    }

    pub fn word(&mut self, n: u64) {
        self.bytes.extend(n.to_le_bytes());
    }

    pub fn count(&mut self, n: usize) {
        self.word(n as u64);
    }

    pub fn float(&mut self, x: f64) {
        // any NaN is one
        self.word(if x.is_nan() { f64::NAN } else { x }.to_bits());
    }

    pub fn floats(&mut self, xs: &[f64]) {
        xs.iter().for_each(|x| self.float(*x));
    }

    /// A list with its length.
    pub fn position(&mut self, x: &[f64]) {
        self.count(x.len());
        self.floats(x);
    }

    /// A setting: whether it is given, and its value, 0 where it is left out.
    pub fn setting(&mut self, x: Option<f64>) {
        self.word(x.is_some() as u64);
        self.float(x.unwrap_or(0.0));
    }

    /// The number of an answer, and whether there is one.
    pub fn answer<T>(&mut self, answer: Result<T, StrError>) -> Option<T> {
        match answer {
            Ok(value) => {
                self.word(0);
                Some(value)
            }
            Err(message) => {
                self.word(number(message));
                None
            }
        }
    }
}

/// Three coordinates, the third +0 in 2D.
pub fn three(x: &[f64]) -> [f64; 3] {
    [x[0], x[1], x.get(2).copied().unwrap_or(0.0)]
}
