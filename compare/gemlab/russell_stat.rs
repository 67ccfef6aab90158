//! Stand-in: `GridCells::stat` is not compared.

use std::fmt;

pub struct Histogram;

impl Histogram {
    pub fn new(_: &[usize]) -> Result<Self, crate::StrError> {
        Ok(Histogram)
    }
    pub fn count(&mut self, _: &[usize]) {}
    pub fn set_bar_char(&mut self, _: char) {}
    pub fn set_bar_max_len(&mut self, _: usize) {}
}

impl fmt::Display for Histogram {
    fn fmt(&self, _: &mut fmt::Formatter<'_>) -> fmt::Result {
        Ok(())
    }
}
