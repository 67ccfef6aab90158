//! Point lists of surveyors: marks as text, one a line.
//!
//! A line is `number,easting,northing,height,description` and ends in LF or CR LF; the last may have no end. The number is
//! 1 to 20 digits, at most 2^64 - 1. A coordinate is an optional minus, 1 to 7 digits, and optionally a point with 1 to 3
//! digits, at most 1,048,576 in magnitude; it is the float nearest to that decimal, and -0 is +0. The description is up to
//! 32 bytes from 32 to 126 and no comma. `include/gemlab.h` has the details.
//!
//! ```
//! use hrbotaj::survey::{self, ImportError, Mark};
//! use hrbotaj::{Library, Refusal, Sheet};
//!
//! # fn main() -> Result<(), Refusal> {
//! let marks = survey::import(b"7,1.5,0.5,-2,post by the gate\r\n8,2.25,3,0.125,")?;
//! assert_eq!(marks, [Mark { id: 7, at: [1.5, 0.5, -2.0] }, Mark { id: 8, at: [2.25, 3.0, 0.125] }]);
//! assert_eq!(survey::export(&marks)?, b"7,1.500,0.500,-2.000,\n8,2.250,3.000,0.125,\n");
//!
//! let sheet = Sheet::new(&[0.0, 0.0, -4.0], &[8.0, 4.0, 4.0], None, None, None)?;
//! let mut posts = Library::with_marks(&sheet, marks.len());
//! for mark in &marks {
//!     posts.insert(&sheet, mark.id, &mark.at)?;
//! }
//! assert_eq!(posts.search(&sheet, &[2.25, 3.0, 0.125])?, Some(8));
//!
//! // four decimals
//! let refused = survey::import(b"7,1.5,0.5,-2,\n8,2.2500,3,0.125,\n").unwrap_err();
//! assert_eq!(refused, ImportError { refusal: Refusal::MALFORMED, line: Some(2) });
//! assert_eq!(refused.to_string(), "refused 27 in line 2: a line of the text is malformed");
//! // a third of a millimetre
//! assert_eq!(survey::export(&[Mark { id: 7, at: [0.001 / 3.0, 0.0, 0.0] }]), Err(Refusal::NO_DECIMAL));
//! # Ok(())
//! # }
//! ```

use crate::c;
use crate::{Refusal, ROWS};
use std::error::Error;
use std::fmt;

/// A mark of a point list.
#[derive(Clone, Copy, Debug, Default, PartialEq)]
pub struct Mark {
    /// Its number.
    pub id: u64,
    /// Its easting, northing and height.
    pub at: [f64; 3],
}

/// The most bytes that a mark takes in an exported text.
pub const POINT_BYTES: usize = 61;

/// Why a text was not imported.
#[derive(Clone, Copy, Debug, PartialEq, Eq)]
pub struct ImportError {
    /// 27, or 12 for a text of more than [`ROWS`] lines that are all good.
    pub refusal: Refusal,
    /// The first malformed line, counted from 1, where the refusal is 27.
    pub line: Option<u64>,
}

impl fmt::Display for ImportError {
    fn fmt(&self, f: &mut fmt::Formatter) -> fmt::Result {
        match self.line {
            Some(line) => write!(f, "refused {} in line {line}: {}", self.refusal.0, self.refusal.meaning()),
            None => self.refusal.fmt(f),
        }
    }
}

impl Error for ImportError {}

impl From<ImportError> for Refusal {
    fn from(error: ImportError) -> Refusal {
        error.refusal
    }
}

/// The marks of a text, in the order of its lines; descriptions are dropped. An empty text has a malformed line 1.
///
/// Refusals: 27, with the line; 12, where the lines are more than [`ROWS`].
pub fn import(text: &[u8]) -> Result<Vec<Mark>, ImportError> {
    // a mark takes a line, and a line ends in LF or with the text
    let lines = 1 + text.iter().filter(|byte| **byte == b'\n').count();
    let room = lines.min(ROWS);
    let mut ids = vec![0; room];
    let [mut xs, mut ys, mut zs] = [(); 3].map(|()| vec![0.0; room]);
    let (mut used, mut line) = (0, 0);
    // SAFETY: each list is a slice's or a vector's pointer and length; what is written are four local vectors with memory of
    // their own, and two locals.
    let number = unsafe {
        c::gemlab_survey_import(
            text.as_ptr(),
            text.len(),
            ids.as_mut_ptr(),
            ids.len(),
            xs.as_mut_ptr(),
            xs.len(),
            ys.as_mut_ptr(),
            ys.len(),
            zs.as_mut_ptr(),
            zs.len(),
            &mut used,
            &mut line,
        )
    };
    let line = |refusal| (refusal == Refusal::MALFORMED).then_some(line);
    Refusal::judge(number).map_err(|refusal| ImportError { refusal, line: line(refusal) })?;
    // the count is at most the lists' length, a usize
    Ok((0..used as usize).map(|i| Mark { id: ids[i], at: [xs[i], ys[i], zs[i]] }).collect())
}

/// The text of marks: coordinates with three decimals, empty descriptions, lines that end in LF. [`import`] gives the same
/// marks, bit for bit; no marks give the empty text, which it refuses.
///
/// Refusals: 24, where the marks are more than [`ROWS`]; 28, where a coordinate is none that an import gives.
pub fn export(marks: &[Mark]) -> Result<Vec<u8>, Refusal> {
    let ids: Vec<u64> = marks.iter().map(|mark| mark.id).collect();
    let [xs, ys, zs] = [0, 1, 2].map(|axis| marks.iter().map(|mark| mark.at[axis]).collect::<Vec<f64>>());
    let mut text = vec![0; marks.len().min(ROWS) * POINT_BYTES];
    let mut length = 0;
    // SAFETY: each list is a vector's pointer and length; what is written are a local vector with memory of its own, and a
    // local.
    let number = unsafe {
        c::gemlab_survey_export(
            ids.as_ptr(),
            ids.len(),
            xs.as_ptr(),
            xs.len(),
            ys.as_ptr(),
            ys.len(),
            zs.as_ptr(),
            zs.len(),
            marks.len() as u64,
            text.as_mut_ptr(),
            text.len(),
            &mut length,
        )
    };
    Refusal::judge(number)?;
    // the length is at most the buffer's, a usize
    text.truncate(length as usize);
    Ok(text)
}
