//! Survey marks and mesh cells found by position: safe Rust over the proved library's C interface.
//!
//! A [`Sheet`] is a grid of containers, a [`Library`] the marks that are filed in it, which may have a [`Directory`] of the
//! containers in use, a [`CellIndex`] the cells of a [`Mesh`] filed in a grid of their own; [`survey`] reads and writes the
//! point lists of surveyors. Each method is one call, and each call answers or is turned away with a [`Refusal`], which
//! leaves everything as it was. What each call means is written in `include/gemlab.h`, and proved.
//!
//! The library is `libcapi.a`, which `./staticlib capi` writes into `target/staticlib`; the environment variable
//! `HRBOTAJ_LIB` names another folder.
//!
//! Calls may run in several threads at once: nothing is kept between them, and what a call writes is borrowed alone. A call
//! takes at most [`STACK`] bytes of stack, and a listing on which more than 1,024 rows count at most [`STACK_LISTING`].
//!
//! What the answers mean in the field is said in the header too: tetrahedra have holes at their rims and lose accuracy far
//! from the origin, so coordinates are best taken from a local origin beside the mesh; a mark is found at a
//! position that is nearer than the tolerance on each axis by more than rounding.
//!
//! # A survey job
//!
//! The same as `examples/survey.c`: a sheet, posts put into a library, a post found by position, the posts on a line,
//! distances, and a probe placed in the mesh of a basin.
//!
//! ```
//! use hrbotaj::{CellIndex, Filter, Library, Mesh, Place, Refusal, Sheet};
//!
//! # fn main() -> Result<(), Refusal> {
//! // 8 divisions along the longest axis; tolerance and border are left out
//! let sheet = Sheet::new(&[0.0, 0.0], &[8.0, 4.0], Some(8), None, None)?;
//! assert_eq!(sheet.ndiv(), [8, 4, 1]);
//!
//! let mut posts = Library::with_space(64);
//! posts.insert(&sheet, 3, &[3.5, 2.5])?;
//! posts.insert(&sheet, 7, &[2.00005, 0.5])?;
//! posts.insert(&sheet, 11, &[6.0, 1.0])?;
//! posts.insert(&sheet, 12, &[6.0, 3.0])?;
//! posts.insert(&sheet, u64::MAX, &[6.0, 3.5])?;
//!
//! assert_eq!(posts.search(&sheet, &[3.5, 2.5])?, Some(3));
//! assert_eq!(posts.search(&sheet, &[2.0, 0.5])?, Some(7));
//! assert_eq!(posts.search(&sheet, &[5.0, 1.0])?, None);
//! assert_eq!(posts.search(&sheet, &[9.0, 1.0]), Err(Refusal(11)));
//!
//! let line = Place::Line { a: &[6.0, 0.0], b: &[6.0, 4.0] };
//! let part = Filter::Range { axis: 1, low: 2.0, high: 3.0 };
//! let circle = Place::Circle { center: &[6.0, 2.0], radius: 1.0 };
//! assert_eq!(posts.list(&sheet, line, Filter::Everything)?, [11, 12, u64::MAX]);
//! assert_eq!(posts.list(&sheet, line, part)?, [12]);
//! assert_eq!(posts.list(&sheet, circle, Filter::Everything)?, [11, 12]);
//! assert_eq!(posts.list(&sheet, Place::PlaneXY(1.0), Filter::Everything), Err(Refusal(16)));
//!
//! let (a, b, p) = ([0.0, 0.0], [4.0, 0.0], [1.0, 2.0]);
//! assert_eq!(hrbotaj::point_point_distance(&a, &p)?, 5f64.sqrt());
//! assert_eq!(hrbotaj::point_line_distance(&a, &b, &p)?, 2.0);
//! assert_eq!(hrbotaj::point_circle_distance(&a, 3.0, &p)?, 5f64.sqrt() - 3.0);
//! let (low, high, q) = ([0.0, 0.0, 0.0], [0.0, 0.0, 4.0], [3.0, 4.0, 1.0]);
//! assert_eq!(hrbotaj::point_cylinder_distance(&low, &high, 2.0, &q)?, 3.0);
//! assert_eq!(hrbotaj::point_line_distance(&a, &a, &p).unwrap_err().to_string(),
//!     "refused 15: the ends of a line, or of a cylinder's axis, are too close");
//!
//! // a basin of two triangles over the square from (0, 0) to (4, 4)
//! let coords = [0.0, 0.0, 4.0, 0.0, 4.0, 4.0, 0.0, 4.0];
//! let corners = [0, 1, 2, 0, 2, 3];
//! let basin = Mesh { ndim: 2, coords: &coords, corners: &corners };
//! let index = CellIndex::new(&basin, None, None, None, None)?;
//! let mut zeta = [0.0; 4];
//! assert_eq!(index.search(&basin, &mut zeta, &[3.0, 1.0])?, Some(0));
//! assert_eq!(zeta, [0.25, 0.5, 0.25, 0.0]);
//! assert_eq!(index.search(&basin, &mut zeta, &[1.0, 3.0])?, Some(1));
//! assert_eq!(zeta, [0.25, 0.25, 0.5, 0.0]);
//! assert_eq!(index.search(&basin, &mut zeta, &[4.005, 2.0])?, None);
//! # Ok(())
//! # }
//! ```

#![warn(missing_docs)]

mod c;
mod cells;
mod directory;
mod distances;
mod library;
mod refusal;
mod settings;
mod sheet;
pub mod survey;

/// The most stack that a call takes, in bytes, but for a listing on which more than 1,024 rows count.
pub const STACK: usize = 8192;

/// The most stack that a listing takes, in bytes.
pub const STACK_LISTING: usize = 147456;

/// The most rows, and the most places of a directory, that a call takes.
pub const ROWS: usize = 65536;

pub use cells::{CellIndex, Mesh};
pub use directory::{Directory, LookUp};
pub use distances::{point_circle_distance, point_cylinder_distance, point_line_distance, point_point_distance};
pub use library::{Check, Filter, Library, Place};
pub use refusal::Refusal;
pub use sheet::Sheet;
