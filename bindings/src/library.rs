use crate::c;
use crate::{Directory, Refusal, Sheet, ROWS};

/// Marks filed in the containers of a sheet: a row for each container and id.
///
/// The rows are plain data of the caller's: every call checks them (24, 13), and works in the space that they have.
/// [`Library::check`] tells which row is bad.
///
/// A library may have a [`Directory`], which says where the rows of each container stand: made by
/// [`Library::with_directory`] or [`Library::build_directory`], kept up to date by insertions and strikings, and checked by
/// every call (24, 13, 29). The answers are the same with it and without.
#[derive(Clone, Debug, Default, PartialEq)]
pub struct Library {
    /// The container of each row; the rows in use are in strict order of key and then id.
    pub keys: Vec<u64>,
    /// The mark's id.
    pub ids: Vec<u64>,
    /// The mark's coordinates.
    pub xs: Vec<f64>,
    /// The mark's coordinates.
    pub ys: Vec<f64>,
    /// The mark's coordinates: +0 in 2D.
    pub zs: Vec<f64>,
    /// How many rows are in use.
    pub used: u64,
    /// Where the rows of each container stand. Set to none, the library is one without a directory.
    pub directory: Option<Directory>,
}

/// Where marks are listed.
#[derive(Clone, Copy, Debug, PartialEq)]
pub enum Place<'a> {
    /// The line through `a` and `b`.
    Line {
        /// A point of the line.
        a: &'a [f64],
        /// Another one.
        b: &'a [f64],
    },
    /// A circle in the plane.
    Circle {
        /// Its centre.
        center: &'a [f64],
        /// Its radius, which may be negative.
        radius: f64,
    },
    /// A cylinder in space, whose axis is the line through `a` and `b`.
    Cylinder {
        /// A point of the axis.
        a: &'a [f64],
        /// Another one.
        b: &'a [f64],
        /// Its radius, which may be negative.
        radius: f64,
    },
    /// The plane of all points with this z.
    PlaneXY(f64),
    /// The plane of all points with this x.
    PlaneYZ(f64),
    /// The plane of all points with this y.
    PlaneXZ(f64),
}

/// Which of the marks on a place are kept.
#[derive(Clone, Copy, Debug, PartialEq)]
pub enum Filter {
    /// All of them.
    Everything,
    /// Those whose coordinate on `axis` is at least `low` and at most `high`.
    Range {
        /// 0 for x, 1 for y, 2 for z.
        axis: u64,
        /// The low end.
        low: f64,
        /// The high end; below `low`, nothing is kept.
        high: f64,
    },
}

/// What a check of a library tells.
#[derive(Clone, Copy, Debug, PartialEq, Eq)]
pub struct Check {
    /// The lowest row that is bad, counted from 0, or none.
    pub bad: Option<u64>,
    /// How many rows were visited: all in use, or those up to the bad one and that one.
    pub visited: u64,
}

/// A call of C on a sheet and a library's lists, by pointers that may be written or not, and what it takes after them.
macro_rules! on_lists {
    ($call:ident, $sheet:expr, $library:expr, $pointer:ident, $($rest:expr),+ $(,)?) => {
        c::$call(
            $sheet.numbers.as_ptr(),
            $sheet.numbers.len(),
            $sheet.floats.as_ptr(),
            $sheet.floats.len(),
            $library.keys.$pointer(),
            $library.keys.len(),
            $library.ids.$pointer(),
            $library.ids.len(),
            $library.xs.$pointer(),
            $library.xs.len(),
            $library.ys.$pointer(),
            $library.ys.len(),
            $library.zs.$pointer(),
            $library.zs.len(),
            $($rest),+
        )
    };
}
pub(crate) use on_lists;

/// A call of C on a library that has a directory: the pointers and the count of each, and what it takes after them.
macro_rules! on_both {
    (
        $call:ident, $sheet:expr, $library:expr, ($rows:ident, $used:expr), $directory:expr, ($places:ident, $places_used:expr)
        $(, $rest:expr)* $(,)?
    ) => {
        on_lists!(
            $call,
            $sheet,
            $library,
            $rows,
            $used,
            $directory.keys.$places(),
            $directory.keys.len(),
            $directory.firsts.$places(),
            $directory.firsts.len(),
            $directory.counts.$places(),
            $directory.counts.len(),
            $places_used
            $(, $rest)*
        )
    };
}
pub(crate) use on_both;

/// A call of C that changes a library, or its namesake where the library has a directory.
macro_rules! changing {
    ($call:ident, $namesake:ident, $sheet:expr, $library:expr, $($rest:expr),+ $(,)?) => {
        match &mut $library.directory {
            None => on_lists!($call, $sheet, $library, as_mut_ptr, &mut $library.used, $($rest),+),
            Some(directory) => on_both!(
                $namesake,
                $sheet,
                $library,
                (as_mut_ptr, &mut $library.used),
                directory,
                (as_mut_ptr, &mut directory.used),
                $($rest),+
            ),
        }
    };
}

/// A call of C that only reads a library, or its namesake where the library has a directory.
macro_rules! asking {
    ($call:ident, $namesake:ident, $sheet:expr, $library:expr, $($rest:expr),+ $(,)?) => {
        match &$library.directory {
            None => on_lists!($call, $sheet, $library, as_ptr, $library.used, $($rest),+),
            Some(directory) => on_both!(
                $namesake,
                $sheet,
                $library,
                (as_ptr, $library.used),
                directory,
                (as_ptr, directory.used),
                $($rest),+
            ),
        }
    };
}

impl Library {
    /// A library with space for so many rows, none in use.
    ///
    /// A mark takes one row for each container that it touches: one mostly, 4 in 2D and 8 in 3D where containers meet,
    /// and one more where the side of a container is within rounding of twice the tolerance. So there are at most 5 in
    /// 2D and 9 in 3D, and as many again each time that it is inserted elsewhere. Struck off, it frees them all.
    pub fn with_space(rows: usize) -> Library {
        Library {
            keys: vec![0; rows],
            ids: vec![0; rows],
            xs: vec![0.0; rows],
            ys: vec![0.0; rows],
            zs: vec![0.0; rows],
            used: 0,
            directory: None,
        }
    }

    /// A library with space for so many insertions of marks, wherever they are, or for the most rows that a call takes.
    pub fn with_marks(sheet: &Sheet, insertions: usize) -> Library {
        let rows = if sheet.ndim() == 2 { 5 } else { 9 };
        Library::with_space(insertions.saturating_mul(rows).min(ROWS))
    }

    /// Files the mark `id` at `x` in its container and in those that its halo touches. Where it has a row, the row takes
    /// the new coordinates; its rows elsewhere stay.
    ///
    /// Refusals: 24, 13, 29 with a directory, 2, 3, 11, 17, 12 (of the rows, or of the directory's places).
    pub fn insert(&mut self, sheet: &Sheet, id: u64, x: &[f64]) -> Result<(), Refusal> {
        // SAFETY: each list is a slice's, an array's or a vector's pointer and length; what is written are fields of
        // `self`, which is borrowed alone: vectors with memory of their own, and counts.
        let number = unsafe {
            changing!(gemlab_grid_search_insert, gemlab_directory_insert, sheet, self, id, x.as_ptr(), x.len())
        };
        Refusal::judge(number)
    }

    /// Strikes the mark `id` off: every row that it has goes, and their number is given. The rows of other marks close up in
    /// their order, every entry past them becomes 0, and the room is free for later insertions.
    ///
    /// Refusals: 24, 13, 29 with a directory, 26.
    pub fn strike(&mut self, sheet: &Sheet, id: u64) -> Result<u64, Refusal> {
        let mut removed = 0;
        // SAFETY: each list is an array's or a vector's pointer and length; what is written are fields of `self`, which is
        // borrowed alone: vectors with memory of their own, and counts; and a local.
        let number =
            unsafe { changing!(gemlab_grid_search_strike, gemlab_directory_strike, sheet, self, id, &mut removed) };
        Refusal::judge(number).map(|()| removed)
    }

    /// The lowest bad row, by one walk over the rows in use that ends there. A row is bad where its key is not below the
    /// number of containers, a coordinate is not finite or past its limit, in 2D the third one is not +0, or the row is
    /// not above the one before it by key and then id. Every other call is refused with 13 exactly where this one is
    /// refused with 13 or tells a row, or the lists or the count of a directory are damaged, which this one does not look
    /// at.
    ///
    /// Refusals: 24, 13 (a damaged sheet, lists of unequal length, a count above them).
    pub fn check(&self, sheet: &Sheet) -> Result<Check, Refusal> {
        let (mut broken, mut row, mut visited) = (0, 0, 0);
        // SAFETY: each list is an array's or a vector's pointer and length; what is written are three locals.
        let number = unsafe {
            on_lists!(gemlab_grid_search_check, sheet, self, as_ptr, self.used, &mut broken, &mut row, &mut visited)
        };
        Refusal::judge(number).map(|()| Check { bad: (broken == 1).then_some(row), visited })
    }

    /// The mark at `x`: of those in the container of `x` that are near it, within the sheet's `tol_dist`, the id with the
    /// least distance as [`point_point_distance`](crate::point_point_distance) computes it, and the lowest id among equal
    /// ones.
    ///
    /// Refusals: 24, 13, 29 with a directory, 2, 3, 11, 17.
    pub fn search(&self, sheet: &Sheet, x: &[f64]) -> Result<Option<u64>, Refusal> {
        let (mut found, mut id) = (0, 0);
        // SAFETY: each list is a slice's, an array's or a vector's pointer and length; what is written are two locals.
        let number = unsafe {
            asking!(
                gemlab_grid_search_search,
                gemlab_directory_search,
                sheet,
                self,
                x.as_ptr(),
                x.len(),
                &mut found,
                &mut id,
            )
        };
        Refusal::judge(number).map(|()| (found == 1).then_some(id))
    }

    /// The ids of the marks on a place, ascending, once each.
    ///
    /// Refusals: 24, 13, 29 with a directory, 16, 2, 3, 15.
    pub fn list(&self, sheet: &Sheet, place: Place, filter: Filter) -> Result<Vec<u64>, Refusal> {
        // a listing has at most one id for each row in use
        let rows = usize::try_from(self.used).map_or(self.ids.len(), |used| used.min(self.ids.len()));
        let mut list = vec![0; rows];
        let count = self.list_into(sheet, place, filter, &mut list)?;
        list.truncate(count);
        Ok(list)
    }

    /// The same into a list of the caller's, and how many ids there are; the list beyond them is untouched.
    ///
    /// Refusals: 24, 13, 29 with a directory, 16, 2, 3, 15, 14.
    pub fn list_into(&self, sheet: &Sheet, place: Place, filter: Filter, list: &mut [u64]) -> Result<usize, Refusal> {
        let (place, a, b, number): (u64, &[f64], &[f64], f64) = match place {
            Place::Line { a, b } => (0, a, b, 0.0),
            Place::Circle { center, radius } => (1, center, &[], radius),
            Place::Cylinder { a, b, radius } => (2, a, b, radius),
            Place::PlaneXY(z) => (3, &[], &[], z),
            Place::PlaneYZ(x) => (4, &[], &[], x),
            Place::PlaneXZ(y) => (5, &[], &[], y),
        };
        let (filter, axis, low, high) = match filter {
            Filter::Everything => (0, 0, 0.0, 0.0),
            Filter::Range { axis, low, high } => (1, axis, low, high),
        };
        let mut count = 0;
        // SAFETY: each list is a slice's, an array's or a vector's pointer and length, and an empty slice's pointer is
        // aligned and not null too; what is written are a slice that is borrowed alone, and a local.
        let number = unsafe {
            asking!(
                gemlab_grid_search_list,
                gemlab_directory_list,
                sheet,
                self,
                place,
                a.as_ptr(),
                a.len(),
                b.as_ptr(),
                b.len(),
                number,
                filter,
                axis,
                low,
                high,
                list.as_mut_ptr(),
                list.len(),
                &mut count,
            )
        };
        // the count is at most the list's length, a usize
        Refusal::judge(number).map(|()| count as usize)
    }
}
