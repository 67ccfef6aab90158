use crate::c;
use crate::settings::given;
use crate::{Refusal, ROWS};

/// Triangles in the plane or tetrahedra in space, as flat lists.
#[derive(Clone, Copy, Debug, PartialEq)]
pub struct Mesh<'a> {
    /// The dimension, 2 or 3.
    pub ndim: u64,
    /// The coordinates, point after point.
    pub coords: &'a [f64],
    /// The points of each cell, 3 or 4, cell after cell.
    pub corners: &'a [u32],
}

/// The cells of a mesh, filed in the containers of a grid.
///
/// The lists are those of the C interface, and are plain data: a search checks them (13), and answers over the rows and
/// the mesh that it is handed.
#[derive(Clone, Debug, Default, PartialEq)]
pub struct CellIndex {
    /// The container of each row; the rows in use are in strict order of key and then cell.
    pub keys: Vec<u64>,
    /// The cell of each row.
    pub cells: Vec<u64>,
    /// The cells that are too large to be filed, ascending.
    pub large: Vec<u64>,
    /// Dimension; divisions along x, y, z; rows in use; large cells in use.
    pub numbers: [u64; 6],
    /// Side length; xmin; xmax.
    pub floats: [f64; 7],
}

impl CellIndex {
    /// An index with space for so many rows and large cells, nothing built.
    pub fn with_space(rows: usize, large: usize) -> CellIndex {
        CellIndex { keys: vec![0; rows], cells: vec![0; rows], large: vec![0; large], ..CellIndex::default() }
    }

    /// The index of a mesh, with as much space as its cells can need, or the most that a call takes.
    ///
    /// A setting that is left out is tolerance 1e-4, border 1e-2, cutoff 0.75, percentage 0.2.
    ///
    /// Refusals: 1, 24, 19, 3, 8, 9, 20, 21, 18, 23, 22, 6, 17, 12.
    pub fn new(
        mesh: &Mesh,
        tolerance: Option<f64>,
        border_tol: Option<f64>,
        large_cutoff: Option<f64>,
        large_pct: Option<f64>,
    ) -> Result<CellIndex, Refusal> {
        // a cell has a row for each corner of its box: at most 4 in 2D, where it has 3 points, and 8 in 3D, where it has 4
        let (points, boxes) = if mesh.ndim == 2 { (3, 4) } else { (4, 8) };
        let cells = (mesh.corners.len() / points).min(ROWS);
        let mut index = CellIndex::with_space((cells * boxes).min(ROWS), cells);
        index.build(mesh, tolerance, border_tol, large_cutoff, large_pct)?;
        Ok(index)
    }

    /// Builds the index of a mesh in the space of this one, whatever it holds. A refused build leaves it as it was.
    ///
    /// Refusals: 1, 24, 13, 19, 3, 8, 9, 20, 21, 18, 23, 22, 6, 17, 12.
    pub fn build(
        &mut self,
        mesh: &Mesh,
        tolerance: Option<f64>,
        border_tol: Option<f64>,
        large_cutoff: Option<f64>,
        large_pct: Option<f64>,
    ) -> Result<(), Refusal> {
        let (tolerance_given, tolerance) = given(tolerance);
        let (border_tol_given, border_tol) = given(border_tol);
        let (large_cutoff_given, large_cutoff) = given(large_cutoff);
        let (large_pct_given, large_pct) = given(large_pct);
        // SAFETY: each list is a slice's, an array's or a vector's pointer and length; what is written are fields of
        // `self`, which is borrowed alone: three vectors with memory of their own, and two arrays.
        let number = unsafe {
            c::gemlab_grid_cells_new(
                mesh.ndim,
                mesh.coords.as_ptr(),
                mesh.coords.len(),
                mesh.corners.as_ptr(),
                mesh.corners.len(),
                tolerance_given,
                tolerance,
                border_tol_given,
                border_tol,
                large_cutoff_given,
                large_cutoff,
                large_pct_given,
                large_pct,
                self.keys.as_mut_ptr(),
                self.keys.len(),
                self.cells.as_mut_ptr(),
                self.cells.len(),
                self.large.as_mut_ptr(),
                self.large.len(),
                self.numbers.as_mut_ptr(),
                self.numbers.len(),
                self.floats.as_mut_ptr(),
                self.floats.len(),
            )
        };
        Refusal::judge(number)
    }

    /// The cell that holds `x`: the lowest of the large ones, else the lowest of its container. Its 3 or 4 coordinates
    /// go to `zeta`, of length 4; in 2D the fourth entry stays, and where no cell holds `x`, all of them.
    ///
    /// Refusals: 1, 24, 19, 13, 25, 2, 3, 11, 17.
    pub fn search(&self, mesh: &Mesh, zeta: &mut [f64], x: &[f64]) -> Result<Option<u64>, Refusal> {
        let (mut found, mut cell) = (0, 0);
        // SAFETY: each list is a slice's, an array's or a vector's pointer and length; what is written are a slice that
        // is borrowed alone, and two locals.
        let number = unsafe {
            c::gemlab_grid_cells_search(
                self.numbers.as_ptr(),
                self.numbers.len(),
                self.floats.as_ptr(),
                self.floats.len(),
                mesh.coords.as_ptr(),
                mesh.coords.len(),
                mesh.corners.as_ptr(),
                mesh.corners.len(),
                self.keys.as_ptr(),
                self.keys.len(),
                self.cells.as_ptr(),
                self.cells.len(),
                self.large.as_ptr(),
                self.large.len(),
                x.as_ptr(),
                x.len(),
                zeta.as_mut_ptr(),
                zeta.len(),
                &mut found,
                &mut cell,
            )
        };
        Refusal::judge(number).map(|()| (found == 1).then_some(cell))
    }
}
