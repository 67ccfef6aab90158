use crate::c;
use crate::settings::given;
use crate::Refusal;

/// A sheet: the grid of containers over a plane or a space, with the settings that it was made from.
///
/// The two lists are those of the C interface, and are plain data: they can be stored and handed in again, and every
/// call checks that they are the ones their settings give (13).
#[derive(Clone, Debug, PartialEq)]
pub struct Sheet {
    /// Dimension; divisions given; divisions; tolerance given; border given; divisions along x, y, z.
    pub numbers: [u64; 8],
    /// Low corner; high corner; tolerance; border; xmin; xmax; side length; tol_dist; radius.
    pub floats: [f64; 17],
}

impl Sheet {
    /// The sheet over the box from `xmin` to `xmax`, with `ndiv` divisions along its first longest axis.
    ///
    /// A setting that is left out is 100 divisions, tolerance 1e-4, border 1e-2.
    ///
    /// Refusals: 1 to 10.
    pub fn new(
        xmin: &[f64],
        xmax: &[f64],
        ndiv: Option<u64>,
        tolerance: Option<f64>,
        border_tol: Option<f64>,
    ) -> Result<Sheet, Refusal> {
        let mut sheet = Sheet { numbers: [0; 8], floats: [0.0; 17] };
        let (ndiv_given, ndiv) = given(ndiv);
        let (tolerance_given, tolerance) = given(tolerance);
        let (border_tol_given, border_tol) = given(border_tol);
        // SAFETY: each list is a slice's or an array's pointer and length; the two that are written are fields of a
        // local, apart from each other and from the rest.
        let number = unsafe {
            c::gemlab_grid_search_new(
                xmin.as_ptr(),
                xmin.len(),
                xmax.as_ptr(),
                xmax.len(),
                ndiv_given,
                ndiv,
                tolerance_given,
                tolerance,
                border_tol_given,
                border_tol,
                sheet.numbers.as_mut_ptr(),
                sheet.numbers.len(),
                sheet.floats.as_mut_ptr(),
                sheet.floats.len(),
            )
        };
        Refusal::judge(number).map(|()| sheet)
    }

    /// The dimension, 2 or 3.
    pub fn ndim(&self) -> u64 {
        self.numbers[0]
    }

    /// The divisions along x, y and z; those along z are 1 in 2D.
    pub fn ndiv(&self) -> [u64; 3] {
        [self.numbers[5], self.numbers[6], self.numbers[7]]
    }

    /// The low corner of the grid, border included.
    pub fn xmin(&self) -> [f64; 3] {
        [self.floats[8], self.floats[9], self.floats[10]]
    }

    /// The high corner of the grid, border included.
    pub fn xmax(&self) -> [f64; 3] {
        [self.floats[11], self.floats[12], self.floats[13]]
    }

    /// The side of a container.
    pub fn side_length(&self) -> f64 {
        self.floats[14]
    }

    /// The largest distance at which a mark is near a position or a place.
    pub fn tol_dist(&self) -> f64 {
        self.floats[15]
    }

    /// The radius of the circle or the sphere around a container.
    pub fn radius(&self) -> f64 {
        self.floats[16]
    }
}
