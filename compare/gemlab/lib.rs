//! gemlab's files, read unchanged from where build.rs found them, with stand-ins for the crates and types that they name
//! and that the comparison does not use. After each file stand functions that show its private fields.

#![allow(dead_code, clippy::all)]

mod plotpy;
mod russell_lab;
mod russell_stat;

pub type StrError = &'static str;

pub mod geometry {
    pub use algorithms::*;
    pub use tetrahedron::*;
    pub use triangle::*;

    mod algorithms {
        include!(concat!(env!("GEMLAB"), "/src/geometry/algorithms.rs"));
    }

    mod tetrahedron {
        include!(concat!(env!("GEMLAB"), "/src/geometry/tetrahedron.rs"));
    }

    mod triangle {
        include!(concat!(env!("GEMLAB"), "/src/geometry/triangle.rs"));
    }
}

pub mod util {
    pub use calc_container_key::*;
    pub use grid_search::*;
    pub use num_divisions::*;

    mod calc_container_key {
        include!(concat!(env!("GEMLAB"), "/src/util/calc_container_key.rs"));
    }

    mod num_divisions {
        include!(concat!(env!("GEMLAB"), "/src/util/num_divisions.rs"));
    }

    mod grid_search {
        use crate::{plotpy, russell_lab};
        include!(concat!(env!("GEMLAB"), "/src/util/grid_search.rs"));

        /// The private fields of a `GridSearch` but its containers.
        #[derive(Clone, Debug)]
        pub struct SheetFields {
            pub ndim: usize,
            pub ndiv: Vec<usize>,
            pub xmin: Vec<f64>,
            pub xmax: Vec<f64>,
            pub coefficient: Vec<usize>,
            pub side_length: f64,
            pub tolerance: f64,
            pub tol_dist: f64,
            pub radius: f64,
        }

        /// One entry of one container.
        #[derive(Clone, Debug)]
        pub struct RowFields {
            pub key: usize,
            pub id: usize,
            pub x: Vec<f64>,
        }

        impl GridSearch {
            pub fn fields(&self) -> SheetFields {
                SheetFields {
                    ndim: self.ndim,
                    ndiv: self.ndiv.clone(),
                    xmin: self.xmin.clone(),
                    xmax: self.xmax.clone(),
                    coefficient: self.coefficient.clone(),
                    side_length: self.side_length,
                    tolerance: self.tolerance,
                    tol_dist: self.tol_dist,
                    radius: self.radius,
                }
            }

            /// Every entry of every container, ascending by key and then id.
            pub fn rows(&self) -> Vec<RowFields> {
                let mut rows: Vec<_> = self
                    .containers
                    .iter()
                    .flat_map(|(key, container)| {
                        container.iter().map(|(id, x)| RowFields { key: *key, id: *id, x: x.clone() })
                    })
                    .collect();
                rows.sort_by_key(|row| (row.key, row.id));
                rows
            }

            /// The private method `update_or_insert`: an entry in any container.
            pub fn put_row(&mut self, key: usize, id: usize, x: &[f64]) {
                self.update_or_insert(key, id, x);
            }

            /// The private method `calc_container_key`.
            pub fn key_of(&self, x: &[f64]) -> Option<usize> {
                self.calc_container_key(x)
            }

            /// The private methods `container_pivot_indices` and `container_center`.
            pub fn center_of(&self, key: usize) -> Vec<f64> {
                let (i, j, k) = self.container_pivot_indices(key);
                let mut center = vec![0.0; self.ndim];
                self.container_center(&mut center, i, j, k);
                center
            }

            /// The private methods `set_halo` and field `halo`.
            pub fn halo_of(&mut self, x: &[f64]) -> Vec<Vec<f64>> {
                self.set_halo(x);
                self.halo.clone()
            }
        }
    }
}

pub mod shapes {
    /// The two kinds that the index takes, and one that it does not.
    #[derive(Clone, Copy, Debug, Eq, PartialEq)]
    pub enum GeoKind {
        Tri3,
        Tet4,
        Qua4,
    }
}

pub mod mesh {
    pub use grid_cells::*;
    pub use stand_in::*;

    mod stand_in {
        use crate::plotpy::Canvas;
        use crate::shapes::GeoKind;
        use crate::StrError;

        pub struct Point {
            pub coords: Vec<f64>,
        }

        pub struct Cell {
            pub id: usize,
            pub kind: GeoKind,
            pub points: Vec<usize>,
        }

        /// What `GridCells` reads of gemlab's `Mesh`.
        pub struct Mesh {
            pub ndim: usize,
            pub points: Vec<Point>,
            pub cells: Vec<Cell>,
        }

        impl Mesh {
            /// A mesh of triangles (2D) or tetrahedra (3D) from flat lists.
            pub fn from_lists(ndim: usize, coords: &[f64], corners: &[u32]) -> Self {
                let kind = if ndim == 2 { GeoKind::Tri3 } else { GeoKind::Tet4 };
                Mesh {
                    ndim,
                    points: coords.chunks(ndim).map(|x| Point { coords: x.to_vec() }).collect(),
                    cells: corners
                        .chunks(ndim + 1)
                        .enumerate()
                        .map(|(id, c)| Cell { id, kind, points: c.iter().map(|p| *p as usize).collect() })
                        .collect(),
                }
            }

            pub(crate) fn draw_cell(&self, _: &mut Canvas, _: usize) -> Result<(), StrError> {
                Ok(())
            }
        }
    }

    mod grid_cells {
        use crate::{plotpy, russell_stat};
        include!(concat!(env!("GEMLAB"), "/src/mesh/grid_cells.rs"));

        /// The private fields of a `GridCells`, its containers as rows ascending by key and then cell.
        #[derive(Clone, Debug)]
        pub struct IndexFields {
            pub ndiv: Vec<usize>,
            pub xmin: Vec<f64>,
            pub xmax: Vec<f64>,
            pub side_length: f64,
            pub rows: Vec<(usize, usize)>,
            pub large: Vec<usize>,
        }

        impl<'a> GridCells<'a> {
            pub fn fields(&self) -> IndexFields {
                let mut rows: Vec<_> = self
                    .containers
                    .iter()
                    .flat_map(|(key, container)| container.iter().map(|cell| (*key, *cell)))
                    .collect();
                rows.sort();
                let mut large: Vec<_> = self.large_cells.iter().copied().collect();
                large.sort();
                IndexFields {
                    ndiv: self.ndiv.clone(),
                    xmin: self.xmin.clone(),
                    xmax: self.xmax.clone(),
                    side_length: self.side_length,
                    rows,
                    large,
                }
            }

            /// The private method `in_cell`.
            pub fn holds(&self, zeta: &mut [f64], x: &[f64], cell: usize) -> bool {
                self.in_cell(zeta, x, cell)
            }
        }
    }
}
