//! Stand-in: drawing is not compared.

use crate::StrError;

pub trait GraphMaker {}

pub struct Canvas;
pub struct Curve;
pub struct Text;
pub struct Plot;

pub enum PolyCode {
    MoveTo,
    LineTo,
}

impl GraphMaker for Canvas {}
impl GraphMaker for Curve {}
impl GraphMaker for Text {}

impl Plot {
    pub fn add(&mut self, _: &dyn GraphMaker) -> &mut Self {
        self
    }
}

impl Canvas {
    pub fn new() -> Self {
        Canvas
    }
    pub fn set_alt_text_color(&mut self, _: &str) -> &mut Self {
        self
    }
    pub fn set_edge_color(&mut self, _: &str) -> &mut Self {
        self
    }
    pub fn set_face_color(&mut self, _: &str) -> &mut Self {
        self
    }
    pub fn set_line_width(&mut self, _: f64) -> &mut Self {
        self
    }
    pub fn draw_grid(&mut self, _: &[f64], _: &[f64], _: &[usize], _: bool, _: bool) -> Result<(), StrError> {
        Ok(())
    }
    pub fn polycurve_begin(&mut self) {}
    pub fn polycurve_add(&mut self, _: f64, _: f64, _: PolyCode) {}
    pub fn polycurve_end(&mut self, _: bool) {}
    pub fn polyline_3d_begin(&mut self) {}
    pub fn polyline_3d_add(&mut self, _: f64, _: f64, _: f64) {}
    pub fn polyline_3d_end(&mut self) {}
}

impl Curve {
    pub fn new() -> Self {
        Curve
    }
    pub fn set_marker_style(&mut self, _: &str) -> &mut Self {
        self
    }
    pub fn set_marker_color(&mut self, _: &str) -> &mut Self {
        self
    }
    pub fn set_marker_line_color(&mut self, _: &str) -> &mut Self {
        self
    }
    pub fn set_marker_line_width(&mut self, _: f64) -> &mut Self {
        self
    }
    pub fn draw(&mut self, _: &[f64], _: &[f64]) {}
    pub fn draw_3d(&mut self, _: &[f64], _: &[f64], _: &[f64]) {}
}

impl Text {
    pub fn new() -> Self {
        Text
    }
    pub fn set_color(&mut self, _: &str) -> &mut Self {
        self
    }
    pub fn draw(&mut self, _: f64, _: f64, _: &str) {}
    pub fn draw_3d(&mut self, _: f64, _: f64, _: f64, _: &str) {}
}
