use crate::c;
use crate::Refusal;

/// The distance between the points `a` and `b`.
///
/// Refusals: 1, 2, 3. The first position gives the dimension, here and in the other distances.
pub fn point_point_distance(a: &[f64], b: &[f64]) -> Result<f64, Refusal> {
    let mut distance = 0.0;
    // SAFETY: each list is a slice's pointer and length; `distance` is a local, apart from both.
    let number = unsafe { c::gemlab_point_point_distance(a.as_ptr(), a.len(), b.as_ptr(), b.len(), &mut distance) };
    Refusal::judge(number).map(|()| distance)
}

/// The distance of the point `c` from the line through `a` and `b`.
///
/// Refusals: 1, 2, 3, 15.
pub fn point_line_distance(a: &[f64], b: &[f64], c: &[f64]) -> Result<f64, Refusal> {
    let mut distance = 0.0;
    // SAFETY: each list is a slice's pointer and length; `distance` is a local, apart from all of them.
    let number = unsafe {
        c::gemlab_point_line_distance(a.as_ptr(), a.len(), b.as_ptr(), b.len(), c.as_ptr(), c.len(), &mut distance)
    };
    Refusal::judge(number).map(|()| distance)
}

/// The distance of the point `p` from a circle in the plane: negative inside, 0 on the circle.
///
/// Refusals: 1, 16, 2, 3.
pub fn point_circle_distance(center: &[f64], radius: f64, p: &[f64]) -> Result<f64, Refusal> {
    let mut distance = 0.0;
    // SAFETY: each list is a slice's pointer and length; `distance` is a local, apart from both.
    let number = unsafe {
        c::gemlab_point_circle_distance(center.as_ptr(), center.len(), radius, p.as_ptr(), p.len(), &mut distance)
    };
    Refusal::judge(number).map(|()| distance)
}

/// The distance of the point `p` from the cylinder in space whose axis is the line through `a` and `b`: negative
/// inside, 0 on the cylinder.
///
/// Refusals: 1, 16, 2, 3, 15.
pub fn point_cylinder_distance(a: &[f64], b: &[f64], radius: f64, p: &[f64]) -> Result<f64, Refusal> {
    let mut distance = 0.0;
    // SAFETY: each list is a slice's pointer and length; `distance` is a local, apart from all of them.
    let number = unsafe {
        c::gemlab_point_cylinder_distance(
            a.as_ptr(),
            a.len(),
            b.as_ptr(),
            b.len(),
            radius,
            p.as_ptr(),
            p.len(),
            &mut distance,
        )
    };
    Refusal::judge(number).map(|()| distance)
}
