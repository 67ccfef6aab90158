//! Request b of document 02, the nearer stud wins: which of the marks near a position a search names.

/// Of ids with their computed distances, the one with the least distance, and the lowest of those that have it.
pub fn chosen(near: &[(u64, f64)]) -> Option<u64> {
    let least = near.iter().map(|(_, away)| *away).min_by(f64::total_cmp)?;
    near.iter().filter(|(_, away)| *away == least).map(|(id, _)| *id).min()
}

/// The square that gemlab's `point_point_distance` takes the root of.
pub fn square(a: &[f64], b: &[f64]) -> f64 {
    let squares = a.iter().zip(b).map(|(a, b)| (b - a) * (b - a));
    squares.reduce(|sum, square| sum + square).expect("a position")
}
