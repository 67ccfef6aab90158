//! gemlab's refusals by document 01's numbers.

/// The number of a refusal that gemlab gives as text.
pub fn number(message: &str) -> u64 {
    match message {
        "xmin.len() = ndim must be 2 or 3" | "a.len() == ndim must be 2 or 3" => 1,
        "xmax.len() must equal ndim = xmin.len()"
        | "x.len() must equal ndim"
        | "a.len() must equal ndim"
        | "b.len() must equal ndim"
        | "center.len() must equal ndim"
        | "b.len() must equal a.len() == ndim"
        | "c.len() must equal a.len() == ndim"
        | "x.len() must equal center.len() == ndim"
        | "axis_b.len() must equal center.len() == ndim"
        | "p.len() must equal center.len() == ndim"
        | "length of x must be equal to ndim" => 2,
        "ndiv must be ≥ 1" => 4,
        "ndiv_long must be > ndiv_min" => 5,
        "xmax must be greater than xmin" => 7,
        "tolerance must be > 0.0" => 8,
        "border_tol must be ≥ 0.0" => 9,
        "(xmax-xmin)/ndiv must be > 2·tolerance; reduce the tolerance (or ndiv)" => 10,
        "cannot insert point because its coordinates are outside the grid"
        | "cannot find point because the coordinates are outside the grid"
        | "given point coordinates are outside the grid" => 11,
        "a-to-b segment is too short" => 15,
        "search_on_circle works in 2D only"
        | "search_on_cylinder works in 3D only"
        | "search_on_plane_xy works in 3D only"
        | "search_on_plane_yz works in 3D only"
        | "search_on_plane_xz works in 3D only"
        | "center.len() == ndim must be 2"
        | "axis_a.len() == ndim must be 3" => 16,
        "large_cutoff must be in [0.0, 1.0]" => 20,
        "large_pct must be in [0.0, 1.0]" => 21,
        "length of ksi_or_zeta must be equal to 4" => 25,
        other => panic!("gemlab refuses with {other:?}, which has no number"),
    }
}

/// What a refusal prints.
pub fn refused(message: &str) -> String {
    format!("refused {}", number(message))
}
