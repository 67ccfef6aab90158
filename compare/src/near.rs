//! Floats by their patterns: neighbours, and equality.

/// The next `f64` above a finite value.
pub fn up(x: f64) -> f64 {
    if x == 0.0 {
        f64::from_bits(1)
    } else if x > 0.0 {
        f64::from_bits(x.to_bits() + 1)
    } else {
        f64::from_bits(x.to_bits() - 1)
    }
}

/// The next `f64` below a finite value.
pub fn down(x: f64) -> f64 {
    -up(-x)
}

/// x and its two neighbours.
pub fn around(x: f64) -> [f64; 3] {
    [down(x), x, up(x)]
}

/// The same bit for bit; any two NaNs are the same.
#[inline]
pub fn same(a: f64, b: f64) -> bool {
    a.to_bits() == b.to_bits() || (a.is_nan() && b.is_nan())
}

/// The same by ==; any two NaNs are the same.
#[inline]
pub fn equal(a: f64, b: f64) -> bool {
    a == b || (a.is_nan() && b.is_nan())
}

/// Zeros, infinities, NaN, ones, the ends of the subnormal and of the normal range, the ends of the whole numbers that
/// an `f64` counts without a gap, and 2^64.
pub fn special() -> Vec<f64> {
    let positive = [
        0.0,
        f64::from_bits(1),
        down(f64::MIN_POSITIVE),
        f64::MIN_POSITIVE,
        0.25,
        0.5,
        1.0,
        1.5,
        2.0,
        2.25,
        3.0,
        4503599627370495.5,
        4503599627370496.0,
        9007199254740992.0,
        9223372036854775808.0,
        18446744073709549568.0,
        18446744073709551616.0,
        f64::MAX,
        f64::INFINITY,
    ];
    let mut all = vec![f64::NAN, -f64::NAN];
    for x in positive {
        all.extend([x, -x]);
    }
    all
}
