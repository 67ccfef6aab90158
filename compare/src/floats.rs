//! Module 1 beside Rust's own `f64::sqrt`, `as usize`, `f64::ceil`, `abs`, `min` and `max`.

use crate::near::{around, equal, special};
use crate::random::Random;
use crate::tally::Tally;
use crate::timing::per_call;

extern "C" {
    fn probe_sqrt(x: f64) -> f64;
    fn probe_truncated(x: f64) -> u64;
    fn probe_ceil(x: f64) -> f64;
    fn probe_abs(x: f64) -> f64;
    fn probe_min(a: f64, b: f64) -> f64;
    fn probe_max(a: f64, b: f64) -> f64;
}

const RANDOM_PATTERNS: u64 = 10_000_000;

fn one(t: &mut Tally, x: f64) {
    // SAFETY: the functions take and return numbers.
    let (root, whole, up, size) = unsafe { (probe_sqrt(x), probe_truncated(x), probe_ceil(x), probe_abs(x)) };
    t.float(root, x.sqrt(), || format!("root of {x:e}"));
    t.equal(whole, x as u64, || format!("truncation of {x:e}"));
    t.float(up, x.ceil(), || format!("rounding up of {x:e}"));
    t.float(size, x.abs(), || format!("magnitude of {x:e}"));
}

/// `min` and `max` by ==, since Rust may give either of the two zeros.
fn two(t: &mut Tally, a: f64, b: f64) {
    // SAFETY: the functions take and return numbers.
    let (least, most) = unsafe { (probe_min(a, b), probe_max(a, b)) };
    t.check(equal(least, a.min(b)), || format!("least of {a:e} and {b:e}: {least:e}"));
    t.check(equal(most, a.max(b)), || format!("most of {a:e} and {b:e}: {most:e}"));
}

fn both_signs(t: &mut Tally, x: f64) {
    one(t, x);
    one(t, -x);
}

pub fn compare(t: &mut Tally) {
    let special = special();
    for x in &special {
        one(t, *x);
        for y in &special {
            two(t, *x, *y);
        }
    }

    // every exponent, with no digit set, one, all but the last and all, and what lies beside
    for exponent in 0..2047u64 {
        for digits in [0, 1, 1 << 51, (1 << 51) + 1, (1 << 52) - 2, (1 << 52) - 1] {
            let x = f64::from_bits(exponent << 52 | digits);
            for y in around(x) {
                both_signs(t, y);
            }
        }
    }

    let mut r = Random::new(1);
    for _ in 0..200_000 {
        // a square that is exact, at some exponent, and its neighbours
        let q = (1 << 25) + r.below(1 << 25);
        let scale = f64::from_bits((1023 + 2 * r.below(480) - 480) << 52);
        for y in around((q * q) as f64 * scale) {
            one(t, y);
        }
        // the values next to the square of the middle between two roots, at some even exponent
        let middle = u128::from(2 * ((1 << 52) + r.below(1 << 52)) + 1);
        let square = middle * middle;
        let cut = 128 - square.leading_zeros() - 53;
        let scale = f64::from_bits((1023 + u64::from(cut) + 2 * r.below(400) - 500) << 52);
        for y in around((square >> cut) as f64 * scale) {
            one(t, y);
        }
        // a subnormal value
        both_signs(t, f64::from_bits(r.below(1 << 52)));
        // whole numbers, halves and their neighbours
        let width = 1 + r.below(63);
        let whole = r.below(1 << width);
        for y in around(whole as f64).into_iter().chain(around(whole as f64 + 0.5)) {
            both_signs(t, y);
        }
        two(t, r.pattern(), r.pattern());
        two(t, *r.pick(&special), r.pattern());
        two(t, r.pattern(), *r.pick(&special));
    }

    for _ in 0..RANDOM_PATTERNS {
        one(t, r.pattern());
    }
}

extern "C" fn empty(x: f64) -> f64 {
    x
}

extern "C" fn ours(x: f64) -> f64 {
    // SAFETY: the function takes and returns a number.
    unsafe { probe_sqrt(x) }
}

extern "C" fn hardware(x: f64) -> f64 {
    x.sqrt()
}

extern "C" fn our_ceil(x: f64) -> f64 {
    // SAFETY: the function takes and returns a number.
    unsafe { probe_ceil(x) }
}

extern "C" fn rust_ceil(x: f64) -> f64 {
    x.ceil()
}

/// A call of each function, in one run.
pub fn measure() {
    let mut r = Random::new(2);
    let small: Vec<f64> = (0..16384).map(|_| r.between(0.5, 2.0)).collect();
    let any: Vec<f64> = (0..16384).map(|_| f64::from_bits(r.below(0x7ff << 52))).collect();
    let calls: [(&str, extern "C" fn(f64) -> f64); 5] = [
        ("an empty call", empty),
        ("f64::sqrt", hardware),
        ("floats::sqrt", ours),
        ("f64::ceil", rust_ceil),
        ("floats::ceil", our_ceil),
    ];
    for (what, xs) in [("values from 0.5 to 2", &small), ("any positive finite value", &any)] {
        println!("bench floats: {what}");
        for (name, f) in calls {
            let (apart, chained) = per_call(f, xs);
            println!("  {name:14} {apart:6.2} ns a call, {chained:6.2} ns where each call waits for the last");
        }
    }
}
