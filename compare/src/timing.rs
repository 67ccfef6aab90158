//! Times of small functions, measured side by side in one run.

use std::hint::black_box;
use std::time::{Duration, Instant};

/// Nanoseconds for a call of f on each of xs: the best of several rounds, once with calls that may overlap and once where
/// each call waits for the last. Work of others on the same machine can double the second: the least of several runs counts.
pub fn per_call(f: extern "C" fn(f64) -> f64, xs: &[f64]) -> (f64, f64) {
    const ROUNDS: usize = 15;
    const TURNS: usize = 10;
    let n = (TURNS * xs.len()) as f64;
    let mut ys = vec![0.0; xs.len()];
    let (mut apart, mut chained) = (f64::INFINITY, f64::INFINITY);
    for _ in 0..ROUNDS {
        let start = Instant::now();
        for _ in 0..TURNS {
            for (x, y) in xs.iter().zip(&mut ys) {
                *y = f(*x);
            }
            black_box(&mut ys);
        }
        apart = apart.min(start.elapsed().as_nanos() as f64 / n);

        let start = Instant::now();
        let mut last = 0.0;
        for _ in 0..TURNS {
            for x in xs {
                last = f(*x + last * 0.0);
            }
        }
        black_box(last);
        chained = chained.min(start.elapsed().as_nanos() as f64 / n);
    }
    (apart, chained)
}

/// Nanoseconds for f(0), .., f(n - 1), each: the best of several rounds.
pub fn best_of(n: usize, f: impl Fn(usize) -> f64) -> f64 {
    const ROUNDS: usize = 15;
    const TURNS: usize = 100;
    let mut best = f64::INFINITY;
    for _ in 0..ROUNDS {
        let start = Instant::now();
        let mut sum = 0.0;
        for _ in 0..TURNS {
            for i in 0..n {
                sum += f(i);
            }
        }
        black_box(sum);
        best = best.min(start.elapsed().as_nanos() as f64 / (TURNS * n) as f64);
    }
    best
}

/// So many calls of f, from its k-th on.
pub fn burst(f: impl Fn(usize) -> u64) -> impl Fn(usize, usize) -> u64 {
    move |k, calls| (k..k + calls).fold(0, |sum, k| sum ^ black_box(f(k)))
}

/// Nanoseconds for a call of each of several functions: the best of many short bursts, which take turns, so that the work of others on
/// the same machine falls on all alike and leaves some bursts of each alone.
pub fn in_turn<const N: usize>(bursts: [&dyn Fn(usize, usize) -> u64; N]) -> [f64; N] {
    const NANOSECONDS: f64 = 20_000.0;
    let calls = bursts.map(|burst| (NANOSECONDS / time(burst, 0, 100)).clamp(8.0, 1000.0) as usize);
    best_in_turn(10_000, calls, bursts)
}

/// The same for calls of milliseconds: one a turn.
pub fn long_in_turn<const N: usize>(bursts: [&dyn Fn(usize, usize) -> u64; N]) -> [f64; N] {
    best_in_turn(100, [1; N], bursts)
}

/// Nanoseconds that a call of f takes more than one of g: the median over many turns, in which one call follows the other, now the one
/// first and now the other. Turns that the work of others has made longer are left out. It tells what small part of a long call comes
/// after the rest, where the best of each would vary by more.
pub fn more(f: impl Fn(usize) -> u64, g: impl Fn(usize) -> u64) -> f64 {
    let (f, g) = (burst(f), burst(g));
    let until = Instant::now() + Duration::from_millis(500);
    let mut turns = Vec::new();
    for k in 0.. {
        if Instant::now() > until && k > 0 {
            break;
        }
        turns.push(if k % 2 == 0 {
            let took = time(&f, k, 1);
            (took, time(&g, k, 1))
        } else {
            let other = time(&g, k, 1);
            (time(&f, k, 1), other)
        });
    }
    let least = |of: fn(&(f64, f64)) -> f64| turns.iter().map(of).fold(f64::INFINITY, f64::min);
    let (least_f, least_g) = (least(|turn| turn.0), least(|turn| turn.1));
    let calm = |turn: &&(f64, f64)| turn.0 < 1.1 * least_f + 100.0 && turn.1 < 1.1 * least_g + 100.0;
    let mut differences: Vec<f64> = turns.iter().filter(calm).map(|turn| turn.0 - turn.1).collect();
    differences.sort_by(f64::total_cmp);
    differences.get(differences.len() / 2).copied().unwrap_or(least_f - least_g)
}

fn time(burst: &dyn Fn(usize, usize) -> u64, k: usize, calls: usize) -> f64 {
    let start = Instant::now();
    black_box(burst(k, calls));
    start.elapsed().as_nanos() as f64 / calls as f64
}

/// The best of so many rounds, with so many calls of each function in a round.
fn best_in_turn<const N: usize>(
    rounds: usize,
    calls: [usize; N],
    bursts: [&dyn Fn(usize, usize) -> u64; N],
) -> [f64; N] {
    let mut best = [f64::INFINITY; N];
    for round in 0..rounds {
        for i in 0..N {
            best[i] = best[i].min(time(bursts[i], round * calls[i], calls[i]));
        }
    }
    best
}
