//! Two pieces of work, timed in turns.

use std::time::{Duration, Instant};

/// How many rounds are timed of each.
const ROUNDS: usize = 201;
/// How long a round lasts at least: less than a turn on a processor that others use too.
const ROUND: Duration = Duration::from_micros(200);

/// Nanoseconds that one pass of each takes: the median over rounds in which one follows the other,
/// so that what else the machine does falls on both alike.
pub fn in_turns(mut one: impl FnMut(), mut other: impl FnMut()) -> (f64, f64) {
    let passes = (passes_of_a_round(&mut one), passes_of_a_round(&mut other));
    let mut times = (vec![], vec![]);
    for _ in 0..ROUNDS {
        times.0.push(nanoseconds(passes.0, &mut one));
        times.1.push(nanoseconds(passes.1, &mut other));
    }
    (median(times.0), median(times.1))
}

/// How many passes last as long as a round. They also warm the caches.
fn passes_of_a_round(work: &mut impl FnMut()) -> u32 {
    let mut passes = 1;
    loop {
        let start = Instant::now();
        (0..passes).for_each(|_| work());
        if start.elapsed() >= ROUND {
            return passes;
        }
        passes *= 2;
    }
}

/// Nanoseconds of one pass, over so many.
fn nanoseconds(passes: u32, work: &mut impl FnMut()) -> f64 {
    let start = Instant::now();
    (0..passes).for_each(|_| work());
    start.elapsed().as_nanos() as f64 / f64::from(passes)
}

/// The value in the middle.
fn median(mut values: Vec<f64>) -> f64 {
    values.sort_by(f64::total_cmp);
    values[values.len() / 2]
}
