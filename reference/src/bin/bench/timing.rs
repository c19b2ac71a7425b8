//! Times two sides in alternating batches.

use std::hint::black_box;
use std::time::Instant;

const ROUNDS: usize = 101;

/// How long a batch of calls takes on the library's side, about.
const BATCH_NANOSECONDS: f64 = 200_000.0;
const MOST_CALLS: f64 = 100.0;

/// The median times of a call, in nanoseconds.
pub struct Times {
    pub library: f64,
    pub second: f64,
}

/// Each side says whether its call was accepted, as each must be.
pub fn time_alternately(
    mut library: impl FnMut() -> bool,
    mut second: impl FnMut() -> bool,
) -> Times {
    let once = time_batch(&mut library, 1).min(time_batch(&mut library, 1));
    time_batch(&mut second, 2);
    let calls = (BATCH_NANOSECONDS / once).clamp(1.0, MOST_CALLS) as usize;
    let (mut library_times, mut second_times) = (Vec::new(), Vec::new());
    for _ in 0..ROUNDS {
        library_times.push(time_batch(&mut library, calls));
        second_times.push(time_batch(&mut second, calls));
    }
    Times {
        library: median(library_times),
        second: median(second_times),
    }
}

fn time_batch(call: &mut impl FnMut() -> bool, calls: usize) -> f64 {
    let begin = Instant::now();
    let mut accepted = true;
    for _ in 0..calls {
        accepted &= black_box(call());
    }
    let nanoseconds = begin.elapsed().as_nanos() as f64;
    assert!(accepted, "a timed call was refused");
    nanoseconds / calls as f64
}

fn median(mut times: Vec<f64>) -> f64 {
    times.sort_unstable_by(f64::total_cmp);
    times[times.len() / 2]
}
