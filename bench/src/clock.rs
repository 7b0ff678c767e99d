//! Times calls against each other.

use std::time::{Duration, Instant};

/// How often each call is timed.
pub const ROUNDS: usize = 401;
/// How long a timing lasts at least: calls that are faster are repeated.
const LEAST: Duration = Duration::from_micros(100);

/// Nanoseconds a call, over all rounds.
#[derive(Clone, Copy, Debug)]
pub struct Figure {
    /// The least.
    pub best: f64,
    /// The one in the middle.
    pub median: f64,
}

/// Times each call in every round, one after the other, so that whatever else
/// the machine does meets them all.
pub fn race(calls: &mut [&mut dyn FnMut()]) -> Vec<Figure> {
    let repeats: Vec<u32> = calls.iter_mut().map(|call| repeats(*call)).collect();
    let mut times = vec![Vec::with_capacity(ROUNDS); calls.len()];
    for _ in 0..ROUNDS {
        for ((call, repeats), times) in calls.iter_mut().zip(&repeats).zip(&mut times) {
            times.push(timed(*call, *repeats).as_nanos() as f64 / f64::from(*repeats));
        }
    }
    times.into_iter().map(figure).collect()
}

fn repeats(call: &mut dyn FnMut()) -> u32 {
    let mut repeats = 1;
    while timed(call, repeats) < LEAST {
        repeats *= 2;
    }
    repeats
}

fn timed(call: &mut dyn FnMut(), repeats: u32) -> Duration {
    let begin = Instant::now();
    for _ in 0..repeats {
        call();
    }
    begin.elapsed()
}

fn figure(mut times: Vec<f64>) -> Figure {
    times.sort_by(f64::total_cmp);
    Figure {
        best: times[0],
        median: times[times.len() / 2],
    }
}
