//! Times of two sides that take turns.

use std::hint::black_box;
use std::time::{Duration, Instant};

/// Rounds that a median is taken of.
const ROUNDS: usize = 15;

/// A round lasts about as long.
const ROUND: Duration = Duration::from_millis(20);

/// Seconds for one piece of work: the median of the rounds.
#[derive(Clone, Copy)]
pub struct Times {
    /// Of what ours is held against, in most tables the original.
    pub other: Option<f64>,
    pub ours: f64,
}

/// How long a call takes. What it answers is not optimised away.
pub fn timed<T>(call: impl FnOnce() -> T) -> Duration {
    let start = Instant::now();
    let answer = black_box(call());
    let time = start.elapsed();
    drop(answer);
    time
}

/// Each side does `pieces` pieces of work in a call and answers how long it took; what it prepares is not counted.
pub fn both(pieces: usize, mut other: impl FnMut() -> Duration, mut ours: impl FnMut() -> Duration) -> Times {
    let calls = [calls_of(&mut other), calls_of(&mut ours)];
    let mut seconds = [Vec::new(), Vec::new()];
    for _ in 0..ROUNDS {
        seconds[0].push(round(calls[0], &mut other));
        seconds[1].push(round(calls[1], &mut ours));
    }
    let [other, ours] = seconds.map(|times| median(times) / pieces as f64);
    Times { other: Some(other), ours }
}

/// What there is nothing to hold against.
pub fn alone(pieces: usize, mut ours: impl FnMut() -> Duration) -> Times {
    let calls = calls_of(&mut ours);
    let times = (0..ROUNDS).map(|_| round(calls, &mut ours)).collect();
    Times { other: None, ours: median(times) / pieces as f64 }
}

/// How many calls make a round, after some that warm up.
fn calls_of(side: &mut impl FnMut() -> Duration) -> usize {
    side();
    let time = side().min(side());
    (ROUND.as_secs_f64() / time.as_secs_f64().max(1e-9)).ceil() as usize
}

/// Seconds that a call takes in one round.
fn round(calls: usize, side: &mut impl FnMut() -> Duration) -> f64 {
    (0..calls).map(|_| side()).sum::<Duration>().as_secs_f64() / calls as f64
}

fn median(mut times: Vec<f64>) -> f64 {
    times.sort_by(f64::total_cmp);
    times[times.len() / 2]
}
