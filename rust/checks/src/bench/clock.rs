//! Times of two contenders in one run.

use std::time::{Duration, Instant};

/// How long one contender runs in one round.
const SLICE: Duration = Duration::from_micros(500);
/// How many rounds there are.
const ROUNDS: usize = 301;

/// What came of a race.
pub struct Race {
    /// The nanoseconds of one call of the first, in its best round.
    pub first: f64,
    /// The same of the second.
    pub second: f64,
    /// The first's time by the second's: the median over the rounds.
    pub ratio: f64,
}

/// Two contenders in turn, round by round, so that a slow spell of the machine meets both.
///
/// ```
/// let (mut one, mut other) = (0, 0);
/// let race = sojimu_checks::bench::clock::race(&mut || one += 1, &mut || other += 1);
/// assert!(race.first < 1e6 && race.second < 1e6 && race.ratio > 0.0);
/// assert!(one > 0 && other > 0);
/// ```
pub fn race(first: &mut dyn FnMut(), second: &mut dyn FnMut()) -> Race {
    let turns = (turns(first), turns(second));
    let rounds: Vec<(f64, f64)> = (0..ROUNDS).map(|_| (time(first, turns.0), time(second, turns.1))).collect();
    let mut ratios: Vec<f64> = rounds.iter().map(|(first, second)| first / second).collect();
    ratios.sort_by(f64::total_cmp);
    Race {
        first: rounds.iter().map(|times| times.0).fold(f64::MAX, f64::min),
        second: rounds.iter().map(|times| times.1).fold(f64::MAX, f64::min),
        ratio: ratios[ROUNDS / 2],
    }
}

/// How many calls fill a slice.
fn turns(contender: &mut dyn FnMut()) -> u32 {
    let mut turns = 1;
    while turns < 1 << 24 && time(contender, turns) * f64::from(turns) < SLICE.as_nanos() as f64 {
        turns *= 2;
    }
    turns
}

/// The nanoseconds of one call, the mean of so many.
fn time(contender: &mut dyn FnMut(), turns: u32) -> f64 {
    let start = Instant::now();
    for _ in 0..turns {
        contender();
    }
    start.elapsed().as_nanos() as f64 / f64::from(turns)
}
