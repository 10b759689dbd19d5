//! Times: medians of runs in which the sides take turns, so that a slow minute of the machine is slow for all of them.

use std::time::Instant;

use crate::foreign::keep;

/// Makes one call and gives how long it took, in seconds.
pub fn measure_time<T: Copy>(call: impl FnOnce() -> T) -> f64 {
    let start = Instant::now();
    keep(call());
    start.elapsed().as_secs_f64()
}

/// The median; 0 of nothing.
pub fn median(mut times: Vec<f64>) -> f64 {
    times.sort_by(f64::total_cmp);
    times.get(times.len() / 2).copied().unwrap_or(0.0)
}

/// One side of a comparison: runs once and says how many seconds that took.
pub type Side<'a> = Box<dyn FnMut() -> f64 + 'a>;

/// A side that is called and timed here.
pub fn side<'a, T: Copy>(mut call: impl FnMut() -> T + 'a) -> Side<'a> {
    Box::new(move || measure_time(&mut call))
}

/// Runs every side once in each round, in turn, and gives the median of each.
pub fn run_in_turn(rounds: usize, sides: Vec<Side>) -> Vec<f64> {
    let times = time_in_turn(rounds, sides);
    times.into_iter().map(median).collect()
}

/// The same, and gives all times of each side. Every other round goes from the last side to the first, so that no side always comes after
/// the same one. One round before them isn't counted.
pub fn time_in_turn(rounds: usize, mut sides: Vec<Side>) -> Vec<Vec<f64>> {
    let mut times = vec![Vec::new(); sides.len()];
    let mut order: Vec<usize> = (0..sides.len()).collect();
    for round in 0..=rounds {
        for &number in &order {
            let time = sides[number]();
            if round > 0 {
                times[number].push(time);
            }
        }
        order.reverse();
    }
    times
}

/// How two sides compare: the median over the rounds of one's time by the other's in the same round. What slows the machine for a while
/// slows both.
pub fn median_ratio(one: &[f64], other: &[f64]) -> f64 {
    let ratios = one.iter().zip(other).map(|(x, y)| x / y);
    median(ratios.collect())
}
