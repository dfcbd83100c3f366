//! The clock: rounds in which the sides take turns, so that whatever slows the machine hits all of them.

use crate::cases::Case;
use crate::side::{Buffers, Side, SIDES};
use std::time::{Duration, Instant};

/// How long a measurement takes.
pub struct Plan {
    pub rounds: usize,
    pub batch: Duration,
}

pub const FULL: Plan = Plan { rounds: 21, batch: Duration::from_millis(5) };
pub const QUICK: Plan = Plan { rounds: 5, batch: Duration::from_millis(1) };

/// ns a call over the rounds.
#[derive(Clone, Copy, Debug, PartialEq)]
pub struct Ns {
    pub median: f64,
    /// Half the distance of the quartiles, in percent of the median.
    pub spread: f64,
}

/// Makes a case's call so many times, each from the case's table; gives the sum of the numbers.
pub fn repeat(case: &Case, side: &dyn Side, lent: &mut Buffers, times: u64) -> u64 {
    let mut sum = 0;
    for _ in 0..times {
        lent.table.copy_from_slice(&case.start.table);
        sum += case.call.make(side, lent);
    }
    sum
}

fn timed(case: &Case, side: &dyn Side, lent: &mut Buffers, times: u64) -> f64 {
    let begin = Instant::now();
    repeat(case, side, lent, times);
    begin.elapsed().as_nanos() as f64 / times as f64
}

/// How many calls fill a batch. Finding out warms up every side.
fn fill(case: &Case, lent: &mut Buffers, batch: Duration) -> u64 {
    let mut times = 1;
    loop {
        let begin = Instant::now();
        for (_, side) in SIDES {
            repeat(case, side, lent, times);
        }
        if begin.elapsed() >= batch * SIDES.len() as u32 {
            return times;
        }
        times *= 2;
    }
}

/// ns a call of the library and of the twin, less an empty call from the same table.
pub fn measure(case: &Case, plan: &Plan) -> [Ns; 2] {
    let mut lent = case.start.clone();
    let times = fill(case, &mut lent, plan.batch);
    let mut rounds = [vec![], vec![]];
    for round in 0..plan.rounds {
        let mut taken = [0.0; SIDES.len()];
        for turn in 0..SIDES.len() {
            let place = (round + turn) % SIDES.len();
            let (_, side) = SIDES[place];
            taken[place] = timed(case, side, &mut lent, times);
        }
        let [nothing, library, twin] = taken;
        rounds[0].push(library - nothing);
        rounds[1].push(twin - nothing);
    }
    rounds.map(summary)
}

fn summary(mut rounds: Vec<f64>) -> Ns {
    rounds.sort_by(f64::total_cmp);
    let at = |quarter: usize| rounds.get((rounds.len().saturating_sub(1)) * quarter / 4).copied().unwrap_or(0.0);
    Ns { median: at(2), spread: 50.0 * (at(3) - at(1)) / at(2) }
}

#[cfg(test)]
mod tests {
    use super::*;

    #[test]
    fn one_slow_round_changes_neither_median_nor_spread() {
        let quiet = summary(vec![9.0, 10.0, 10.0, 10.0, 11.0]);
        assert_eq!(quiet, Ns { median: 10.0, spread: 0.0 });
        assert_eq!(summary(vec![9.0, 10.0, 10.0, 10.0, 900.0]), quiet);
    }

    #[test]
    fn the_spread_is_half_the_distance_of_the_quartiles() {
        assert_eq!(summary(vec![60.0, 80.0, 100.0, 120.0, 140.0]), Ns { median: 100.0, spread: 20.0 });
    }
}
