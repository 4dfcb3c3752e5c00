//! Timing: the rounds of both sides alternate, and are compared in pairs.

use std::hint::black_box;
use std::time::{Duration, Instant};

/// So many places of the stack the pairs of rounds go through.
const PLACES: usize = 256;

/// Median times of the two sides, in nanoseconds per unit, and the median of the ratios of their pairs of rounds, with
/// their lower and upper quartile: 1 is equal, and more is slower. What else the machine does meets both of a pair, or a
/// few pairs only.
pub struct Times {
    pub library: f64,
    pub plain: f64,
    pub ratio: f64,
    pub quartiles: (f64, f64),
}

/// How long the work takes. What is around it is not timed.
pub fn timed(work: impl FnOnce()) -> Duration {
    let start = Instant::now();
    work();
    start.elapsed()
}

/// So many rounds of each side, in turn, each pair at another place of the stack: where that lies in its page counts in the
/// shortest calls, and differs from one start of the program to the next. A round gives the time of so many units.
pub fn compare(
    rounds: usize,
    units: usize,
    mut library: impl FnMut() -> Duration,
    mut plain: impl FnMut() -> Duration,
) -> Times {
    let mut one_round = || (per_unit(units, library()), per_unit(units, plain()));
    one_round(); // brings code and data into the caches
    let pairs: Vec<(f64, f64)> = (0..rounds).map(|round| lowered(round % PLACES, &mut one_round)).collect();
    let ratios = || pairs.iter().map(|pair| pair.0 / pair.1);
    Times {
        library: quantile(2, pairs.iter().map(|pair| pair.0)),
        plain: quantile(2, pairs.iter().map(|pair| pair.1)),
        ratio: quantile(2, ratios()),
        quartiles: (quantile(1, ratios()), quantile(3, ratios())),
    }
}

/// Does the work so many frames down the stack. A frame is an odd number of sixteens long, so that all places in a page that
/// a stack can have are come to.
#[inline(never)]
fn lowered(frames: usize, work: &mut dyn FnMut() -> (f64, f64)) -> (f64, f64) {
    let frame = black_box([0u64; 6]);
    let done = if frames == 0 { work() } else { lowered(frames - 1, work) };
    black_box(&frame);
    done
}

fn per_unit(units: usize, time: Duration) -> f64 {
    time.as_nanos() as f64 / units as f64
}

/// The value that so many quarters of them are below; two is the median.
fn quantile(quarters: usize, values: impl Iterator<Item = f64>) -> f64 {
    let mut values: Vec<f64> = values.collect();
    values.sort_by(f64::total_cmp);
    values[values.len() * quarters / 4]
}
