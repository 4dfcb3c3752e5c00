//! `captures [SEED [CALLS]]` has the library write, read and mend captures, and compares each call with the reading:
//! what stands at a place, the next places, each record and stretch of a walk, and every byte of the buffer that a
//! record is written into. It ends with status 1 at the first difference, with 2 for wrong arguments, and with 3 where
//! the calls have not brought about all that can occur.

mod reading;
mod support;
mod walks;

use std::{env, process};
use support::random::Random;
use support::signals::watch;
use walks::cases::{self, Case};
use walks::comparison::Comparison;
use walks::coverage::Coverage;
use walks::writes::{self, Write};

const DEFAULT_SEED: u64 = 1;
const DEFAULT_CALLS: u64 = 4_000_000;

/// The program's exit statuses; 0 where all is as it should be.
const DIFFERENT: i32 = 1;
const WRONG_ARGUMENTS: i32 = 2;
const COVERAGE_NOT_MET: i32 = 3;

/// What is compared, and what that has met.
struct Run {
    comparison: Comparison,
    coverage: Coverage,
    /// No further capture or record once so many calls are made.
    most: u64,
}

impl Run {
    fn is_over(&self) -> bool {
        self.comparison.calls >= self.most
    }

    fn capture(&mut self, case: &Case) -> Result<(), String> {
        let places = case.places();
        self.comparison.capture(case, &places)?;
        self.coverage.observe(&case.capture, &places);
        Ok(())
    }

    fn write(&mut self, write: &Write) -> Result<(), String> {
        let number = self.comparison.write(write)?;
        self.coverage.observe_write(write, number);
        Ok(())
    }

    /// The cases of every run, then random ones.
    fn compare(&mut self) -> Result<(), String> {
        for write in writes::all() {
            if self.is_over() {
                return Ok(());
            }
            self.write(&write)?;
        }
        for case in cases::all() {
            if self.is_over() {
                return Ok(());
            }
            self.capture(&case)?;
        }
        let mut seeds = Random::new(self.comparison.seed);
        while !self.is_over() {
            let mut random = Random::new(seeds.draw());
            self.capture(&cases::random(&mut random))?;
            self.write(&writes::random(&mut random))?;
        }
        Ok(())
    }
}

/// The seed and the number of calls.
fn arguments() -> Option<(u64, u64)> {
    let numbers: Option<Vec<u64>> = env::args().skip(1).map(|argument| argument.parse().ok()).collect();
    match numbers?[..] {
        [] => Some((DEFAULT_SEED, DEFAULT_CALLS)),
        [seed] => Some((seed, DEFAULT_CALLS)),
        [seed, calls] => Some((seed, calls)),
        _ => None,
    }
}

pub fn main() {
    let (seed, most) = arguments().unwrap_or_else(|| {
        eprintln!("usage: captures [SEED [CALLS]]");
        process::exit(WRONG_ARGUMENTS);
    });
    let mut run = Run { comparison: Comparison::new(seed), coverage: Coverage::default(), most };
    watch(&mut run.comparison);
    if let Err(difference) = run.compare() {
        print!("{difference}");
        println!("captures: different at call {}", run.comparison.calls);
        process::exit(DIFFERENT);
    }
    println!("captures: {} compared, 0 different", run.comparison.calls);
    let not_met = run.coverage.not_met();
    if !not_met.is_empty() {
        println!("captures: never met: {}", not_met.join("; "));
        process::exit(COVERAGE_NOT_MET);
    }
}
