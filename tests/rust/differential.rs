//! `differential [SEED [CALLS]]` makes random runs of both ends through the library's exports, and compares each call
//! with the reading: number, reply, records, image and map, whole. It ends with status 1 at the first difference, with 2
//! for wrong arguments, and with 3 where the calls have not brought about all that can occur.

mod calls;
mod reading;
mod support;

use calls::comparison::Comparison;
use calls::coverage::Coverage;
use calls::run::{Run, Scale};
use calls::texts;
use std::{env, process};
use support::random::Random;
use support::signals::watch;

const DEFAULT_SEED: u64 = 1;
const DEFAULT_CALLS: u64 = 1_200_000;

/// The program's exit statuses; 0 where all is as it should be.
const DIFFERENT: i32 = 1;
const WRONG_ARGUMENTS: i32 = 2;
const COVERAGE_NOT_MET: i32 = 3;

/// Few runs are long: they take most of the time.
fn scale_of(run: u64) -> Scale {
    match run % 500 {
        0 => Scale::Most,
        rest if rest % 50 == 0 => Scale::Large,
        _ => Scale::Small,
    }
}

/// Every version text at the edges of the rule.
fn compare_texts(comparison: &mut Comparison, coverage: &mut Coverage) -> Result<(), String> {
    for mut text in texts::all() {
        let result = comparison.make(text.call, text.lent, &mut text.memory)?;
        coverage.observe_text(&text, (result % 256) as u8);
    }
    Ok(())
}

/// Runs until so many calls are made, or one differs.
fn compare(comparison: &mut Comparison, coverage: &mut Coverage, calls: u64) -> Result<(), String> {
    let mut seeds = Random::new(comparison.seed);
    while comparison.calls < calls {
        comparison.run += 1;
        let mut run = Run::new(Random::new(seeds.draw()), scale_of(comparison.run));
        let is_written_into = run.is_written_into;
        for _ in 0..run.calls {
            comparison.step(&mut run, |made| coverage.observe(made, is_written_into))?;
        }
    }
    Ok(())
}

/// The seed and the number of calls.
fn arguments() -> Option<(u64, u64)> {
    let numbers: Option<Vec<u64>> = env::args().skip(1).map(|argument| argument.parse().ok()).collect();
    match numbers?[..] {
        [] => Some((DEFAULT_SEED, DEFAULT_CALLS)),
        [seed] => Some((seed, DEFAULT_CALLS)),
        [seed, calls] => Some((seed, calls)),
        _ => None,
    }
}

pub fn main() {
    let (seed, calls) = arguments().unwrap_or_else(|| {
        eprintln!("usage: differential [SEED [CALLS]]");
        process::exit(WRONG_ARGUMENTS);
    });
    let mut comparison = Comparison::new(seed);
    let mut coverage = Coverage::default();
    watch(&mut comparison);
    let compared = compare_texts(&mut comparison, &mut coverage)
        .and_then(|()| compare(&mut comparison, &mut coverage, calls));
    if let Err(difference) = compared {
        print!("{difference}");
        println!("differential: different at call {}", comparison.calls);
        process::exit(DIFFERENT);
    }
    let not_met = coverage.not_met();
    print!("{}", coverage.summary());
    println!("differential: {} calls in {} runs, 0 different", comparison.calls, comparison.run);
    if !not_met.is_empty() {
        println!("differential: never met: {}", not_met.join("; "));
        println!(
            "differential: no difference, but {} cases were never met: it takes more calls",
            not_met.len()
        );
        process::exit(COVERAGE_NOT_MET);
    }
}
