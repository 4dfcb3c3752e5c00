//! A libFuzzer target: the input's bytes decide a run of both ends, as the differential runner's seed does. It stops
//! at a call that the library and the reading answer differently.

#![no_main]

#[path = "../rust/calls/mod.rs"]
mod calls;
#[path = "../rust/reading/mod.rs"]
mod reading;
#[path = "../rust/support/mod.rs"]
mod support;

use calls::comparison::Comparison;
use calls::run::{Run, Scale};
use std::{process, slice};
use support::random::Random;

/// libFuzzer's bytes may be null where there are none.
#[export_name = "LLVMFuzzerTestOneInput"]
pub extern "C" fn test_one_input(bytes: *const u8, length: usize) -> i32 {
    let input = if length == 0 { &[][..] } else { unsafe { slice::from_raw_parts(bytes, length) } };
    let mut run = Run::new(Random::from_bytes(input), Scale::Small);
    let mut comparison = Comparison::new(0);
    while !run.is_exhausted() {
        if let Err(difference) = comparison.step(&mut run, |_| ()) {
            print!("{difference}");
            process::abort();
        }
    }
    0
}
