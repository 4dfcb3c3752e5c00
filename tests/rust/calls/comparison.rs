//! One call made at the reading, at the library's exports, and by the types for Rust hosts, from the same memory; result
//! and memory are compared whole.

use super::library::Library;
use super::run::Run;
use super::wrapper::Wrapper;
use super::{Call, Lent, Memory};
use crate::reading::boundary::{Boundary, Reading};
use crate::reading::replay::hex;
use crate::support::signals::Work;
use std::fmt::Write;

/// The call at work, and where it stands among all.
pub struct Comparison {
    pub seed: u64,
    pub run: u64,
    pub calls: u64,
    call: Call,
    lent: Lent,
    before: Memory,
    /// What the call of the side that is compared has left.
    side: Memory,
}

/// A call that all sides answered in the same way.
pub struct Made<'a> {
    pub call: Call,
    pub lent: Lent,
    pub result: u32,
    pub before: &'a Memory,
    pub after: &'a Memory,
}

impl Comparison {
    pub fn new(seed: u64) -> Comparison {
        Comparison {
            seed,
            run: 0,
            calls: 0,
            call: Call::Check,
            lent: Lent { record: 0, image: 0, map: 0, package: 0, reply: 0 },
            before: Memory::default(),
            side: Memory::default(),
        }
    }

    /// Makes the run's next call on all sides, and shows it to the observer. A difference is described.
    pub fn step(&mut self, run: &mut Run, observe: impl FnOnce(Made)) -> Result<(), String> {
        let (call, lent) = run.next_call();
        let result = self.make(call, lent, &mut run.memory)?;
        observe(Made { call, lent, result, before: &self.before, after: &run.memory });
        run.called(call, result);
        Ok(())
    }

    /// Makes a call on all sides, and gives back its result; the memory is as the reading left it.
    pub fn make(&mut self, call: Call, lent: Lent, memory: &mut Memory) -> Result<u32, String> {
        self.calls += 1;
        (self.call, self.lent) = (call, lent);
        self.before.copy_from(memory);
        let result = call.make(&Reading, &lent, memory);
        self.compare("library", &Library, result, memory)?;
        self.compare("wrapper", &Wrapper, result, memory)?;
        Ok(result)
    }

    /// Makes the call at work on this side too.
    fn compare(
        &mut self,
        name: &str,
        side: &impl Boundary,
        expected: u32,
        reading: &Memory,
    ) -> Result<(), String> {
        self.side.copy_from(&self.before);
        let got = self.call.make(side, &self.lent, &mut self.side);
        if got == expected && self.side == *reading {
            Ok(())
        } else {
            Err(self.described() + &self.differences(name, got, expected, reading))
        }
    }

    fn differences(&self, side: &str, got: u32, expected: u32, reading: &Memory) -> String {
        let shown = |result: u32| format!("number {}, reply of {}", result % 256, result / 256);
        let mut text = format!("{side}: {}\nreading: {}\n", shown(got), shown(expected));
        for ((name, got), (_, expected)) in self.side.buffers().into_iter().zip(reading.buffers()) {
            if let Some(at) = (0..got.len()).find(|at| got[*at] != expected[*at]) {
                let (got, expected) = (hex(got), hex(expected));
                writeln!(text, "{name} differs from byte {at} on\n{side}: {got}\nreading: {expected}")
                    .expect("a string takes any text");
            }
        }
        text
    }
}

impl Work for Comparison {
    fn described(&self) -> String {
        let Comparison { seed, run, calls, call, lent, before, .. } = self;
        let mut text = format!("seed {seed}, run {run}, call {calls}: {call:?}\nlent: {lent:?}\n");
        for (name, bytes) in before.buffers() {
            writeln!(text, "{name} ({} bytes): {}", bytes.len(), hex(bytes))
                .expect("a string takes any text");
        }
        text
    }
}
