//! Random numbers that a seed fixes (SplitMix64), or that are read from given bytes.

use std::ops::RangeInclusive;

#[derive(Clone, Debug)]
pub struct Random(Source);

#[derive(Clone, Debug)]
enum Source {
    Seed(u64),
    /// What is still to be read. A number takes no more bytes than it needs; after the last there is only 0.
    Bytes(Vec<u8>),
}

impl Random {
    pub fn new(seed: u64) -> Random {
        Random(Source::Seed(seed))
    }

    pub fn from_bytes(bytes: &[u8]) -> Random {
        Random(Source::Bytes(bytes.iter().rev().copied().collect()))
    }

    /// Given bytes have all been read; a seed never ends.
    pub fn is_exhausted(&self) -> bool {
        matches!(&self.0, Source::Bytes(rest) if rest.is_empty())
    }

    pub fn draw(&mut self) -> u64 {
        self.draw_bytes(8)
    }

    fn draw_bytes(&mut self, count: u32) -> u64 {
        match &mut self.0 {
            Source::Seed(state) => next(state),
            Source::Bytes(rest) => (0..count).fold(0, |n, _| n << 8 | u64::from(rest.pop().unwrap_or(0))),
        }
    }

    /// A number below a limit that is not 0.
    pub fn below(&mut self, limit: usize) -> usize {
        let bits = usize::BITS - (limit - 1).leading_zeros();
        (self.draw_bytes((bits + 7) / 8) % limit as u64) as usize
    }

    pub fn between(&mut self, range: RangeInclusive<usize>) -> usize {
        range.start() + self.below(range.end() - range.start() + 1)
    }

    /// Yes once in so many times.
    pub fn once_in(&mut self, times: usize) -> bool {
        self.below(times) == 0
    }

    pub fn byte(&mut self) -> u8 {
        self.draw_bytes(1) as u8
    }

    pub fn word(&mut self) -> u16 {
        self.draw_bytes(2) as u16
    }

    pub fn bytes(&mut self, length: usize) -> Vec<u8> {
        (0..length).map(|_| self.byte()).collect()
    }

    pub fn pick<T: Copy>(&mut self, items: &[T]) -> T {
        items[self.below(items.len())]
    }

    pub fn shuffle<T>(&mut self, items: &mut [T]) {
        for end in (1..items.len()).rev() {
            let other = self.below(end + 1);
            items.swap(end, other);
        }
    }
}

/// SplitMix64
fn next(state: &mut u64) -> u64 {
    *state = state.wrapping_add(0x9E37_79B9_7F4A_7C15);
    let mut z = *state;
    z = (z ^ (z >> 30)).wrapping_mul(0xBF58_476D_1CE4_E5B9);
    z = (z ^ (z >> 27)).wrapping_mul(0x94D0_49BB_1331_11EB);
    z ^ (z >> 31)
}
