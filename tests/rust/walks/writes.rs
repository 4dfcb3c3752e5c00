//! Records to be written: at every place of small buffers, with the longest messages, and at random.

use crate::reading::capture::{HEADER, MESSAGE_MOST};
use crate::support::random::Random;

/// A record to be written into a buffer, from a place on.
pub struct Write {
    pub toward: u8,
    pub message: Vec<u8>,
    pub buffer: Vec<u8>,
    pub at: usize,
}

/// Places from which no record fits anywhere; a sum with some of them does not fit a number.
pub const FAR: [usize; 8] = [
    1 << 32,
    isize::MAX as usize,
    usize::MAX - MESSAGE_MOST - HEADER,
    usize::MAX - HEADER - 1,
    usize::MAX - HEADER,
    usize::MAX - HEADER + 1,
    usize::MAX - 1,
    usize::MAX,
];

impl Write {
    /// Message and buffer have no byte in common at a place.
    fn new(toward: u8, length: usize, room: usize, at: usize) -> Write {
        let message = (0..length).map(|place| (place % 128) as u8).collect();
        let buffer = (0..room).map(|place| (place % 128) as u8 | 0x80).collect();
        Write { toward, message, buffer, at }
    }
}

pub fn all() -> Vec<Write> {
    let mut all = Vec::new();
    for room in 0..=14 {
        for length in 0..=room + 1 {
            for at in (0..=room + 2).chain(FAR) {
                all.extend([0, 1].map(|toward| Write::new(toward, length, room, at)));
            }
        }
    }
    for toward in 0..=255 {
        all.push(Write::new(toward, 3, 9, 1));
    }
    for length in [255, 256, 257, 65_534, 65_535, 65_536, 65_537, 131_071, 131_072] {
        for at in [0, 1, 5] {
            for room in at + HEADER + length - 1..=at + HEADER + length + 1 {
                all.push(Write::new(1, length, room, at));
            }
        }
        all.push(Write::new(0, length, 9, 0));
    }
    all
}

pub fn random(random: &mut Random) -> Write {
    let length = random.pick(&[0, 1, 2, 8, 30, 255, 256, 300]);
    let at = random.below(40);
    let room = (at + HEADER + length + random.below(6)).saturating_sub(3);
    let toward = random.pick(&[0, 1, 2, 255]);
    Write { toward, message: random.bytes(length), buffer: random.bytes(room), at }
}
