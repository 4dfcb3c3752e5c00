//! What the test programs share: random numbers, messages, captures, inputs of the replay program, signals.

// Each test program uses a part of it.
#![allow(dead_code)]

pub mod captures;
pub mod inputs;
pub mod messages;
pub mod random;
pub mod signals;

use crate::reading::message::Version;

/// A version text of 1 to 16 bytes, filled up with 00.
pub fn version(text: &str) -> Version {
    let mut version = [0; 16];
    version[..text.len()].copy_from_slice(text.as_bytes());
    version
}

/// The bytes that hexadecimal digits name; blanks between them are skipped.
pub fn bytes(digits: &str) -> Vec<u8> {
    let digits: Vec<u32> = digits.chars().filter_map(|digit| digit.to_digit(16)).collect();
    digits.chunks(2).map(|pair| (pair[0] * 16 + pair[1]) as u8).collect()
}
