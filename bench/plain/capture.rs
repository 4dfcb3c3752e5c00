//! Captures: where mending goes on.

use crate::message::{recognise, Facts};

const MARKS: [[u8; 2]; 2] = [[0x4C, 0x3E], [0x4C, 0x3C]];

/// The first place from this one on from which a whole record can be read whose message is one of PCP; else the end.
#[inline(never)]
pub fn first_sound(capture: &[u8], from: usize) -> usize {
    (from..capture.len()).find(|at| is_sound(&capture[*at..])).unwrap_or(capture.len())
}

fn is_sound(rest: &[u8]) -> bool {
    match rest {
        [first, second, high, low, message @ ..] if MARKS.contains(&[*first, *second]) => {
            let length = usize::from(u16::from_be_bytes([*high, *low]));
            let facts = Facts { supported: true, pcp: true };
            message.get(..length).map_or(false, |message| recognise(facts, message).is_ok())
        }
        _ => false,
    }
}
