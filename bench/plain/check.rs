//! The check: a table of 256 entries, one step for each byte. The register is held in 32 bits because that runs faster
//! than 16. Beside it, for comparison: the check of folded bytes, and what it takes to read them.

use std::convert::TryInto;

static TABLE: [u16; 256] = table();

const fn table() -> [u16; 256] {
    let mut table = [0; 256];
    let mut i = 0;
    while i < 256 {
        table[i] = entry(i as u16);
        i += 1;
    }
    table
}

const fn entry(index: u16) -> u16 {
    let mut entry = index << 8;
    let mut bit = 0;
    while bit < 8 {
        entry = if entry & 0x8000 == 0 { entry << 1 } else { entry << 1 ^ 0x1021 };
        bit += 1;
    }
    entry
}

fn run(start: u32, bytes: &[u8]) -> u32 {
    bytes
        .iter()
        .fold(start, |register, &byte| register >> 8 ^ u32::from(TABLE[usize::from(register as u8 ^ byte)]))
}

/// The check of any bytes.
#[inline(never)]
pub fn check(bytes: &[u8]) -> u16 {
    run(0, bytes) as u16
}

/// The check of any bytes, folded: runs of thirteen are laid over each other by exclusive or, as long as a byte follows,
/// and the table is used for what is left.
#[inline(never)]
pub fn folded(bytes: &[u8]) -> u16 {
    let word = |at: usize| u64::from_le_bytes(bytes[at..at + 8].try_into().expect("eight bytes"));
    let (mut low, mut high, mut at) = (0, 0, 0);
    while bytes.len() - at > 13 {
        low ^= word(at);
        high ^= word(at + 5);
        at += 13;
    }
    let mut block = [0; 13];
    block[..8].copy_from_slice(&u64::to_le_bytes(low));
    block[5..].copy_from_slice(&u64::to_le_bytes(high));
    let block = if at == 0 { &[][..] } else { &block[..] };
    run(run(0, block), &bytes[at..]) as u16
}

/// All bytes, eight at a time, by exclusive or: no check, but what it takes to read them.
#[inline(never)]
pub fn read(bytes: &[u8]) -> u16 {
    let words = bytes.chunks_exact(8);
    let rest = words.remainder().iter().fold(0, |sum, byte| sum ^ u64::from(*byte));
    words.map(|word| u64::from_le_bytes(word.try_into().expect("eight bytes"))).fold(rest, |sum, word| sum ^ word) as u16
}

/// The check of a message of at least 6 bytes, its check field taken as 0000.
pub(crate) fn message_check(message: &[u8]) -> u16 {
    let before = run(0, &message[..4]);
    run(run(before, &[0, 0]), &message[6..]) as u16
}
