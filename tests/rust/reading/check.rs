//! The check of messages and packages (01, "The message and its check").

/// The 256 entries of the table.
pub static TABLE: [u16; 256] = table();

const fn table() -> [u16; 256] {
    let mut entries = [0; 256];
    let mut i = 0;
    while i < 256 {
        entries[i] = entry(i as u16);
        i += 1;
    }
    entries
}

/// Entry i: i times 256, doubled eight times.
const fn entry(i: u16) -> u16 {
    let mut value = i * 256;
    let mut doublings = 0;
    while doublings < 8 {
        value = double(value);
        doublings += 1;
    }
    value
}

/// Doubling that drops bit 16 and then applies hex 1021.
const fn double(value: u16) -> u16 {
    let doubled = value as u32 * 2;
    if doubled >= 65_536 {
        (doubled - 65_536) as u16 ^ 0x1021
    } else {
        doubled as u16
    }
}

/// The register after one more byte.
pub fn step(register: u16, byte: u8) -> u16 {
    (register / 256) ^ TABLE[usize::from((register ^ u16::from(byte)) % 256)]
}

/// The register after more bytes.
fn run(register: u16, bytes: &[u8]) -> u16 {
    bytes.iter().fold(register, |register, &byte| step(register, byte))
}

/// The check over bytes as they stand, from register 0.
pub fn check(bytes: &[u8]) -> u16 {
    run(0, bytes)
}

/// The check over a message, as if its check field were 0000. What a short message lacks of it does not count.
pub fn message_check(message: &[u8]) -> u16 {
    let (before, rest) = message.split_at(message.len().min(4));
    let (field, after) = rest.split_at(rest.len().min(2));
    run(run(run(0, before), &[0, 0][..field.len()]), after)
}
