//! Messages and saves for the drivers.

use crate::random::Random;

/// The message of this code and data.
pub fn message(code: u8, data: &[u8]) -> Vec<u8> {
    let length = (data.len() as u16).to_be_bytes();
    let mut message = [&[0xFF, 0xFE, 0x01, code, 0, 0], &length[..], data].concat();
    let check = pcp::check_of_message(&message).to_be_bytes();
    message[4..6].copy_from_slice(&check);
    message
}

/// A version text, filled up.
pub fn text(version: &[u8]) -> [u8; 16] {
    let mut text = [0; 16];
    text[..version.len()].copy_from_slice(version);
    text
}

/// The device's answer to 19.
pub fn runs(version: &[u8]) -> Vec<u8> {
    message(19, &[&[0x00], &text(version)[..]].concat())
}

/// A request for a fragment.
pub fn asks(version: &[u8], index: u16) -> Vec<u8> {
    message(21, &[&text(version)[..], &index.to_be_bytes()].concat())
}

/// A report of an installation.
pub fn reports(code: u8, version: &[u8]) -> Vec<u8> {
    message(24, &[&[code], &text(version)[..]].concat())
}

/// An announcement.
pub fn announces(version: &[u8], size: u16, package: &[u8], code: u16) -> Vec<u8> {
    let total = ((package.len() + usize::from(size) - 1) / usize::from(size)) as u16;
    let words = [size.to_be_bytes(), total.to_be_bytes(), code.to_be_bytes()].concat();
    message(20, &[&text(version)[..], &words].concat())
}

/// A fragment.
pub fn fragment(package: &[u8], size: u16, index: u16) -> Vec<u8> {
    let from = usize::from(size) * usize::from(index);
    let to = (from + usize::from(size)).min(package.len());
    message(21, &[&[0x00], &index.to_be_bytes()[..], &package[from..to]].concat())
}

/// Something that may arrive: what was sent, now or earlier; a message of any kind; damaged; or any bytes.
pub fn any_message(random: &mut Random, sent: &mut Vec<Vec<u8>>) -> Vec<u8> {
    let version = random.pick(&[&b"V1.0"[..], b"V2.0"]);
    let mut arrived = match random.below(16) {
        0 if random.once_in(2) => runs(version),
        0 => message(19, &[]),
        1 => message(20, &[random.pick(&[0x00, 0x01, 0x02, 0x03, 0x04, 0x05, 0x09, 0x7F])]),
        2 => asks(version, random.word() % 80),
        3 => message(22, &[random.pick(&[0x00, 0x05, 0x07, 0x80])]),
        4 => message(23, &[random.pick(&[0x00, 0x01, 0x04])]),
        5 => reports(random.pick(&[0x00, 0x01, 0x0A]), version),
        6 => message(random.pick(&[23, 24]), &[]),
        7 => {
            let length = random.below(60);
            random.bytes(length)
        }
        _ if sent.is_empty() => Vec::new(),
        8 => sent[random.below(sent.len())].clone(),
        _ => sent.remove(0),
    };
    if sent.len() > 32 {
        sent.clear();
    }
    if !arrived.is_empty() && random.once_in(20) {
        let at = random.below(arrived.len());
        arrived[at] ^= 1 << random.below(8);
        if random.once_in(2) && arrived.len() > 8 {
            let check = pcp::check_of_message(&arrived).to_be_bytes();
            arrived[4..6].copy_from_slice(&check);
        }
    }
    arrived
}

/// What slots hold after a restart.
pub fn torn(random: &mut Random, slots: &[Vec<u8>; 2]) -> [Vec<u8>; 2] {
    [torn_slot(random, &slots[0]), torn_slot(random, &slots[1])]
}

/// Mostly what was written; or a part of it, damaged, nothing, or any bytes; or a save that is whole, but says something
/// else.
fn torn_slot(random: &mut Random, slot: &[u8]) -> Vec<u8> {
    let mut slot = slot.to_vec();
    match random.below(24) {
        0 => slot.truncate(random.below(slot.len() + 1)),
        1 => slot.clear(),
        2 => {
            let length = random.below(200);
            slot = random.bytes(length);
        }
        3 if !slot.is_empty() => {
            let at = random.below(slot.len());
            slot[at] = random.byte();
        }
        4 | 5 if slot.len() > 12 => {
            let at = random.below(slot.len());
            slot[at] = random.byte();
            sealed(&mut slot);
        }
        6 => slot.extend([0xA5; 40]),
        _ => {}
    }
    slot
}

/// Makes the CRC-32 of a save right.
pub fn sealed(save: &mut [u8]) {
    let mut crc = u32::MAX;
    for byte in save[..4].iter().chain(&save[8..]) {
        crc ^= u32::from(*byte);
        for _ in 0..8 {
            crc = if crc % 2 == 1 { crc / 2 ^ 0xEDB8_8320 } else { crc / 2 };
        }
    }
    save[4..8].copy_from_slice(&(!crc).to_be_bytes());
}
