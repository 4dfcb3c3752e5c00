//! Messages toward the device: valid ones, and ways to damage them.

use super::random::Random;
use crate::reading::message::{
    encode, set_check, Announcement, ToDevice, Version, FRAGMENT, GATEWAY_ROOM, HEADER, QUERY, UPGRADE_RESULT,
};

/// The bytes of a message that fits the table.
pub fn written(message: ToDevice) -> Vec<u8> {
    message.write(GATEWAY_ROOM).expect("the message fits the table")
}

pub fn query() -> Vec<u8> {
    written(ToDevice::Query)
}

pub fn announce(version: Version, size: u16, total: u16, code: u16) -> Vec<u8> {
    written(ToDevice::Announce(Announcement { version, size, total, code }))
}

pub fn fragment(index: u16, data: &[u8]) -> Vec<u8> {
    written(ToDevice::Fragment { result: 0x00, index, data })
}

/// The answer that a fragment is not to be had: 80 or 81.
pub fn no_fragment(result: u8, index: u16) -> Vec<u8> {
    written(ToDevice::Fragment { result, index, data: &[] })
}

pub fn download_result(result: u8) -> Vec<u8> {
    written(ToDevice::DownloadResult { result })
}

pub fn execute() -> Vec<u8> {
    written(ToDevice::Execute)
}

pub fn upgrade_result(result: u8) -> Vec<u8> {
    written(ToDevice::UpgradeResult { result })
}

/// An announcement of any fields, with its check.
pub fn any_announce(version: Version, size: u16, total: u16, code: u16) -> Vec<u8> {
    let mut message = announce(version_in_range(), 32, 1, 0);
    message[HEADER..HEADER + 16].copy_from_slice(&version);
    message[HEADER + 16..HEADER + 18].copy_from_slice(&size.to_be_bytes());
    message[HEADER + 18..HEADER + 20].copy_from_slice(&total.to_be_bytes());
    message[HEADER + 20..].copy_from_slice(&code.to_be_bytes());
    set_check(&mut message);
    message
}

fn version_in_range() -> Version {
    super::version("V")
}

/// Every message that differs from the given one in one bit.
pub fn bit_flips(message: &[u8]) -> Vec<Vec<u8>> {
    (0..message.len() * 8).map(|bit| flipped(message, bit)).collect()
}

fn flipped(message: &[u8], bit: usize) -> Vec<u8> {
    let mut damaged = message.to_vec();
    damaged[bit / 8] ^= 1 << (bit % 8);
    damaged
}

/// Every beginning of the message, and the message with one byte more.
pub fn other_lengths(message: &[u8]) -> Vec<Vec<u8>> {
    let longer = [message, &[0]].concat();
    let mut all: Vec<Vec<u8>> = (0..message.len()).map(|length| message[..length].to_vec()).collect();
    all.push(longer);
    all
}

/// The message with less and with more data, each with its length and check.
pub fn other_data_lengths(message: &[u8]) -> Vec<Vec<u8>> {
    let (code, data) = (message[3], &message[HEADER..]);
    let longer = [data, &[0, 0]].concat();
    (0..=longer.len()).map(|length| encode(code, &longer[..length])).collect()
}

/// Fragments of the least and the most data, and of more.
pub fn other_fragments() -> Vec<Vec<u8>> {
    let lengths = [0, 1, 499, 500, 501, 1_023, 1_024, 1_025, 1_026, 2_000];
    lengths.iter().map(|length| encode(FRAGMENT, &[&[0, 0, 0][..], &vec![0x5A; *length]].concat())).collect()
}

/// As `bit_flips` and `other_lengths`, but with the check made right where the field is there.
pub fn with_right_check(messages: Vec<Vec<u8>>) -> Vec<Vec<u8>> {
    messages
        .into_iter()
        .map(|mut message| {
            if message.len() >= HEADER {
                set_check(&mut message);
            }
            message
        })
        .collect()
}

/// Every code about the allowed ones, with data of 0 to 40 bytes that begin with each of some results.
pub fn other_data() -> Vec<Vec<u8>> {
    let mut all = Vec::new();
    for code in QUERY - 1..=UPGRADE_RESULT + 1 {
        for length in [0, 1, 2, 3, 4, 16, 17, 18, 19, 21, 22, 23, 40] {
            for result in [0x00, 0x01, 0x56, 0x7F, 0x80, 0x81, 0xFF] {
                let mut data = vec![0x30; length];
                if let Some(first) = data.first_mut() {
                    *first = result;
                }
                all.push(encode(code, &data));
            }
        }
    }
    all
}

/// One byte of data of every value, for the messages that carry a result; and fragments' results.
pub fn other_results() -> Vec<Vec<u8>> {
    let mut all = Vec::new();
    for result in 0..=255 {
        all.push(encode(22, &[result]));
        all.push(encode(24, &[result]));
        all.push(encode(FRAGMENT, &[result, 0xFF, 0xFF]));
        all.push(encode(FRAGMENT, &[result, 0xFF, 0xFF, 0x30]));
    }
    all
}

/// Announcements at the edges of the table.
pub fn other_announcements() -> Vec<Vec<u8>> {
    let text = super::version("V7.7");
    let mut all = Vec::new();
    for size in [0, 1, 31, 32, 33, 499, 500, 501, 1_023, 1_024, 1_025, 0x2000, 0x0004, 0xF401, 0xFFFF] {
        for total in [0, 1, 2, 0x0100, 0xFFFF] {
            all.push(any_announce(text, size, total, 0));
        }
    }
    all.push(any_announce([0; 16], 32, 1, 0));
    for place in 0..16 {
        for byte in [
            0x00, 0x01, 0x20, 0x2C, 0x2D, 0x2E, 0x2F, 0x39, 0x3A, 0x40, 0x5A, 0x5B, 0x5F, 0x60, 0x7A, 0x7B,
            0x7F, 0x80, 0xFF,
        ] {
            let mut version = [0x41; 16];
            version[place] = byte;
            all.push(any_announce(version, 32, 1, 0));
            let mut version = text;
            version[place] = byte;
            all.push(any_announce(version, 32, 1, 0));
        }
    }
    all
}

/// The message with any reserved bits in its version byte, and their check.
pub fn with_reserved_bits(message: &[u8], bits: u8) -> Vec<u8> {
    with_version_byte(message, bits << 4 | 0x01)
}

/// The message with another version byte, and its check.
pub fn with_version_byte(message: &[u8], version: u8) -> Vec<u8> {
    let mut other = message.to_vec();
    other[2] = version;
    set_check(&mut other);
    other
}

/// Another version byte, mostly a good one with reserved bits; mostly with its check.
pub fn other_version_byte(random: &mut Random, message: &[u8]) -> Vec<u8> {
    let version = (random.below(16) as u8) << 4 | random.pick(&[1, 1, 1, 1, 0, 2, 9]);
    let mut other = with_version_byte(message, version);
    if random.once_in(4) {
        other[4..6].copy_from_slice(&message[4..6]);
    }
    other
}

/// One random damage; sometimes with the check made right again, and sometimes one that the check does not show.
pub fn damaged(random: &mut Random, message: &[u8]) -> Vec<u8> {
    let mut damaged = message.to_vec();
    match random.below(8) {
        0 => damaged = flipped(message, random.below(message.len() * 8)),
        1 => damaged.truncate(random.below(message.len())),
        2 => damaged.extend(random.bytes(3)),
        3 => damaged[random.below(4)] = random.byte(),
        4 => damaged[6 + random.below(2)] = random.byte(),
        5 => damaged = flipped(&damaged, 8 * (random.below(message.len() - 6) + 6)),
        6 if message.len() > HEADER => {
            // These two neighbours leave the check the same.
            let place = 6 + random.below(message.len() - 7);
            damaged[place] ^= 0x0A;
            damaged[place + 1] ^= 0xC3;
            return damaged;
        }
        _ => damaged = noise(random),
    }
    if damaged.len() >= HEADER && random.once_in(2) {
        set_check(&mut damaged);
    }
    damaged
}

fn noise(random: &mut Random) -> Vec<u8> {
    let limit = random.pick(&[4, 30, 1_200]);
    let length = random.below(limit);
    random.bytes(length)
}
