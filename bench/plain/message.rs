//! Messages read and written.

use crate::check::{check, message_check};
use crate::{number, require};

pub const QUERY: u8 = 19;
pub const ANNOUNCE: u8 = 20;
pub const FRAGMENT: u8 = 21;
pub const DOWNLOAD: u8 = 22;
pub const EXECUTE: u8 = 23;
pub const RESULT: u8 = 24;

const START: [u8; 2] = [0xFF, 0xFE];
const PROTOCOL_VERSION: u8 = 0x01;
/// The bits of the version byte that count; the others are reserved.
const VERSION_BITS: u8 = 0x0F;
const HEADER: usize = 8;

pub const LEAST_SIZE: u16 = 32;
pub const MOST_SIZE: u16 = 1024;

/// A version text, filled up with 00.
pub type Version = [u8; 16];

/// What the caller knows of the device.
#[derive(Clone, Copy)]
pub struct Facts {
    pub supported: bool,
    pub pcp: bool,
}

#[derive(Clone, Copy)]
pub struct Announcement {
    pub version: Version,
    pub size: u16,
    pub total: u16,
    pub code: u16,
}

pub enum ToDevice<'a> {
    Query,
    Announce(Announcement),
    Fragment { index: u16, data: &'a [u8] },
    NoFragment { result: u8 },
    DownloadReply(u8),
    Execute,
    ResultReply,
}

pub enum ToGateway {
    QueryReply(Version),
    AnnounceReply(u8),
    FragmentRequest { version: Version, index: u16 },
    DownloadReport(u8),
    ExecuteReply(u8),
    ResultReport { result: u8, version: Version },
}

impl<'a> ToDevice<'a> {
    /// Refused with 1 to 8.
    pub fn read(facts: Facts, message: &'a [u8]) -> Result<ToDevice<'a>, u8> {
        recognise(facts, message)?;
        match (message[3], &message[HEADER..]) {
            (QUERY, []) => Ok(ToDevice::Query),
            (ANNOUNCE, data) => Announcement::read(data).map(ToDevice::Announce),
            (FRAGMENT, [0x00, high, low, data @ ..])
                if (1..=usize::from(MOST_SIZE)).contains(&data.len()) =>
            {
                Ok(ToDevice::Fragment { index: u16::from_be_bytes([*high, *low]), data })
            }
            (FRAGMENT, [result @ (0x80 | 0x81), _, _]) => Ok(ToDevice::NoFragment { result: *result }),
            (DOWNLOAD, [result @ (0x00 | 0x80)]) => Ok(ToDevice::DownloadReply(*result)),
            (EXECUTE, []) => Ok(ToDevice::Execute),
            (RESULT, [0x00 | 0x80]) => Ok(ToDevice::ResultReply),
            _ => Err(number::BAD_DATA),
        }
    }
}

impl Announcement {
    fn read(data: &[u8]) -> Result<Announcement, u8> {
        require(data.len() == 22, number::BAD_DATA)?;
        let version = version_in(&data[..16])?;
        let (size, total, code) = (word_at(data, 16), word_at(data, 18), word_at(data, 20));
        require(is_size(size) && total >= 1, number::BAD_DATA)?;
        Ok(Announcement { version, size, total, code })
    }
}

impl ToGateway {
    /// Refused with 1 to 8.
    pub fn read(facts: Facts, message: &[u8]) -> Result<ToGateway, u8> {
        recognise(facts, message)?;
        match (message[3], &message[HEADER..]) {
            (QUERY, [0x00, version @ ..]) => version_in(version).map(ToGateway::QueryReply),
            (ANNOUNCE, [result @ (0x00..=0x05 | 0x09 | 0x7F)]) => Ok(ToGateway::AnnounceReply(*result)),
            (FRAGMENT, [version @ .., high, low]) => {
                let index = u16::from_be_bytes([*high, *low]);
                version_in(version).map(|version| ToGateway::FragmentRequest { version, index })
            }
            (DOWNLOAD, [result @ (0x00 | 0x05..=0x08)]) => Ok(ToGateway::DownloadReport(*result)),
            (EXECUTE, [result @ (0x00 | 0x01 | 0x04 | 0x05 | 0x09)]) => Ok(ToGateway::ExecuteReply(*result)),
            (RESULT, [result, version @ ..]) if is_outcome(*result) => {
                version_in(version).map(|version| ToGateway::ResultReport { result: *result, version })
            }
            _ => Err(number::BAD_DATA),
        }
    }
}

/// The tests 1 to 7, in their order.
pub(crate) fn recognise(facts: Facts, message: &[u8]) -> Result<(), u8> {
    require(facts.supported, number::UNSUPPORTED)?;
    require(facts.pcp, number::OTHER_PROTOCOL)?;
    require(message.starts_with(&START), number::BAD_START)?;
    let version = message.get(2).map(|byte| byte & VERSION_BITS);
    require(version == Some(PROTOCOL_VERSION), number::BAD_PROTOCOL_VERSION)?;
    require(matches!(message.get(3), Some(QUERY..=RESULT)), number::BAD_CODE)?;
    let holds = message.len() >= HEADER && word_at(message, 4) == message_check(message);
    require(holds, number::BAD_CHECK)?;
    require(usize::from(word_at(message, 6)) == message.len() - HEADER, number::BAD_LENGTH)
}

/// Writes a message, its data given in parts, at the front of a buffer that has room for it.
pub fn write<'a>(buffer: &'a mut [u8], code: u8, data: &[&[u8]]) -> &'a [u8] {
    let mut end = HEADER;
    for part in data {
        buffer[end..end + part.len()].copy_from_slice(part);
        end += part.len();
    }
    let message = &mut buffer[..end];
    message[..4].copy_from_slice(&[START[0], START[1], PROTOCOL_VERSION, code]);
    message[4..6].fill(0);
    message[6..8].copy_from_slice(&((end - HEADER) as u16).to_be_bytes());
    let check = check(message);
    message[4..6].copy_from_slice(&check.to_be_bytes());
    message
}

fn word_at(bytes: &[u8], at: usize) -> u16 {
    u16::from_be_bytes([bytes[at], bytes[at + 1]])
}

fn version_in(data: &[u8]) -> Result<Version, u8> {
    let version = data.try_into().map_err(|_| number::BAD_DATA)?;
    require(is_version(&version), number::BAD_DATA)?;
    Ok(version)
}

/// Letters, digits, underscore, hyphen and dot.
fn is_version_character(byte: &u8) -> bool {
    matches!(byte, b'A'..=b'Z' | b'a'..=b'z' | b'0'..=b'9' | b'_' | b'-' | b'.')
}

pub fn is_version(version: &Version) -> bool {
    let length = version.iter().position(|&byte| byte == 0).unwrap_or(version.len());
    let (text, rest) = version.split_at(length);
    length > 0 && text.iter().all(is_version_character) && rest.iter().all(|&byte| byte == 0)
}

pub fn is_size(size: u16) -> bool {
    (LEAST_SIZE..=MOST_SIZE).contains(&size)
}

/// A code with which an installer can end.
pub fn is_outcome(code: u8) -> bool {
    matches!(code, 0x00 | 0x01 | 0x04 | 0x05 | 0x09 | 0x0A | 0x7F)
}
