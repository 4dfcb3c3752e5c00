//! Recognising, reading and writing messages (01, "The message and its check" and "Recognising a message").

use super::check::message_check;
use super::{number, require};
use std::ops::RangeInclusive;

pub const QUERY: u8 = 19;
pub const ANNOUNCE: u8 = 20;
pub const FRAGMENT: u8 = 21;
pub const DOWNLOAD_RESULT: u8 = 22;
pub const EXECUTE: u8 = 23;
pub const UPGRADE_RESULT: u8 = 24;

/// Bytes before the data.
pub const HEADER: usize = 8;
/// The shortest reply buffer at the device, and at the gateway (number 15).
pub const DEVICE_ROOM: usize = 26;
pub const GATEWAY_ROOM: usize = 1_035;

/// Fragment sizes that may be announced (02, 2026-08).
pub const SIZES: RangeInclusive<u16> = 32..=1_024;

/// The result bytes of the table, by message.
pub const ANNOUNCE_ANSWERS: [u8; 8] = [0x00, 0x01, 0x02, 0x03, 0x04, 0x05, 0x09, 0x7F];
pub const DOWNLOAD_RESULTS: [u8; 5] = [0x00, 0x05, 0x06, 0x07, 0x08];
pub const EXECUTE_ANSWERS: [u8; 5] = [0x00, 0x01, 0x04, 0x05, 0x09];
pub const UPGRADE_RESULTS: [u8; 7] = [0x00, 0x01, 0x04, 0x05, 0x09, 0x0A, 0x7F];
pub const GATEWAY_ANSWERS: [u8; 2] = [0x00, 0x80];

/// A version as it stands in messages: its text, filled up with 00.
pub type Version = [u8; 16];

/// What the console takes in a version (02, 2026-04): letters, digits, underscore, hyphen and dot.
fn is_version_character(byte: &u8) -> bool {
    byte.is_ascii_alphanumeric() || b"_-.".contains(byte)
}

/// Text of at least one such byte, and nothing but 00 behind it.
pub fn is_version(version: &Version) -> bool {
    let text = version.iter().take_while(|byte| is_version_character(byte)).count();
    text >= 1 && version[text..].iter().all(|byte| *byte == 0)
}

/// The two yes/no facts that recognition gets from its caller.
#[derive(Clone, Copy, Debug, PartialEq, Eq)]
pub struct Facts {
    pub supported: bool,
    pub is_pcp: bool,
}

pub const BOTH_FACTS: Facts = Facts { supported: true, is_pcp: true };

/// Source 000's tests in their order. A field that is not all there counts as wrong. Of the version byte only the lower
/// four bits count (02, 2026-01).
pub fn recognise(facts: Facts, message: &[u8]) -> Result<(), u8> {
    require(facts.supported, number::UNSUPPORTED)?;
    require(facts.is_pcp, number::NOT_PCP)?;
    require(message.starts_with(&[0xFF, 0xFE]), number::START)?;
    require(message.get(2).map(|byte| byte & 0x0F) == Some(0x01), number::PROTOCOL_VERSION)?;
    require(matches!(message.get(3), Some(QUERY..=UPGRADE_RESULT)), number::MESSAGE_CODE)?;
    require(message.len() >= HEADER && word(message, 4) == message_check(message), number::CHECK)?;
    require(usize::from(word(message, 6)) == message.len() - HEADER, number::DATA_LENGTH)
}

/// The four fields of an announcement.
#[derive(Clone, Copy, Debug, PartialEq, Eq)]
pub struct Announcement {
    pub version: Version,
    pub size: u16,
    pub total: u16,
    pub code: u16,
}

impl Announcement {
    fn fits(&self) -> bool {
        is_version(&self.version) && SIZES.contains(&self.size) && self.total >= 1
    }

    fn data(&self) -> Vec<u8> {
        [&self.version[..], &self.size.to_be_bytes(), &self.total.to_be_bytes(), &self.code.to_be_bytes()]
            .concat()
    }

    /// The image that the download needs: size times total.
    pub fn image_length(&self) -> usize {
        usize::from(self.size) * usize::from(self.total)
    }

    /// The map that the download needs: one bit for each fragment, in whole bytes.
    pub fn map_length(&self) -> usize {
        rounded_up(self.total.into(), 8)
    }
}

/// The six messages that a device gets.
#[derive(Clone, Copy, Debug, PartialEq, Eq)]
pub enum ToDevice<'a> {
    Query,
    Announce(Announcement),
    Fragment { result: u8, index: u16, data: &'a [u8] },
    DownloadResult { result: u8 },
    Execute,
    UpgradeResult { result: u8 },
}

impl<'a> ToDevice<'a> {
    /// Recognition, then the table's column for the device.
    pub fn read(facts: Facts, message: &'a [u8]) -> Result<ToDevice<'a>, u8> {
        recognise(facts, message)?;
        ToDevice::split(message[3], &message[HEADER..]).filter(ToDevice::fits).ok_or(number::DATA)
    }

    /// The buffer, then the fields.
    pub fn write(&self, room: usize) -> Result<Vec<u8>, u8> {
        require(room >= GATEWAY_ROOM, number::REPLY_BUFFER)?;
        require(self.fits(), number::DATA)?;
        Ok(encode(self.code(), &self.data()))
    }

    fn split(code: u8, data: &'a [u8]) -> Option<ToDevice<'a>> {
        match (code, data) {
            (QUERY, []) => Some(ToDevice::Query),
            (ANNOUNCE, _) if data.len() == 22 => Some(ToDevice::Announce(Announcement {
                version: version_at(data, 0),
                size: word(data, 16),
                total: word(data, 18),
                code: word(data, 20),
            })),
            (FRAGMENT, [result, high, low, rest @ ..]) => Some(ToDevice::Fragment {
                result: *result,
                index: u16::from_be_bytes([*high, *low]),
                data: rest,
            }),
            (DOWNLOAD_RESULT, [result]) => Some(ToDevice::DownloadResult { result: *result }),
            (EXECUTE, []) => Some(ToDevice::Execute),
            (UPGRADE_RESULT, [result]) => Some(ToDevice::UpgradeResult { result: *result }),
            _ => None,
        }
    }

    /// Whether the fields are those of the table.
    fn fits(&self) -> bool {
        match self {
            ToDevice::Query | ToDevice::Execute => true,
            ToDevice::Announce(announcement) => announcement.fits(),
            ToDevice::Fragment { result: 0x00, data, .. } => (1..=1_024).contains(&data.len()),
            ToDevice::Fragment { result: 0x80 | 0x81, data, .. } => data.is_empty(),
            ToDevice::Fragment { .. } => false,
            ToDevice::DownloadResult { result } | ToDevice::UpgradeResult { result } => {
                GATEWAY_ANSWERS.contains(result)
            }
        }
    }

    fn code(&self) -> u8 {
        match self {
            ToDevice::Query => QUERY,
            ToDevice::Announce(_) => ANNOUNCE,
            ToDevice::Fragment { .. } => FRAGMENT,
            ToDevice::DownloadResult { .. } => DOWNLOAD_RESULT,
            ToDevice::Execute => EXECUTE,
            ToDevice::UpgradeResult { .. } => UPGRADE_RESULT,
        }
    }

    fn data(&self) -> Vec<u8> {
        match self {
            ToDevice::Query | ToDevice::Execute => Vec::new(),
            ToDevice::Announce(announcement) => announcement.data(),
            ToDevice::Fragment { result, index, data } => {
                [&[*result][..], &index.to_be_bytes(), data].concat()
            }
            ToDevice::DownloadResult { result } | ToDevice::UpgradeResult { result } => {
                vec![*result]
            }
        }
    }
}

/// The six messages that a gateway gets. The answer to a query always carries result 00.
#[derive(Clone, Copy, Debug, PartialEq, Eq)]
pub enum ToGateway {
    Query { version: Version },
    Announce { result: u8 },
    Fragment { version: Version, index: u16 },
    DownloadResult { result: u8 },
    Execute { result: u8 },
    UpgradeResult { result: u8, version: Version },
}

impl ToGateway {
    /// Recognition, then the table's column for the gateway.
    pub fn read(facts: Facts, message: &[u8]) -> Result<ToGateway, u8> {
        recognise(facts, message)?;
        ToGateway::split(message[3], &message[HEADER..]).filter(ToGateway::fits).ok_or(number::DATA)
    }

    /// The buffer, then the fields.
    pub fn write(&self, room: usize) -> Result<Vec<u8>, u8> {
        require(room >= DEVICE_ROOM, number::REPLY_BUFFER)?;
        require(self.fits(), number::DATA)?;
        Ok(encode(self.code(), &self.data()))
    }

    fn split(code: u8, data: &[u8]) -> Option<ToGateway> {
        match (code, data) {
            (QUERY, [0x00, ..]) if data.len() == 17 => {
                Some(ToGateway::Query { version: version_at(data, 1) })
            }
            (ANNOUNCE, [result]) => Some(ToGateway::Announce { result: *result }),
            (FRAGMENT, _) if data.len() == 18 => {
                Some(ToGateway::Fragment { version: version_at(data, 0), index: word(data, 16) })
            }
            (DOWNLOAD_RESULT, [result]) => Some(ToGateway::DownloadResult { result: *result }),
            (EXECUTE, [result]) => Some(ToGateway::Execute { result: *result }),
            (UPGRADE_RESULT, [result, ..]) if data.len() == 17 => {
                Some(ToGateway::UpgradeResult { result: *result, version: version_at(data, 1) })
            }
            _ => None,
        }
    }

    /// Whether the fields are those of the table.
    fn fits(&self) -> bool {
        match self {
            ToGateway::Query { version } | ToGateway::Fragment { version, .. } => is_version(version),
            ToGateway::Announce { result } => ANNOUNCE_ANSWERS.contains(result),
            ToGateway::DownloadResult { result } => DOWNLOAD_RESULTS.contains(result),
            ToGateway::Execute { result } => EXECUTE_ANSWERS.contains(result),
            ToGateway::UpgradeResult { result, version } => {
                UPGRADE_RESULTS.contains(result) && is_version(version)
            }
        }
    }

    fn code(&self) -> u8 {
        match self {
            ToGateway::Query { .. } => QUERY,
            ToGateway::Announce { .. } => ANNOUNCE,
            ToGateway::Fragment { .. } => FRAGMENT,
            ToGateway::DownloadResult { .. } => DOWNLOAD_RESULT,
            ToGateway::Execute { .. } => EXECUTE,
            ToGateway::UpgradeResult { .. } => UPGRADE_RESULT,
        }
    }

    fn data(&self) -> Vec<u8> {
        match self {
            ToGateway::Query { version } => [&[0x00][..], version].concat(),
            ToGateway::Fragment { version, index } => [&version[..], &index.to_be_bytes()].concat(),
            ToGateway::UpgradeResult { result, version } => [&[*result][..], version].concat(),
            ToGateway::Announce { result }
            | ToGateway::DownloadResult { result }
            | ToGateway::Execute { result } => {
                vec![*result]
            }
        }
    }
}

/// A message of any code and data, with its check. The data must be below 65,536 bytes.
pub fn encode(code: u8, data: &[u8]) -> Vec<u8> {
    let length = u16::try_from(data.len()).expect("data of a message fits its length field");
    let mut message = vec![0xFF, 0xFE, 0x01, code, 0, 0];
    message.extend(length.to_be_bytes());
    message.extend(data);
    set_check(&mut message);
    message
}

/// Writes the check field of a message of at least 6 bytes.
pub fn set_check(message: &mut [u8]) {
    let check = message_check(message);
    message[4..6].copy_from_slice(&check.to_be_bytes());
}

/// A length over a size, rounded up.
pub fn rounded_up(length: usize, size: usize) -> usize {
    let whole = length / size;
    if whole * size == length {
        whole
    } else {
        whole + 1
    }
}

/// The WORD at a place, high byte first.
fn word(bytes: &[u8], at: usize) -> u16 {
    u16::from_be_bytes([bytes[at], bytes[at + 1]])
}

fn version_at(data: &[u8], at: usize) -> Version {
    let mut version = [0; 16];
    version.copy_from_slice(&data[at..at + 16]);
    version
}
