//! What stands in a message, for people: its fields as they are, be they allowed or not. What is allowed, the library
//! says.

use pcp::capture::Direction;
use pcp::Code;

/// A message by its code, its direction and the length of its data.
#[derive(Clone, Copy, Debug, PartialEq, Eq)]
pub enum Fields<'m> {
    Query,
    Announcement {
        version: &'m [u8],
        size: u16,
        total: u16,
        code: u16,
    },
    Fragment {
        result: u8,
        index: u16,
        data: &'m [u8],
    },
    Execute,
    Running {
        result: u8,
        version: &'m [u8],
    },
    Request {
        version: &'m [u8],
        index: u16,
    },
    UpgradeResult {
        result: u8,
        version: &'m [u8],
    },
    /// The answers that are a result alone, and the download's result.
    Result {
        code: Code,
        result: u8,
    },
    /// Another start, another code, or another length.
    Other,
}

/// How a message begins, and the bytes before its data.
const START: [u8; 2] = [0xFF, 0xFE];
const HEADER: usize = 8;

impl<'m> Fields<'m> {
    pub fn of(direction: Direction, message: &'m [u8]) -> Fields<'m> {
        match (Code::of(message), message.get(HEADER..)) {
            (Some(code), Some(data)) if message.starts_with(&START) => Fields::split(direction, code, data),
            _ => Fields::Other,
        }
    }

    fn split(direction: Direction, code: Code, data: &'m [u8]) -> Fields<'m> {
        match (direction, code, data) {
            (Direction::ToDevice, Code::Query, []) => Fields::Query,
            (Direction::ToDevice, Code::Announce, _) if data.len() == 22 => Fields::Announcement {
                version: &data[..16],
                size: word(data, 16),
                total: word(data, 18),
                code: word(data, 20),
            },
            (Direction::ToDevice, Code::Fragment, [result, _, _, rest @ ..]) => {
                Fields::Fragment { result: *result, index: word(data, 1), data: rest }
            }
            (Direction::ToDevice, Code::Execute, []) => Fields::Execute,
            (Direction::FromDevice, Code::Query, [result, version @ ..]) if version.len() == 16 => {
                Fields::Running { result: *result, version }
            }
            (Direction::FromDevice, Code::Fragment, _) if data.len() == 18 => {
                Fields::Request { version: &data[..16], index: word(data, 16) }
            }
            (Direction::FromDevice, Code::UpgradeResult, [result, version @ ..]) if version.len() == 16 => {
                Fields::UpgradeResult { result: *result, version }
            }
            (Direction::ToDevice, Code::DownloadResult | Code::UpgradeResult, [result])
            | (Direction::FromDevice, Code::Announce | Code::DownloadResult | Code::Execute, [result]) => {
                Fields::Result { code, result: *result }
            }
            _ => Fields::Other,
        }
    }
}

/// A message in a line: its code and name, and its most telling fields.
pub fn label(direction: Direction, message: &[u8]) -> String {
    let toward = direction == Direction::ToDevice;
    match Fields::of(direction, message) {
        Fields::Query => "19 query".to_string(),
        Fields::Announcement { version, size, total, code } => {
            let code = if code == 0 { "no code".to_string() } else { format!("code {code:04X}") };
            let fragments = if total == 1 { "fragment" } else { "fragments" };
            format!("20 announce {}, {total} {fragments} of {size} bytes, {code}", text(version))
        }
        Fields::Fragment { result: 0x00, index, data } => {
            format!("21 fragment {index}, {} bytes", data.len())
        }
        Fields::Fragment { result, index, .. } => format!("21 fragment {index}: {}", result_text(result)),
        Fields::Execute => "23 execute".to_string(),
        Fields::Running { result: 0x00, version } => format!("19 query answer: {} runs", text(version)),
        Fields::Running { result, version } => {
            format!("19 query answer: {}, {} runs", result_text(result), text(version))
        }
        Fields::Request { version, index } => format!("21 asks for fragment {index} of {}", text(version)),
        Fields::UpgradeResult { result, version } => {
            format!("24 upgrade result: {}, {} runs", result_text(result), text(version))
        }
        Fields::Result { code, result } => {
            let answer = if code == Code::DownloadResult && !toward { "" } else { " answer" };
            format!("{} {}{answer}: {}", code as u8, name(code), result_text(result))
        }
        Fields::Other => format!("{} bytes {}", message.len(), first_bytes(message)),
    }
}

/// A message's name, as the header has it.
fn name(code: Code) -> &'static str {
    match code {
        Code::Query => "query",
        Code::Announce => "announce",
        Code::Fragment => "fragment",
        Code::DownloadResult => "download result",
        Code::Execute => "execute",
        Code::UpgradeResult => "upgrade result",
    }
}

/// A result byte, and what it says in any message that may carry it.
fn result_text(result: u8) -> String {
    let meaning = match result {
        0x00 => "yes",
        0x01 => "busy",
        0x02 => "weak signal",
        0x03 => "this version runs",
        0x04 => "low power",
        0x05 => "no space",
        0x06 => "timed out",
        0x07 => "download failed",
        0x08 => "package not supported",
        0x09 => "no memory",
        0x0A => "installation failed",
        0x7F => "internal error",
        0x80 => "no such upgrade",
        0x81 => "no such fragment",
        _ => "unknown",
    };
    format!("{result:02X} {meaning}")
}

/// A version's text without what fills it up; bytes that are no text are shown in hex.
pub fn text(version: &[u8]) -> String {
    let filling = version.iter().rev().take_while(|byte| **byte == 0).count();
    version[..version.len() - filling].escape_ascii().to_string()
}

/// So many of its first bytes as tell what it may be.
fn first_bytes(message: &[u8]) -> String {
    const SHOWN: usize = 12;
    let shown: String = message.iter().take(SHOWN).map(|byte| format!("{byte:02X}")).collect();
    if message.len() > SHOWN {
        shown + ".."
    } else {
        shown
    }
}

fn word(data: &[u8], at: usize) -> u16 {
    u16::from_be_bytes([data[at], data[at + 1]])
}
