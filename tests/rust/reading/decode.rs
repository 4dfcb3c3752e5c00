//! What the decode program prints for its input: a capture as text, a line for each record, and one where the reader stops.

use super::capture::{Item, Reader};
use super::message::{ToDevice, ToGateway, Version, BOTH_FACTS};
use super::number;
use super::replay::INPUT_LIMIT;

/// The text that the program prints.
pub fn decode(input: &[u8]) -> String {
    if input.len() > INPUT_LIMIT {
        return format!("{}\n", number::CUT_SHORT);
    }
    let mut text = String::new();
    let mut reader = Reader::new(input);
    loop {
        let place = reader.place;
        match reader.next_record() {
            Item::Record { toward_device: true, message } => {
                text += &format!("{place} to-device {}\n", toward_device(message));
            }
            Item::Record { toward_device: false, message } => {
                text += &format!("{place} from-device {}\n", from_device(message));
            }
            Item::Fault(number) => return text + &format!("{place} {}\n", reason(number)),
            Item::End => return text,
        }
    }
}

fn toward_device(message: &[u8]) -> String {
    match ToDevice::read(BOTH_FACTS, message) {
        Err(number) => format!("none {}", reason(number)),
        Ok(ToDevice::Query) => "query".to_string(),
        Ok(ToDevice::Announce(fields)) => format!(
            "announce version {} size {} total {} code {:04X}",
            version(&fields.version),
            fields.size,
            fields.total,
            fields.code
        ),
        Ok(ToDevice::Fragment { result: 0x00, index, data }) => {
            format!("fragment result 00 index {index} data {}", data.len())
        }
        Ok(ToDevice::Fragment { result, index, .. }) => format!("fragment result {result:02X} index {index}"),
        Ok(ToDevice::DownloadResult { result }) => format!("download result {result:02X}"),
        Ok(ToDevice::Execute) => "execute".to_string(),
        Ok(ToDevice::UpgradeResult { result }) => format!("result result {result:02X}"),
    }
}

fn from_device(message: &[u8]) -> String {
    match ToGateway::read(BOTH_FACTS, message) {
        Err(number) => format!("none {}", reason(number)),
        Ok(ToGateway::Query { version: text }) => format!("query result 00 version {}", version(&text)),
        Ok(ToGateway::Announce { result }) => format!("announce result {result:02X}"),
        Ok(ToGateway::Fragment { version: text, index }) => {
            format!("fragment version {} index {index}", version(&text))
        }
        Ok(ToGateway::DownloadResult { result }) => format!("download result {result:02X}"),
        Ok(ToGateway::Execute { result }) => format!("execute result {result:02X}"),
        Ok(ToGateway::UpgradeResult { result, version: text }) => {
            format!("result result {result:02X} version {}", version(&text))
        }
    }
}

/// The text without its 00.
fn version(version: &Version) -> String {
    version.iter().take_while(|byte| **byte != 0).map(|byte| char::from(*byte)).collect()
}

/// Why there is no message, or no record.
fn reason(number: u8) -> String {
    let words = match number {
        number::START => "no FFFE",
        number::PROTOCOL_VERSION => "other protocol version",
        number::MESSAGE_CODE => "unknown code",
        number::CHECK => "wrong check",
        number::DATA_LENGTH => "wrong length",
        number::DATA => "bad data",
        number::MARK => "wrong mark",
        number::CUT_SHORT => "cut short",
        _ => unreachable!("a message is refused with 3 to 8, a record with 20 or 21"),
    };
    format!("{number} {words}")
}
