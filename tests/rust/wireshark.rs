//! What Wireshark has to show of a capture, by the second reading, for the comparison with hosts/wireshark/pcp.lua:
//!
//! - `wireshark capture` writes a capture of messages of all kinds, in both directions, allowed or not
//! - `wireshark header CAPTURE` prints a line for each record: its direction, the number of the first of the tests 3 to 8
//!   that it fails, and the header's fields; of bytes that are no record, these
//! - `wireshark data CAPTURE` prints the fields of the data where that number is 0
//!
//! Between fields there is a tab, and one that is not there is empty, as tshark prints them.

mod reading;
mod support;

use reading::capture::{Mended, Reader, FROM_DEVICE, TOWARD_DEVICE};
use reading::check::message_check;
use reading::message::{encode, ToDevice, ToGateway, Version, BOTH_FACTS, DEVICE_ROOM, HEADER};
use reading::number_of;
use reading::replay::hex;
use std::io::{self, Write};
use std::process::ExitCode;
use std::{env, fs};
use support::captures::{four_messages, Writer};
use support::messages;
use support::random::Random;
use support::version;

const SEED: u64 = 1;
const DAMAGED: usize = 3_000;

/// Every message toward the gateway that is allowed, and some of each kind toward the device.
fn good_messages() -> Vec<Vec<u8>> {
    let text = version("V1.0-rc_2");
    let results = |message: fn(u8) -> ToGateway| {
        (0..=255).filter_map(move |result| message(result).write(DEVICE_ROOM).ok())
    };
    let mut all = four_messages();
    all.extend([messages::no_fragment(0x80, 3), messages::no_fragment(0x81, 65_535)]);
    all.extend([0x00, 0x80].map(messages::download_result));
    all.extend([0x00, 0x80].map(messages::upgrade_result));
    all.push(messages::announce(version("ABCDEFGHIJKLMNOP"), 1_024, 65_535, 0xFFFF));
    all.push(messages::fragment(65_535, &[0x5A; 1_024]));
    all.extend(results(|result| ToGateway::Announce { result }));
    all.extend(results(|result| ToGateway::DownloadResult { result }));
    all.extend(results(|result| ToGateway::Execute { result }));
    all.extend(results(|result| ToGateway::UpgradeResult { result, version: version("-") }));
    for message in [ToGateway::Query { version: text }, ToGateway::Fragment { version: text, index: 513 }] {
        all.push(message.write(DEVICE_ROOM).expect("the message fits the table"));
    }
    all
}

fn all_messages() -> Vec<Vec<u8>> {
    let good = good_messages();
    let mut all = good.clone();
    for message in &good {
        if message.len() < 100 {
            all.extend(messages::bit_flips(message));
            all.extend(messages::with_right_check(messages::bit_flips(message)));
            all.extend(messages::other_lengths(message));
            all.extend(messages::with_right_check(messages::other_lengths(message)));
            all.extend(messages::other_data_lengths(message));
        }
    }
    all.extend(messages::other_fragments());
    all.extend(messages::other_data());
    all.extend(messages::other_results());
    all.extend(messages::other_announcements());
    all.extend((0..=255).map(|result| encode(20, &[result])));
    all.extend((0..=255).map(|result| encode(23, &[result])));
    all.extend((0..=255).map(|result| encode(24, &[&[result][..], &version("V2.0")].concat())));
    all.extend((0..=255).map(|result| encode(19, &[&[result][..], &version("V2.0")].concat())));
    let mut random = Random::new(SEED);
    for _ in 0..DAMAGED {
        let message = &good[random.below(good.len())];
        all.push(messages::damaged(&mut random, message));
    }
    all
}

fn capture() -> Vec<u8> {
    let mut capture = Writer::default();
    for message in all_messages() {
        capture.add(TOWARD_DEVICE, &message);
        capture.add(FROM_DEVICE, &message);
    }
    capture.bytes
}

/// The number with which any device, or any gateway, refuses a message, whatever its phase.
fn number(toward_device: bool, message: &[u8]) -> u8 {
    if toward_device {
        number_of(&ToDevice::read(BOTH_FACTS, message))
    } else {
        number_of(&ToGateway::read(BOTH_FACTS, message))
    }
}

/// A field of the header, if it is all there.
fn header_field(message: &[u8], place: usize, length: usize) -> Option<u16> {
    let bytes = message.get(place..place + length)?;
    Some(bytes.iter().fold(0, |number, byte| number << 8 | u16::from(*byte)))
}

fn in_hex(width: usize) -> impl Fn(u16) -> String {
    move |number| format!("0x{number:0width$x}")
}

fn header_line(toward_device: bool, message: &[u8]) -> String {
    let in_decimal = |number: u16| number.to_string();
    let byte = header_field(message, 2, 1);
    let computed = Some(message_check(message)).filter(|_| message.len() >= HEADER);
    let fields = [
        None, // bytes that are no record
        Some(if toward_device { "1" } else { "2" }.to_string()),
        Some(number(toward_device, message).to_string()),
        header_field(message, 0, 2).map(in_hex(4)),
        byte.map(|byte| in_hex(2)(byte >> 4)),
        byte.map(|byte| in_decimal(byte & 0x0F)),
        header_field(message, 3, 1).map(in_decimal),
        header_field(message, 4, 2).map(in_hex(4)),
        computed.map(in_hex(4)),
        header_field(message, 6, 2).map(in_decimal),
    ];
    fields.map(Option::unwrap_or_default).join("\t")
}

/// The fields of the data in tshark's order: result, version, size, total, code, index, fragment.
#[derive(Default)]
struct Data {
    result: Option<u8>,
    version: Option<Version>,
    size: Option<u16>,
    total: Option<u16>,
    code: Option<u16>,
    index: Option<u16>,
    fragment: Vec<u8>,
}

impl Data {
    fn toward_device(message: &[u8]) -> Option<Data> {
        Some(match ToDevice::read(BOTH_FACTS, message).ok()? {
            ToDevice::Query | ToDevice::Execute => Data::default(),
            ToDevice::Announce(offer) => Data {
                version: Some(offer.version),
                size: Some(offer.size),
                total: Some(offer.total),
                code: Some(offer.code),
                ..Data::default()
            },
            ToDevice::Fragment { result, index, data } => {
                Data { result: Some(result), index: Some(index), fragment: data.to_vec(), ..Data::default() }
            }
            ToDevice::DownloadResult { result } | ToDevice::UpgradeResult { result } => {
                Data { result: Some(result), ..Data::default() }
            }
        })
    }

    fn toward_gateway(message: &[u8]) -> Option<Data> {
        Some(match ToGateway::read(BOTH_FACTS, message).ok()? {
            ToGateway::Query { version } => {
                Data { result: Some(0x00), version: Some(version), ..Data::default() }
            }
            ToGateway::Announce { result }
            | ToGateway::DownloadResult { result }
            | ToGateway::Execute { result } => Data { result: Some(result), ..Data::default() },
            ToGateway::Fragment { version, index } => {
                Data { version: Some(version), index: Some(index), ..Data::default() }
            }
            ToGateway::UpgradeResult { result, version } => {
                Data { result: Some(result), version: Some(version), ..Data::default() }
            }
        })
    }

    fn line(&self) -> String {
        let text = |version: Version| String::from_utf8_lossy(&version).trim_end_matches('\0').to_string();
        let in_decimal = |number: u16| number.to_string();
        let fields = [
            self.result.map(|result| in_hex(2)(result.into())),
            self.version.map(text),
            self.size.map(in_decimal),
            self.total.map(in_decimal),
            self.code.map(in_hex(4)),
            self.index.map(in_decimal),
            Some(hex(&self.fragment).to_lowercase()),
        ];
        fields.map(Option::unwrap_or_default).join("\t")
    }
}

fn lines(capture: &[u8], with_data: bool) -> String {
    let mut reader = Reader::new(capture);
    let mut lines = String::new();
    loop {
        let line = match reader.next_mended() {
            Mended::Record { toward_device: true, message } if with_data => {
                Data::toward_device(message).map(|data| data.line())
            }
            Mended::Record { message, .. } if with_data => {
                Data::toward_gateway(message).map(|data| data.line())
            }
            Mended::Record { toward_device, message } => Some(header_line(toward_device, message)),
            Mended::Passed { .. } if with_data => None,
            Mended::Passed { start, length } => {
                Some(hex(&capture[start..start + length]).to_lowercase() + &"\t".repeat(9))
            }
            Mended::End => return lines,
        };
        lines.extend(line.map(|line| line + "\n"));
    }
}

fn run() -> Result<Vec<u8>, String> {
    let arguments: Vec<String> = env::args().skip(1).collect();
    let read = |path: &str| fs::read(path).map_err(|error| format!("{path}: {error}"));
    match arguments.iter().map(String::as_str).collect::<Vec<_>>()[..] {
        ["capture"] => Ok(capture()),
        ["header", path] => Ok(lines(&read(path)?, false).into_bytes()),
        ["data", path] => Ok(lines(&read(path)?, true).into_bytes()),
        _ => Err("usage: wireshark capture, wireshark header CAPTURE, wireshark data CAPTURE".to_string()),
    }
}

fn main() -> ExitCode {
    let write = |bytes: Vec<u8>| io::stdout().write_all(&bytes).map_err(|error| error.to_string());
    match run().and_then(write) {
        Ok(()) => ExitCode::SUCCESS,
        Err(error) => {
            eprintln!("wireshark: {error}");
            ExitCode::FAILURE
        }
    }
}
