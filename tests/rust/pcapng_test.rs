//! Tests the conversion of captures to pcapng (tools/pcapng): on many captures, what a reader of pcapng that is written
//! here from the format's rules finds in the file is what the second reading finds in the capture.

mod reading;
mod support;

#[path = "../../tools/pcapng/convert.rs"]
mod convert;

use reading::capture::{mend, Mended, Reader, MESSAGE_MOST};
use reading::replay::INPUT_LIMIT;
use std::process::ExitCode;
use support::inputs::all_cases;

const SEED: u64 = 1;

/// A packet: the link type of its interface, its flags (0 for none), its first bytes, and how many there were.
#[derive(Debug, PartialEq, Eq)]
struct Packet {
    link_type: u16,
    flags: u32,
    bytes: Vec<u8>,
    length: usize,
}

/// What a reader of pcapng goes through, from the lowest bytes up: numbers have the low byte first.
struct Bytes<'f>(&'f [u8]);

impl<'f> Bytes<'f> {
    fn take(&mut self, count: usize) -> Result<&'f [u8], String> {
        if count > self.0.len() {
            return Err(format!("{} bytes left, not {count}", self.0.len()));
        }
        let (front, rest) = self.0.split_at(count);
        self.0 = rest;
        Ok(front)
    }

    fn number(&mut self, count: usize) -> Result<usize, String> {
        Ok(self.take(count)?.iter().rev().fold(0, |number, byte| number << 8 | usize::from(*byte)))
    }

    /// So many bytes, and those that fill them up to a multiple of four.
    fn filled(&mut self, count: usize) -> Result<&'f [u8], String> {
        let bytes = self.take(count)?;
        match self.take((4 - count % 4) % 4)?.iter().all(|byte| *byte == 0) {
            true => Ok(bytes),
            false => Err("filled up with other bytes than 00".to_string()),
        }
    }

    /// The value of an option; options end with the one of code 0.
    fn option(&mut self, wanted: usize) -> Result<Option<&'f [u8]>, String> {
        let mut found = None;
        loop {
            let (code, length) = (self.number(2)?, self.number(2)?);
            let value = self.filled(length)?;
            match code {
                0 if length == 0 && self.0.is_empty() => return Ok(found),
                0 => return Err("the end of options is not the end of its block".to_string()),
                _ if code == wanted => found = Some(value),
                _ => {}
            }
        }
    }
}

/// The packets of a file, in order.
fn packets(file: &[u8]) -> Result<Vec<Packet>, String> {
    let (mut rest, mut link_types, mut packets) = (Bytes(file), Vec::new(), Vec::new());
    while !rest.0.is_empty() {
        let is_first = rest.0.len() == file.len();
        let (kind, length) = (rest.number(4)?, rest.number(4)?);
        let mut body = Bytes(rest.take(length.checked_sub(12).ok_or("a block without a body")?)?);
        if length % 4 != 0 || rest.number(4)? != length {
            return Err(format!("a block's lengths are not both {length}, or no multiple of 4"));
        }
        match kind {
            0x0A0D_0D0A if is_first => {
                let header = (body.number(4)?, body.number(2)?, body.number(2)?);
                if header != (0x1A2B_3C4D, 1, 0) || body.take(8)?.iter().any(|byte| *byte != 0xFF) {
                    return Err(format!("section header {header:?}"));
                }
                body.option(0)?;
            }
            1 if !is_first => {
                link_types.push(body.number(2)? as u16);
                body.take(6)?;
                body.option(0)?;
            }
            6 if !is_first => {
                let interface = body.number(4)?;
                let link_type = *link_types.get(interface).ok_or("an interface that is not described")?;
                let (time, kept, length) = (body.number(8)?, body.number(4)?, body.number(4)?);
                let bytes = body.filled(kept)?.to_vec();
                let flags = Bytes(body.option(2)?.unwrap_or(&[0; 4])).number(4)? as u32;
                if time != 0 {
                    return Err(format!("time {time}"));
                }
                packets.push(Packet { link_type, flags, bytes, length });
            }
            _ => return Err(format!("block {kind:X}")),
        }
    }
    Ok(packets)
}

/// What the packets have to be, by the reading.
fn expected(capture: &[u8]) -> Vec<Packet> {
    let mut reader = Reader::new(capture);
    let mut packets = Vec::new();
    loop {
        packets.push(match reader.next_mended() {
            Mended::Record { toward_device, message } => Packet {
                link_type: 147,
                flags: if toward_device { 1 } else { 2 },
                bytes: message.to_vec(),
                length: message.len(),
            },
            Mended::Passed { start, length } => Packet {
                link_type: 148,
                flags: 0,
                bytes: capture[start..][..length.min(MESSAGE_MOST)].to_vec(),
                length,
            },
            Mended::End => return packets,
        });
    }
}

fn run() -> Result<usize, String> {
    let cases = all_cases(SEED);
    for case in &cases {
        let (file, told) = convert::converted(&case.input);
        let found = packets(&file).map_err(|error| format!("{}: {error}", case.name))?;
        if found != expected(&case.input) {
            return Err(format!("{}: other packets", case.name));
        }
        // Mend tells nothing of a longer capture.
        if case.input.len() <= INPUT_LIMIT && told != mend(&case.input).1 {
            return Err(format!("{}: other stretches are told", case.name));
        }
    }
    Ok(cases.len())
}

fn main() -> ExitCode {
    match run() {
        Ok(count) => {
            println!("pcapng: {count} captures with the reading's messages and directions");
            ExitCode::SUCCESS
        }
        Err(error) => {
            eprintln!("pcapng: {error}");
            ExitCode::FAILURE
        }
    }
}
