//! What the replay program prints for its input (01, "Capture and replay").

use super::capture::{Item, Reader};
use super::device::{Device, READY};
use super::message::{Version, BOTH_FACTS, DEVICE_ROOM};
use super::number;
use std::fmt::Write;

/// The longest input that is replayed.
pub const INPUT_LIMIT: usize = 32_768;
pub const IMAGE_LENGTH: usize = 16_384;
pub const MAP_LENGTH: usize = 64;
/// V0.9
pub const RUNNING: Version = [0x56, 0x30, 0x2E, 0x39, 0, 0, 0, 0, 0, 0, 0, 0, 0, 0, 0, 0];

/// A replay: the device with its memory, and what has been printed.
pub struct Replay {
    pub device: Device,
    pub image: Vec<u8>,
    pub map: Vec<u8>,
    pub text: String,
}

/// The text that the program prints.
pub fn replay(input: &[u8]) -> String {
    run(input).text
}

/// The whole replay, for tests that also look at the device.
pub fn run(input: &[u8]) -> Replay {
    let mut replay = Replay {
        device: Device::make(RUNNING).1,
        image: vec![0; IMAGE_LENGTH],
        map: vec![0; MAP_LENGTH],
        text: String::new(),
    };
    if input.len() > INPUT_LIMIT {
        replay.print_fault(number::CUT_SHORT);
    } else {
        replay.print_records(Reader::new(input));
    }
    replay
}

impl Replay {
    /// Every record is counted; those from the device print nothing. A fault ends the replay.
    fn print_records(&mut self, mut reader: Reader) {
        let mut count = 0;
        loop {
            match reader.next_record() {
                Item::Record { toward_device: true, message } => self.print_call(count, message),
                Item::Record { toward_device: false, .. } => {}
                Item::Fault(number) => return self.print_fault(number),
                Item::End => return,
            }
            count += 1;
        }
    }

    /// One line: the record's number, the outcome, the phase after it, the reply.
    fn print_call(&mut self, count: usize, message: &[u8]) {
        let answer =
            self.device.receive(message, BOTH_FACTS, READY, &mut self.image, &mut self.map, DEVICE_ROOM);
        let reply = if answer.reply.is_empty() { "-".to_string() } else { hex(&answer.reply) };
        self.print(&format!("{} {} {} {}", count, answer.number, self.device.phase, reply));
    }

    fn print_fault(&mut self, number: u8) {
        self.print(&number.to_string());
    }

    fn print(&mut self, line: &str) {
        self.text.push_str(line);
        self.text.push('\n');
    }
}

/// Two upper case digits for each byte.
pub fn hex(bytes: &[u8]) -> String {
    bytes.iter().fold(String::new(), |mut text, byte| {
        write!(text, "{:02X}", byte).expect("a string takes any text");
        text
    })
}
