//! Captures (01, "Capture and replay"): read, and by 02's 2026-02 also written and mended.

use super::message::{recognise, BOTH_FACTS};
use super::number;
use super::replay::INPUT_LIMIT;

/// The marks before a record.
pub const TOWARD_DEVICE: [u8; 2] = [0x4C, 0x3E];
pub const FROM_DEVICE: [u8; 2] = [0x4C, 0x3C];

/// The bytes of a record before its message: mark and length.
pub const HEADER: usize = 4;
/// The longest message of a record.
pub const MESSAGE_MOST: usize = 65_535;

/// What stands at the reader's place.
#[derive(Clone, Copy, Debug, PartialEq, Eq)]
pub enum Item<'a> {
    Record {
        toward_device: bool,
        message: &'a [u8],
    },
    End,
    /// 20 for a wrong mark, 21 for a record cut short.
    Fault(u8),
}

/// What a mending reader gives.
#[derive(Clone, Copy, Debug, PartialEq, Eq)]
pub enum Mended<'a> {
    Record {
        toward_device: bool,
        message: &'a [u8],
    },
    /// A stretch that is passed over.
    Passed {
        start: usize,
        length: usize,
    },
    End,
}

/// A capture and the place of the next record.
#[derive(Clone, Debug)]
pub struct Reader<'a> {
    capture: &'a [u8],
    pub place: usize,
}

impl<'a> Reader<'a> {
    pub fn new(capture: &'a [u8]) -> Reader<'a> {
        Reader { capture, place: 0 }
    }

    /// A reader at any place.
    pub fn at(capture: &'a [u8], place: usize) -> Reader<'a> {
        Reader { capture, place }
    }

    /// The next record; the place moves only past a whole one.
    pub fn next_record(&mut self) -> Item<'a> {
        let item = item_at(self.capture, self.place);
        if let Item::Record { message, .. } = item {
            self.place += HEADER + message.len();
        }
        item
    }

    /// The next record; or, where the reader stops, the stretch up to the first later place from which a sound record
    /// can be read. If there is none, the rest is passed over, and the end follows.
    pub fn next_mended(&mut self) -> Mended<'a> {
        match self.next_record() {
            Item::Record { toward_device, message } => Mended::Record { toward_device, message },
            Item::End => Mended::End,
            Item::Fault(_) => {
                let (start, end) = (self.place, self.capture.len());
                let mut later = start + 1..end;
                self.place = later.find(|place| is_sound(self.capture, *place)).unwrap_or(end);
                Mended::Passed { start, length: self.place - start }
            }
        }
    }
}

/// Sound: a whole record can be read from the place, and its message passes the tests 1 to 7, both facts yes.
pub fn is_sound(capture: &[u8], place: usize) -> bool {
    match item_at(capture, place) {
        Item::Record { message, .. } => recognise(BOTH_FACTS, message).is_ok(),
        Item::End | Item::Fault(_) => false,
    }
}

/// What stands at a place; one past the end counts as the end. The mark is tested as soon as both its bytes are there.
fn item_at(capture: &[u8], place: usize) -> Item<'_> {
    let (mark, rest) = match capture.get(place..).unwrap_or(&[]) {
        [] => return Item::End,
        [first, second, rest @ ..] => ([*first, *second], rest),
        [_] => return Item::Fault(number::CUT_SHORT),
    };
    let toward_device = match mark {
        TOWARD_DEVICE => true,
        FROM_DEVICE => false,
        _ => return Item::Fault(number::MARK),
    };
    match message(rest) {
        Some(message) => Item::Record { toward_device, message },
        None => Item::Fault(number::CUT_SHORT),
    }
}

/// A length WORD and that many bytes, if they are all there.
fn message(rest: &[u8]) -> Option<&[u8]> {
    let high = *rest.first()?;
    let low = *rest.get(1)?;
    let length = usize::from(u16::from_be_bytes([high, low]));
    rest.get(2..2 + length)
}

/// Writes a record into a buffer, from a place on: 0 and the place behind it. With no room for it, or a message that is
/// too long, 22 and the place itself, and nothing is written.
pub fn write(toward_device: bool, message: &[u8], buffer: &mut [u8], place: usize) -> (u8, usize) {
    let room = buffer.len().saturating_sub(place);
    if message.len() > MESSAGE_MOST || HEADER + message.len() > room {
        return (number::DOES_NOT_FIT, place);
    }
    let mark = if toward_device { TOWARD_DEVICE } else { FROM_DEVICE };
    let length = (message.len() as u16).to_be_bytes();
    let record = [&mark[..], &length, message].concat();
    let next = place + record.len();
    buffer[place..next].copy_from_slice(&record);
    (number::HANDLED, next)
}

/// A capture mended: its records, byte for byte, and a line for each stretch passed over, its start and length. Of an
/// input that is too long nothing is read, as in a replay.
pub fn mend(capture: &[u8]) -> (Vec<u8>, String) {
    if capture.len() > INPUT_LIMIT {
        return (Vec::new(), format!("{}\n", number::CUT_SHORT));
    }
    let (mut records, mut lines) = (Vec::new(), String::new());
    let mut reader = Reader::new(capture);
    loop {
        let from = reader.place;
        match reader.next_mended() {
            Mended::Record { .. } => records.extend(&capture[from..reader.place]),
            Mended::Passed { start, length } => lines += &format!("{start} {length}\n"),
            Mended::End => return (records, lines),
        }
    }
}
