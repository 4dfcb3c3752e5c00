//! Captures of exchanges: records one after the other, each a mark of two bytes (`4C 3E` toward the device, `4C 3C` from
//! it), a length of two bytes, high byte first, and the message. The replay program plays a capture to a device.
//!
//! ```
//! use pcp::capture::{write, Direction, Item, Reader, Record};
//!
//! let query = b"\xFF\xFE\x01\x13\x4C\x9A\0\0";
//! let mut capture = [0; 64];
//! let first = write(Direction::ToDevice, query, &mut capture, 0)?;
//! let end = write(Direction::ToDevice, query, &mut capture, first)?;
//!
//! // Every record, up to the end or the first damage.
//! let mut reader = Reader::new(&capture[..end]);
//! while let Some(record) = reader.next_record()? {
//!     assert_eq!(record, Record { direction: Direction::ToDevice, message: query });
//! }
//!
//! // Every record that can be saved, and what is passed over.
//! capture[0] = 0x00;
//! let mut reader = Reader::new(&capture[..end]);
//! assert_eq!(reader.next_mended(), Some(Item::Passed(0..first)));
//! assert!(matches!(reader.next_mended(), Some(Item::Record(_))));
//! assert_eq!(reader.next_mended(), None);
//! # Ok::<(), pcp::Refusal>(())
//! ```

use crate::{done, raw, Refusal};
use core::ops::Range;

/// The bytes of a record before its message: mark and length.
pub const HEADER: usize = 4;
/// The longest message of a record, in bytes.
pub const MESSAGE_MOST: usize = 65_535;

/// Which way a message went.
#[derive(Clone, Copy, Debug, PartialEq, Eq)]
pub enum Direction {
    /// Toward the device.
    ToDevice,
    /// From the device.
    FromDevice,
}

/// A record of a capture.
#[derive(Clone, Copy, Debug, PartialEq, Eq)]
pub struct Record<'c> {
    /// Which way its message went.
    pub direction: Direction,
    /// The message: any bytes.
    pub message: &'c [u8],
}

/// What a mending reader gives.
#[derive(Clone, Debug, PartialEq, Eq)]
pub enum Item<'c> {
    /// A record.
    Record(Record<'c>),
    /// Where bytes were passed over, at least one.
    Passed(Range<usize>),
}

/// Writes the record of a message into the buffer, from a place on, and gives the place after it. The bytes before and
/// after it stay.
///
/// Refusals: DoesNotFit where there is no room for it, or the message is longer than [`MESSAGE_MOST`].
pub fn write(direction: Direction, message: &[u8], buffer: &mut [u8], at: usize) -> Result<usize, Refusal> {
    let toward = direction == Direction::ToDevice;
    done(raw::capture_write(toward.into(), message, buffer, at))?;
    Ok(at + HEADER + message.len())
}

/// A capture, and the place of the next item.
#[derive(Clone, Debug)]
pub struct Reader<'c> {
    capture: &'c [u8],
    at: usize,
}

impl<'c> Reader<'c> {
    /// A reader at the start.
    pub fn new(capture: &'c [u8]) -> Reader<'c> {
        Reader { capture, at: 0 }
    }

    /// A reader at any place; one past the end counts as the end.
    pub fn from(capture: &'c [u8], at: usize) -> Reader<'c> {
        Reader { capture, at }
    }

    /// Its place.
    pub fn place(&self) -> usize {
        self.at
    }

    /// The next record; nothing at the end. After a refusal the place stands.
    ///
    /// Refusals: BadMark where no record begins; CutShort where it is not whole.
    pub fn next_record(&mut self) -> Result<Option<Record<'c>>, Refusal> {
        let next = raw::capture_next(self.capture, self.at);
        let direction = self.direction()?;
        let from = core::mem::replace(&mut self.at, next);
        Ok(direction.map(|direction| self.record(direction, from)))
    }

    /// The next record, or the bytes that are passed over because there is none: up to the next place at which there is
    /// a whole record that holds a message of PCP ([`recognise`](crate::recognise), both facts yes), or to the end.
    /// Nothing at the end.
    pub fn next_mended(&mut self) -> Option<Item<'c>> {
        let next = raw::capture_mended(self.capture, self.at);
        let direction = self.direction();
        let from = core::mem::replace(&mut self.at, next);
        match direction {
            Ok(direction) => direction.map(|direction| Item::Record(self.record(direction, from))),
            Err(_) => Some(Item::Passed(from..next)),
        }
    }

    /// Of the record at the place, if there is one.
    fn direction(&self) -> Result<Option<Direction>, Refusal> {
        match raw::capture_kind(self.capture, self.at) {
            0 => Ok(None),
            1 => Ok(Some(Direction::ToDevice)),
            2 => Ok(Some(Direction::FromDevice)),
            number => done(number).map(|()| None),
        }
    }

    /// The record between a place and the one behind it.
    fn record(&self, direction: Direction, from: usize) -> Record<'c> {
        Record { direction, message: &self.capture[from + HEADER..self.at] }
    }
}
