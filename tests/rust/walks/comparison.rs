//! Captures at the library's exports and by the types for Rust hosts, `pcp::capture`: what each call gives is compared
//! with the reading.

use super::cases::Case;
use super::writes::Write;
use crate::reading::boundary::Reading;
use crate::reading::capture::{mend, write, Item, Mended, Reader};
use crate::reading::number;
use crate::reading::replay::{hex, INPUT_LIMIT};
use crate::support::signals::Work;
use pcp::capture::{self, Direction, Record};
use pcp::{raw, Refusal};
use std::fmt::Debug;

/// The call at work, and where it stands among all.
pub struct Comparison {
    pub seed: u64,
    pub calls: u64,
    call: &'static str,
    at: usize,
    /// What the call is given, and where that comes from.
    lent: Vec<(&'static str, Vec<u8>)>,
    name: String,
}

impl Comparison {
    pub fn new(seed: u64) -> Comparison {
        Comparison { seed, calls: 0, call: "", at: 0, lent: Vec::new(), name: String::new() }
    }

    /// A capture at these places, and by walks from its start to its end. A difference is described.
    pub fn capture(&mut self, case: &Case, places: &[usize]) -> Result<(), String> {
        let capture = &case.capture;
        self.name.clone_from(&case.name);
        self.lent = vec![("capture", capture.clone())];
        for at in places {
            self.place(capture, *at)?;
        }
        self.walk(capture)?;
        self.mending_walk(capture)?;
        self.mended_whole(capture)
    }

    /// What stands at a place, and the next places.
    fn place(&mut self, capture: &[u8], at: usize) -> Result<(), String> {
        let kind = Reading.capture_kind(capture, at);
        self.same("kind", at, || raw::capture_kind(capture, at), kind)?;
        let next = Reading.capture_next(capture, at);
        self.same("next", at, || raw::capture_next(capture, at), next)?;
        let mended = Reading.capture_mended(capture, at);
        self.same("mended", at, || raw::capture_mended(capture, at), mended)?;
        self.next_record(&mut capture::Reader::from(capture, at), &mut Reader::at(capture, at))?;
        self.next_mended(&mut capture::Reader::from(capture, at), &mut Reader::at(capture, at))?;
        Ok(())
    }

    /// Every record, up to the end or the first damage. There the reader is asked once more: its place stands.
    fn walk(&mut self, capture: &[u8]) -> Result<(), String> {
        let (mut library, mut reading) = (capture::Reader::new(capture), Reader::new(capture));
        while matches!(self.next_record(&mut library, &mut reading)?, Item::Record { .. }) {}
        self.next_record(&mut library, &mut reading)?;
        Ok(())
    }

    /// Every record and stretch, up to the end, and once more.
    fn mending_walk(&mut self, capture: &[u8]) -> Result<(), String> {
        let (mut library, mut reading) = (capture::Reader::new(capture), Reader::new(capture));
        while self.next_mended(&mut library, &mut reading)? != Mended::End {}
        self.next_mended(&mut library, &mut reading)?;
        Ok(())
    }

    fn next_record<'c>(
        &mut self,
        library: &mut capture::Reader<'c>,
        reading: &mut Reader<'c>,
    ) -> Result<Item<'c>, String> {
        let at = reading.place;
        let item = reading.next_record();
        let found = || (item_of(library.next_record()), library.place());
        self.same("next_record", at, found, (item, reading.place))?;
        Ok(item)
    }

    fn next_mended<'c>(
        &mut self,
        library: &mut capture::Reader<'c>,
        reading: &mut Reader<'c>,
    ) -> Result<Mended<'c>, String> {
        let at = reading.place;
        let item = reading.next_mended();
        let found = || (mended_of(library.next_mended()), library.place());
        self.same("next_mended", at, found, (item, reading.place))?;
        Ok(item)
    }

    /// The mended capture, each record written behind the one before, and a line for each stretch. Of a capture without
    /// damage it is the capture.
    fn mended_whole(&mut self, capture: &[u8]) -> Result<(), String> {
        if capture.len() > INPUT_LIMIT {
            return Ok(());
        }
        let (records, lines) = mend(capture);
        let found = || match written_mended(capture) {
            Ok((records, lines)) => (hex(&records), lines),
            Err(refusal) => (String::new(), refusal.to_string()),
        };
        self.same("mended whole", 0, found, (hex(&records), lines))
    }

    /// A record written, and every byte of its buffer. Gives the number.
    pub fn write(&mut self, case: &Write) -> Result<u8, String> {
        let Write { toward, message, buffer, at } = case;
        let (toward, at) = (*toward, *at);
        self.name = format!("toward byte {toward}");
        self.lent = vec![("message", message.clone()), ("buffer", buffer.clone())];
        let mut expected = buffer.clone();
        let (number, next) = write(toward != 0, message, &mut expected, at);
        let mut found = buffer.clone();
        self.same("write", at, || raw::capture_write(toward, message, &mut found, at), number)?;
        self.same_bytes(&found, &expected)?;

        let direction = if toward == 0 { Direction::FromDevice } else { Direction::ToDevice };
        found.clone_from(buffer);
        let wrote = || match capture::write(direction, message, &mut found, at) {
            Ok(next) => (number::HANDLED, next),
            Err(refusal) => (refusal.into(), at),
        };
        self.same("write by the types", at, wrote, (number, next))?;
        self.same_bytes(&found, &expected)?;
        Ok(number)
    }

    /// Makes the call, and compares what it gives.
    fn same<T: Debug + PartialEq>(
        &mut self,
        call: &'static str,
        at: usize,
        make: impl FnOnce() -> T,
        expected: T,
    ) -> Result<(), String> {
        self.calls += 1;
        (self.call, self.at) = (call, at);
        let found = make();
        if found == expected {
            Ok(())
        } else {
            Err(format!("{}library: {found:?}\nreading: {expected:?}\n", self.described()))
        }
    }

    /// The buffer that the call at work has left.
    fn same_bytes(&self, found: &[u8], expected: &[u8]) -> Result<(), String> {
        match (0..expected.len()).find(|at| found[*at] != expected[*at]) {
            None => Ok(()),
            Some(at) => {
                let (found, expected) = (found[at], expected[at]);
                let bytes = format!("byte {at}\nlibrary: {found:02X}\nreading: {expected:02X}\n");
                Err(self.described() + &bytes)
            }
        }
    }
}

impl Work for Comparison {
    fn described(&self) -> String {
        let Comparison { seed, calls, call, at, lent, name } = self;
        let buffers = lent
            .iter()
            .map(|(name, bytes)| format!("{name} ({} bytes): {}\n", bytes.len(), hex(bytes)))
            .collect::<String>();
        format!("seed {seed}, call {calls}: {call} at {at}, {name}\n{buffers}")
    }
}

fn is_toward_device(direction: Direction) -> bool {
    direction == Direction::ToDevice
}

/// In the reading's words.
fn item_of(found: Result<Option<Record>, Refusal>) -> Item {
    match found {
        Ok(Some(Record { direction, message })) => {
            Item::Record { toward_device: is_toward_device(direction), message }
        }
        Ok(None) => Item::End,
        Err(refusal) => Item::Fault(refusal.into()),
    }
}

fn mended_of(found: Option<capture::Item>) -> Mended {
    match found {
        Some(capture::Item::Record(Record { direction, message })) => {
            Mended::Record { toward_device: is_toward_device(direction), message }
        }
        Some(capture::Item::Passed(place)) => Mended::Passed { start: place.start, length: place.len() },
        None => Mended::End,
    }
}

/// A capture mended by the types alone.
fn written_mended(capture: &[u8]) -> Result<(Vec<u8>, String), Refusal> {
    let (mut records, mut lines) = (vec![0; capture.len()], String::new());
    let mut end = 0;
    let mut reader = capture::Reader::new(capture);
    while let Some(item) = reader.next_mended() {
        match item {
            capture::Item::Record(Record { direction, message }) => {
                end = capture::write(direction, message, &mut records, end)?;
            }
            capture::Item::Passed(place) => lines += &format!("{} {}\n", place.start, place.len()),
        }
    }
    records.truncate(end);
    Ok((records, lines))
}
