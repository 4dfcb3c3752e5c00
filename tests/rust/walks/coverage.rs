//! What the captures and the records written have brought about, and all that they have to.

use super::writes::Write;
use crate::reading::boundary::Reading;
use crate::reading::capture::{is_sound, Item, Mended, Reader, HEADER, MESSAGE_MOST};
use crate::reading::message::{
    recognise, ToDevice, ToGateway, ANNOUNCE, BOTH_FACTS, DOWNLOAD_RESULT, EXECUTE, FRAGMENT, QUERY,
    UPGRADE_RESULT,
};
use crate::reading::{number, number_of};
use std::collections::BTreeSet;

/// An event, with two numbers that tell it from others of its kind; 0 where it has none.
type Event = (&'static str, u8, u8);

/// Places that were looked at, by what stands there: 0 the end, 1 a record toward the device, 2 one from it, or 20, 21.
const PLACE: &str = "place";
/// Places behind the end: 0 the first, 1 the highest number.
const PAST_END: &str = "place past the end";
/// Where 20 stands: which byte of the mark is wrong, 0 the first, 1 the second, 2 both.
const WRONG_MARK: &str = "wrong mark";
/// Where 21 stands: 1, 2 or 3 bytes left; 4 the message lacks its last byte, 5 it lacks more.
const CUT_SHORT: &str = "cut short";
/// Captures, by how many stretches are passed over; 3 and more are one.
const STRETCHES: &str = "stretches in a capture";
/// Stretches, by the number that stopped the reader, and by what follows.
const STRETCH: &str = "stretch";
/// Stretches of one byte, by what follows.
const ONE_BYTE: &str = "stretch of one byte";
/// Places in stretches, by why mending did not go on there: what recognition says of the message, or 20, 21.
const PASSED_OVER: &str = "place passed over";
/// Whole records among them that reach into the record behind the stretch, by that number; 1 where they end in it.
const REACHES_IN: &str = "record passed over that reaches into the next";
/// Records behind a stretch, by kind and code of the message.
const TAKEN_UP: &str = "record taken up";
/// The same by what they have: 0 reserved bits, 1 data that both ends refuse, 2 the longest message.
const TAKEN_UP_WITH: &str = "record taken up with";
/// Other records, by what recognition says of the message; 1 where there was a stretch before.
const WALKED_OVER: &str = "record walked over";
/// Records whose message holds a sound record: 0 taken up, 1 walked over.
const HOLDS_RECORD: &str = "record around a record";
/// Records read, by their message: 0 empty, 1 the longest.
const LENGTH: &str = "message read";
/// Records written, by kind; 0 the buffer ends behind them, 1 it goes on.
const WRITTEN: &str = "record written";
/// The same by the message's length, a place in `LENGTHS`.
const LENGTH_WRITTEN: &str = "length written";
/// Records refused with 22, see `refusal`.
const REFUSED: &str = "record refused";

/// Lengths at the edges of what a length field says.
const LENGTHS: [usize; 5] = [0, 1, 255, 256, MESSAGE_MOST];

const KINDS: [u8; 2] = [1, 2];

#[derive(Default)]
pub struct Coverage {
    met: BTreeSet<Event>,
}

impl Coverage {
    fn meet(&mut self, kind: &'static str, first: u8, second: u8) {
        self.met.insert((kind, first, second));
    }

    /// A capture, and the places at which it was looked at.
    pub fn observe(&mut self, capture: &[u8], places: &[usize]) {
        for at in places {
            self.observe_place(capture, *at);
        }
        self.observe_walk(capture);
    }

    fn observe_place(&mut self, capture: &[u8], at: usize) {
        let kind = Reading.capture_kind(capture, at);
        self.meet(PLACE, kind, 0);
        match kind {
            0 if at == capture.len() + 1 => self.meet(PAST_END, 0, 0),
            0 if at == usize::MAX => self.meet(PAST_END, 1, 0),
            number::MARK => {
                let wrong = [capture[at] != 0x4C, !matches!(capture[at + 1], 0x3E | 0x3C)];
                let which = match wrong {
                    [true, false] => 0,
                    [false, _] => 1,
                    _ => 2,
                };
                self.meet(WRONG_MARK, which, 0);
            }
            number::CUT_SHORT => {
                let which = match &capture[at..] {
                    [_, _, high, low, message @ ..] => {
                        let length = usize::from(u16::from_be_bytes([*high, *low]));
                        4 + u8::from(length > message.len() + 1)
                    }
                    short => short.len() as u8,
                };
                self.meet(CUT_SHORT, which, 0);
            }
            _ => {}
        }
    }

    /// The mending reader's way from the start to the end.
    fn observe_walk(&mut self, capture: &[u8]) {
        let mut reader = Reader::new(capture);
        let (mut stretches, mut is_behind_stretch) = (0, false);
        loop {
            let at = reader.place;
            match reader.next_mended() {
                Mended::Record { message, .. } => {
                    let kind = Reading.capture_kind(capture, at);
                    self.observe_record(kind, message, is_behind_stretch, stretches);
                    is_behind_stretch = false;
                }
                Mended::Passed { start, length } => {
                    self.observe_stretch(capture, start, length);
                    stretches += 1;
                    is_behind_stretch = true;
                }
                Mended::End => break,
            }
        }
        self.meet(STRETCHES, stretches.min(3) as u8, 0);
    }

    fn observe_record(&mut self, kind: u8, message: &[u8], is_behind_stretch: bool, stretches: usize) {
        if is_behind_stretch {
            self.meet(TAKEN_UP, kind, message[3]);
            if message[2] != 0x01 {
                self.meet(TAKEN_UP_WITH, 0, 0);
            }
            if ToDevice::read(BOTH_FACTS, message).is_err() && ToGateway::read(BOTH_FACTS, message).is_err() {
                self.meet(TAKEN_UP_WITH, 1, 0);
            }
            if message.len() == MESSAGE_MOST {
                self.meet(TAKEN_UP_WITH, 2, 0);
            }
        } else {
            self.meet(WALKED_OVER, recognised(message), u8::from(stretches > 0));
        }
        if (0..message.len()).any(|at| is_sound(message, at)) {
            self.meet(HOLDS_RECORD, u8::from(!is_behind_stretch), 0);
        }
        match message.len() {
            0 => self.meet(LENGTH, 0, 0),
            MESSAGE_MOST => self.meet(LENGTH, 1, 0),
            _ => {}
        }
    }

    fn observe_stretch(&mut self, capture: &[u8], start: usize, length: usize) {
        let next = start + length;
        let follows = Reading.capture_kind(capture, next);
        self.meet(STRETCH, Reading.capture_kind(capture, start), follows);
        if length == 1 {
            self.meet(ONE_BYTE, follows, 0);
        }
        let end = Reading.capture_next(capture, next);
        for at in start + 1..next {
            match Reader::at(capture, at).next_record() {
                Item::Record { message, .. } => {
                    let (number, reach) = (recognised(message), at + HEADER + message.len());
                    self.meet(PASSED_OVER, number, 0);
                    if follows != 0 && reach > next {
                        self.meet(REACHES_IN, number, u8::from(reach < end));
                    }
                }
                Item::Fault(number) => self.meet(PASSED_OVER, number, 0),
                Item::End => {}
            }
        }
    }

    pub fn observe_write(&mut self, write: &Write, number: u8) {
        let (length, room) = (write.message.len(), write.buffer.len());
        if number == number::DOES_NOT_FIT {
            return self.meet(REFUSED, refusal(length, room, write.at), 0);
        }
        let kind = if write.toward == 0 { 2 } else { 1 };
        self.meet(WRITTEN, kind, u8::from(write.at + HEADER + length < room));
        if let Some(place) = LENGTHS.iter().position(|edge| *edge == length) {
            self.meet(LENGTH_WRITTEN, place as u8, 0);
        }
    }

    /// What can occur and was never met.
    pub fn not_met(&self) -> Vec<String> {
        wanted()
            .difference(&self.met)
            .map(|(kind, first, second)| format!("{kind} {first} {second}"))
            .collect()
    }
}

/// What recognition says of a message, both facts yes.
fn recognised(message: &[u8]) -> u8 {
    number_of(&recognise(BOTH_FACTS, message))
}

/// Why a record does not fit: the message is too long, 0 with room for it, 1 without; or 2 the place is so high that no
/// number is the place behind a header, 3 it is past the end, 4 at the end; or 5 the header has no room, 6 one byte is
/// missing, 7 more.
fn refusal(length: usize, room: usize, at: usize) -> u8 {
    let left = room.checked_sub(at);
    match left {
        Some(left) if length > MESSAGE_MOST => u8::from(HEADER + length > left),
        None if at.checked_add(HEADER).is_none() => 2,
        None => 3,
        Some(0) => 4,
        Some(left) if left < HEADER => 5,
        Some(left) if left + 1 == HEADER + length => 6,
        Some(_) => 7,
    }
}

/// All that can occur, by 01 and 02.
fn wanted() -> BTreeSet<Event> {
    let refused =
        [number::START, number::PROTOCOL_VERSION, number::MESSAGE_CODE, number::CHECK, number::DATA_LENGTH];
    let faults = [number::MARK, number::CUT_SHORT];
    let mut events = BTreeSet::new();
    let mut want = |kind, firsts: &[u8], seconds: &[u8]| {
        events.extend(firsts.iter().flat_map(|first| seconds.iter().map(|second| (kind, *first, *second))));
    };
    want(PLACE, &[0, 1, 2, number::MARK, number::CUT_SHORT], &[0]);
    want(PAST_END, &[0, 1], &[0]);
    want(WRONG_MARK, &[0, 1, 2], &[0]);
    want(CUT_SHORT, &[1, 2, 3, 4, 5], &[0]);
    want(STRETCHES, &[0, 1, 2, 3], &[0]);
    want(STRETCH, &faults, &[0, 1, 2]);
    want(ONE_BYTE, &[0, 1, 2], &[0]);
    want(PASSED_OVER, &refused, &[0]);
    want(PASSED_OVER, &faults, &[0]);
    want(REACHES_IN, &refused, &[0, 1]);
    want(TAKEN_UP, &KINDS, &[QUERY, ANNOUNCE, FRAGMENT, DOWNLOAD_RESULT, EXECUTE, UPGRADE_RESULT]);
    want(TAKEN_UP_WITH, &[0, 1, 2], &[0]);
    want(WALKED_OVER, &refused, &[0, 1]);
    want(WALKED_OVER, &[number::HANDLED], &[0, 1]);
    want(HOLDS_RECORD, &[0, 1], &[0]);
    want(LENGTH, &[0, 1], &[0]);
    want(WRITTEN, &KINDS, &[0, 1]);
    want(LENGTH_WRITTEN, &[0, 1, 2, 3, 4], &[0]);
    want(REFUSED, &[0, 1, 2, 3, 4, 5, 6, 7], &[0]);
    events
}
