//! What the calls have brought about, counted; and all that they have to.

use super::comparison::Made;
use super::messages::SIZE_EDGES;
use super::run::Ends;
use super::texts::{Carrier, Text, INSIDE, OUTSIDE};
use super::Call;
use crate::reading::check::message_check;
use crate::reading::device::{Device, ACKED, FAILED, IDLE, INSTALLING, LOADED, LOADING, REPORTING};
use crate::reading::gateway::{Gateway, ASK, ENDED, OFFER, RUN, SERVE};
use crate::reading::layout::{read_state, SHORT_RECORD};
use crate::reading::message::{
    ANNOUNCE, ANNOUNCE_ANSWERS, DOWNLOAD_RESULT, EXECUTE, FRAGMENT, GATEWAY_ROOM, HEADER, QUERY, SIZES,
    UPGRADE_RESULT, UPGRADE_RESULTS,
};
use crate::reading::number;
use std::cmp::Ordering;
use std::collections::{BTreeMap, BTreeSet};

/// An event, with two numbers that tell it from others of its kind; 0 where it has none.
type Event = (&'static str, u8, u8);

/// The calls, by their numbers.
const CHECK: &str = "check";
const MESSAGE_CHECK: &str = "message check";
const RECOGNISE: &str = "recognise";
const DEVICE_NEW: &str = "device new";
const DEVICE_RECEIVE: &str = "device receive";
const DEVICE_NEXT: &str = "device next message";
const DEVICE_INSTALL: &str = "device install finished";
const DEVICE_DIGEST: &str = "device give digest";
const GATEWAY_START: &str = "gateway start";
const GATEWAY_RECEIVE: &str = "gateway receive";
const GATEWAY_NEXT: &str = "gateway next message";
const MD5_NEW: &str = "md5 new";
/// The same, and where they were handled, by how many bytes behind whole blocks are digested or wait in the state.
const MD5: &str = "md5";
const MD5_FEED: &str = "md5 feed";
const MD5_FINISH: &str = "md5 finish";
/// Pieces: 0 none, 1 leaves the block open, 2 makes it whole, 3 goes on behind it, 4 has a whole block behind it; and
/// whether bytes waited.
const PIECE: &str = "piece";
/// Counts that a piece brought past an edge: 0 past 2^32, 1 past 2^64.
const COUNT_PASSED: &str = "count of bytes passed";
/// What is sent, by code and first data byte.
const DEVICE_REPLY: &str = "device reply";
const DEVICE_MESSAGE: &str = "device message";
const GATEWAY_REPLY: &str = "gateway reply";
const GATEWAY_MESSAGE: &str = "gateway message";
/// Messages, by code and the phase that they found.
const DEVICE_HANDLED: &str = "device handled";
const DEVICE_NO_USE: &str = "device had no use";
const GATEWAY_HANDLED: &str = "gateway handled";
const GATEWAY_NO_USE: &str = "gateway had no use";
/// Messages with reserved bits in a good version byte, by these bits and the number.
const RESERVED_RECOGNISED: &str = "reserved bits recognised";
const RESERVED_AT_DEVICE: &str = "reserved bits at the device";
const RESERVED_AT_GATEWAY: &str = "reserved bits at the gateway";
/// Version bytes refused with 4, by the byte and whether the check is right.
const VERSION_REFUSED: &str = "version byte refused";
/// Sizes by their place in `SIZE_EDGES`, and the number: announced, and at a start.
const SIZE_ANNOUNCED: &str = "size announced";
const SIZE_STARTED: &str = "size at the start";
/// The gateway's reply buffers: 0 one byte too short, 1 just long enough; and whether refused with 15.
const GATEWAY_BUFFER: &str = "gateway reply buffer";
/// Last fragments stored, of 1 byte, of one less than the size, and of the size.
const LAST_STORED: &str = "last fragment stored";
/// Repeats of a stored fragment, by how they compare with it (`repeat_kind`) and the number.
const REPEATED: &str = "device was given a repeat";
/// Steps, by the phases before and after.
const DEVICE_STEP: &str = "device step";
const GATEWAY_STEP: &str = "gateway step";
const GATEWAY_ENDING: &str = "gateway ending";
/// Announcements answered 00, by the phase that they found.
const RESUMED: &str = "device resumed";
const STARTED: &str = "device started a download";
/// Downloads whose fragments are all stored: whether there is a code, and whether the last fragment is short.
const LOADED_WITH: &str = "device loaded";
const FAILED_WITH: &str = "device failed";
/// The same with a digest set.
const LOADED_WITH_DIGEST: &str = "device loaded with a digest";
const FAILED_WITH_DIGEST: &str = "device failed with a digest";
/// Digests given, by whether one was set before; and resumes that kept one.
const DIGEST_GIVEN: &str = "device was given a digest";
const DIGEST_RESUMED: &str = "device resumed with a digest";
/// Asking in Loading with no fragment missing.
const FULL_MAP: &str = "device asked with a full map";

/// Events of one kind that the summary shows.
const SHOWN: usize = 200;

#[derive(Default)]
pub struct Coverage {
    counts: BTreeMap<Event, u64>,
}

impl Coverage {
    fn count(&mut self, event: Event) {
        *self.counts.entry(event).or_default() += 1;
    }

    /// Counted where the number tells what the text's odd byte is.
    pub fn observe_text(&mut self, text: &Text, number: u8) {
        if text.is_told(number) {
            self.count((text.carrier.name(), text.byte, text.place));
        }
    }

    /// Steps are counted only in runs in which nobody else writes into the records.
    pub fn observe(&mut self, made: Made, is_written_into: bool) {
        let (number, length) = ((made.result % 256) as u8, made.result as usize / 256);
        let (before, after) = (Ends::of(made.before), Ends::of(made.after));
        let counts_steps = number == number::HANDLED && !is_written_into;
        let reply = &made.after.reply[..if made.call.has_reply() { length } else { 0 }];
        let result = reply.get(HEADER).copied().unwrap_or(0);
        let sent = |kind| reply.get(3).map(|code| (kind, *code, result));
        match made.call {
            Call::Check => self.count((CHECK, 0, 0)),
            Call::MessageCheck => self.count((MESSAGE_CHECK, 0, 0)),
            Call::Recognise { .. } => {
                self.count((RECOGNISE, number, 0));
                self.count_version_byte(RESERVED_RECOGNISED, number, &made.before.input);
            }
            Call::DeviceNew => self.count((DEVICE_NEW, number, 0)),
            Call::GatewayStart { size, .. } => {
                self.count((GATEWAY_START, number, 0));
                self.count_size(SIZE_STARTED, size, number);
            }
            Call::DeviceReceive { .. } => {
                self.count((DEVICE_RECEIVE, number, 0));
                self.count_version_byte(RESERVED_AT_DEVICE, number, &made.before.input);
                if let Some(size) = announced_size(&made.before.input) {
                    self.count_size(SIZE_ANNOUNCED, size, number);
                }
                self.count_message([DEVICE_HANDLED, DEVICE_NO_USE], number, &made, before.device.phase);
                sent(DEVICE_REPLY).into_iter().for_each(|event| self.count(event));
                if matches!(number, number::ALREADY_STORED | number::REPEAT_DIFFERS) {
                    self.count((
                        REPEATED,
                        repeat_kind(&before.device, &made.before.image, &made.before.input),
                        number,
                    ));
                }
                if counts_steps {
                    self.count_device_step(&before.device, &after.device);
                    self.count_announcement(reply, result, &before.device, &after.device);
                }
            }
            Call::DeviceNextMessage => {
                self.count((DEVICE_NEXT, number, 0));
                sent(DEVICE_MESSAGE).into_iter().for_each(|event| self.count(event));
                if number == number::RECORD && is_sound(&before.device) {
                    self.count((FULL_MAP, 0, 0));
                }
            }
            Call::DeviceInstallFinished { .. } => {
                self.count((DEVICE_INSTALL, number, 0));
                if counts_steps {
                    self.count_device_step(&before.device, &after.device);
                }
            }
            Call::DeviceGiveDigest => {
                self.count((DEVICE_DIGEST, number, before.device.phase));
                if counts_steps {
                    self.count((DIGEST_GIVEN, before.device.digest_set, 0));
                }
            }
            Call::GatewayReceive { .. } => {
                self.count((GATEWAY_RECEIVE, number, 0));
                self.count_version_byte(RESERVED_AT_GATEWAY, number, &made.before.input);
                self.count_buffer(made.lent.reply, number);
                self.count_message([GATEWAY_HANDLED, GATEWAY_NO_USE], number, &made, before.gateway.phase);
                sent(GATEWAY_REPLY).into_iter().for_each(|event| self.count(event));
                if counts_steps {
                    self.count_gateway_step(&before.gateway, &after.gateway);
                }
            }
            Call::GatewayNextMessage => {
                self.count((GATEWAY_NEXT, number, 0));
                self.count_buffer(made.lent.reply, number);
                sent(GATEWAY_MESSAGE).into_iter().for_each(|event| self.count(event));
            }
            Call::Md5New => self.count((MD5_NEW, number, 0)),
            Call::Md5 => self.count_digest(MD5, number, made.before.input.len() as u64),
            Call::Md5Finish => self.count_digest(MD5_FINISH, number, counted(&made.before.state)),
            Call::Md5Feed => {
                let (before, after) = (counted(&made.before.state), counted(&made.after.state));
                self.count_digest(MD5_FEED, number, before);
                if number == number::HANDLED {
                    let kind = piece_kind(before, made.before.input.len());
                    self.count((PIECE, kind, u8::from(before % 64 > 0)));
                    self.count_passed(before, after);
                }
            }
        }
    }

    fn count_digest(&mut self, kind: &'static str, number: u8, bytes: u64) {
        self.count((kind, number, if number == number::HANDLED { (bytes % 64) as u8 } else { 0 }));
    }

    fn count_passed(&mut self, before: u64, after: u64) {
        if after < before {
            self.count((COUNT_PASSED, 1, 0));
        } else if before >> 32 != after >> 32 {
            self.count((COUNT_PASSED, 0, 0));
        }
    }

    fn count_message(&mut self, [handled, no_use]: [&'static str; 2], number: u8, made: &Made, phase: u8) {
        match number {
            number::HANDLED => self.count((handled, made.before.input[3], phase)),
            number::NO_USE => self.count((no_use, made.before.input[3], phase)),
            _ => {}
        }
    }

    fn count_version_byte(&mut self, reserved: &'static str, number: u8, message: &[u8]) {
        match (message.get(2), number) {
            (Some(version), number::PROTOCOL_VERSION) => {
                self.count((VERSION_REFUSED, *version, u8::from(has_right_check(message))));
            }
            (Some(version), _) if version % 16 == 1 => self.count((reserved, version / 16, number)),
            _ => {}
        }
    }

    fn count_size(&mut self, kind: &'static str, size: u16, number: u8) {
        if let Some(place) = SIZE_EDGES.iter().position(|edge| *edge == size) {
            self.count((kind, place as u8, number));
        }
    }

    fn count_buffer(&mut self, length: usize, number: u8) {
        if let Some(more @ 0..=1) = (length + 1).checked_sub(GATEWAY_ROOM) {
            self.count((GATEWAY_BUFFER, more as u8, u8::from(number == number::REPLY_BUFFER)));
        }
    }

    fn count_device_step(&mut self, before: &Device, after: &Device) {
        self.count((DEVICE_STEP, before.phase, after.phase));
        if before.phase == LOADING && before.last == 0 && after.last != 0 {
            let lengths = [1, after.size - 1, after.size];
            if let Some(place) = lengths.iter().position(|length| *length == after.last) {
                self.count((LAST_STORED, place as u8, 0));
            }
        }
        let (coded, short) = (u8::from(after.code != 0), u8::from(after.last < after.size));
        match (before.phase, after.phase) {
            (LOADING, LOADED) if after.digest_set == 1 => self.count((LOADED_WITH_DIGEST, coded, short)),
            (LOADING, FAILED) if after.digest_set == 1 => self.count((FAILED_WITH_DIGEST, coded, short)),
            (LOADING, LOADED) => self.count((LOADED_WITH, coded, short)),
            (LOADING, FAILED) => self.count((FAILED_WITH, coded, short)),
            _ => {}
        }
    }

    fn count_announcement(&mut self, reply: &[u8], result: u8, before: &Device, after: &Device) {
        if reply.get(3) == Some(&ANNOUNCE) && result == 0x00 {
            let is_resumed = before == after && before.stored > 0;
            self.count((if is_resumed { RESUMED } else { STARTED }, before.phase, 0));
            if is_resumed && before.digest_set == 1 {
                self.count((DIGEST_RESUMED, before.phase, 0));
            }
        }
    }

    fn count_gateway_step(&mut self, before: &Gateway, after: &Gateway) {
        self.count((GATEWAY_STEP, before.phase, after.phase));
        if before.phase != ENDED && after.phase == ENDED {
            self.count((GATEWAY_ENDING, after.ending, 0));
        }
    }

    /// What can occur and was never met.
    pub fn not_met(&self) -> Vec<String> {
        let met: BTreeSet<Event> = self.counts.keys().copied().collect();
        wanted().difference(&met).map(|(kind, first, second)| format!("{kind} {first} {second}")).collect()
    }

    /// One line for each kind of event: its events with their counts, or only how many where they are very many.
    pub fn summary(&self) -> String {
        let mut kinds: BTreeMap<&str, Vec<String>> = BTreeMap::new();
        for ((kind, first, second), count) in &self.counts {
            kinds.entry(kind).or_default().push(format!("{first},{second}={count}"));
        }
        let shown = |events: Vec<String>| match events.len() {
            0..=SHOWN => events.join(" "),
            many => format!("{many} events"),
        };
        kinds.into_iter().map(|(kind, events)| format!("{kind}: {}\n", shown(events))).collect()
    }
}

/// How a repeat compares with what is stored: 0 the same, 1 the same short last one, 2 with another first byte alone, 3
/// with another last byte alone, 4 with others, 5 shorter, 6 longer.
fn repeat_kind(device: &Device, image: &[u8], message: &[u8]) -> u8 {
    let (index, data) = (u16::from_be_bytes([message[9], message[10]]), &message[11..]);
    let place = usize::from(index) * usize::from(device.size);
    let length = if index == device.total - 1 { device.last } else { device.size };
    let stored = &image[place..][..usize::from(length)];
    let different: Vec<usize> =
        (0..data.len().min(stored.len())).filter(|at| data[*at] != stored[*at]).collect();
    match (data.len().cmp(&stored.len()), &different[..]) {
        (Ordering::Less, _) => 5,
        (Ordering::Greater, _) => 6,
        (_, []) => u8::from(length < device.size),
        (_, [0]) => 2,
        (_, [at]) if at + 1 == data.len() => 3,
        _ => 4,
    }
}

/// How many bytes a state says that it was fed.
fn counted(state: &[u8]) -> u64 {
    read_state(state).expect("the buffer is long enough").count
}

/// What a piece does to the block of a state that was fed so many bytes.
fn piece_kind(count: u64, length: usize) -> u8 {
    let left = 64 - (count % 64) as usize;
    match length.checked_sub(left) {
        _ if length == 0 => 0,
        None => 1,
        Some(0) => 2,
        Some(1..=63) => 3,
        Some(_) => 4,
    }
}

/// The size in an announcement.
fn announced_size(message: &[u8]) -> Option<u16> {
    let size = message.get(HEADER + 16..HEADER + 18)?;
    Some(u16::from_be_bytes([size[0], size[1]])).filter(|_| message[3] == ANNOUNCE)
}

fn has_right_check(message: &[u8]) -> bool {
    message.get(4..6) == Some(&message_check(message).to_be_bytes()[..])
}

/// Whether 29 would not refuse the record; the installer's end tests that first.
fn is_sound(device: &Device) -> bool {
    device.clone().install_finished(0x00) != number::RECORD
}

/// All that can occur, by 01.
fn wanted() -> BTreeSet<Event> {
    let mut events = BTreeSet::from([(CHECK, 0, 0), (MESSAGE_CHECK, 0, 0), (FULL_MAP, 0, 0)]);
    events.extend(wanted_numbers());
    events.extend(wanted_version_bytes());
    events.extend(wanted_texts());
    events.extend(wanted_sizes());
    events.extend(wanted_messages());
    events.extend(wanted_steps());
    events.extend(wanted_sendings());
    events.extend(wanted_digests());
    events
}

fn one_each(kind: &'static str, numbers: &[u8]) -> Vec<Event> {
    numbers.iter().map(|number| (kind, *number, 0)).collect()
}

fn with_each(kind: &'static str, first: u8, seconds: &[u8]) -> Vec<Event> {
    seconds.iter().map(|second| (kind, first, *second)).collect()
}

fn wanted_numbers() -> Vec<Event> {
    [
        one_each(RECOGNISE, &[0, 1, 2, 3, 4, 5, 6, 7]),
        one_each(DEVICE_NEW, &[0, 17, SHORT_RECORD]),
        one_each(
            DEVICE_RECEIVE,
            &[0, 1, 2, 3, 4, 5, 6, 7, 8, 9, 10, 11, 12, 13, 14, 15, 23, 29, SHORT_RECORD],
        ),
        one_each(DEVICE_NEXT, &[0, 9, 14, 15, 29, SHORT_RECORD]),
        one_each(DEVICE_INSTALL, &[0, 9, 16, 29, SHORT_RECORD]),
        with_each(DEVICE_DIGEST, 0, &[LOADING]),
        with_each(DEVICE_DIGEST, 9, &[IDLE, LOADED, ACKED, FAILED, INSTALLING, REPORTING]),
        with_each(DEVICE_DIGEST, SHORT_RECORD, &[LOADING]),
        one_each(GATEWAY_START, &[0, 17, 18, 19, SHORT_RECORD]),
        one_each(GATEWAY_RECEIVE, &[0, 1, 2, 3, 4, 5, 6, 7, 8, 9, 14, 15, 29, SHORT_RECORD]),
        one_each(GATEWAY_NEXT, &[0, 9, 14, 15, 29, SHORT_RECORD]),
    ]
    .concat()
}

/// Each number of bytes behind whole blocks, which decides where the padding lies; and every kind of piece.
fn wanted_digests() -> Vec<Event> {
    let places: Vec<u8> = (0..64).collect();
    let mut events = one_each(MD5_NEW, &[0, SHORT_RECORD]);
    for kind in [MD5, MD5_FEED, MD5_FINISH] {
        events.extend(with_each(kind, 0, &places));
        events.push((kind, SHORT_RECORD, 0));
    }
    for kind in 0..=4 {
        events.extend(with_each(PIECE, kind, &[0, 1]));
    }
    events.extend(one_each(COUNT_PASSED, &[0, 1]));
    events
}

/// Every reserved bit pattern, taken and with a wrong check; and bad version bytes, with a right and a wrong check.
fn wanted_version_bytes() -> Vec<Event> {
    let mut events = Vec::new();
    for kind in [RESERVED_RECOGNISED, RESERVED_AT_DEVICE, RESERVED_AT_GATEWAY] {
        for bits in 1..16 {
            events.extend(with_each(kind, bits, &[number::HANDLED, number::CHECK]));
        }
    }
    for version in [0x00, 0x02, 0x10, 0xF2] {
        events.extend(with_each(VERSION_REFUSED, version, &[0, 1]));
    }
    events
}

/// Each size at an edge, taken or refused; the gateway's reply buffer one byte too short, and just long enough; last
/// fragments of each length that matters; repeats that are the same, and that differ in each way.
fn wanted_sizes() -> Vec<Event> {
    let mut events = one_each(LAST_STORED, &[0, 1, 2]);
    events.extend([(REPEATED, 0, number::ALREADY_STORED), (REPEATED, 1, number::ALREADY_STORED)]);
    events.extend([2, 3, 4, 5, 6].map(|kind| (REPEATED, kind, number::REPEAT_DIFFERS)));
    events.extend([(GATEWAY_BUFFER, 0, 1), (GATEWAY_BUFFER, 1, 0)]);
    for (place, size) in SIZE_EDGES.iter().enumerate() {
        let is_size = SIZES.contains(size);
        events.push((SIZE_ANNOUNCED, place as u8, if is_size { number::HANDLED } else { number::DATA }));
        events.push((
            SIZE_STARTED,
            place as u8,
            if is_size { number::HANDLED } else { number::FRAGMENT_SIZE },
        ));
    }
    events
}

/// Each byte at the edges of version text, at each place, wherever one is read.
fn wanted_texts() -> Vec<Event> {
    let places: Vec<u8> = (0..16).collect();
    let of = |carrier: Carrier, bytes: &[u8]| -> Vec<Event> {
        bytes.iter().flat_map(|byte| with_each(carrier.name(), *byte, &places)).collect()
    };
    Carrier::ALL
        .into_iter()
        .flat_map(|carrier| [of(carrier, &OUTSIDE), of(carrier, &INSIDE)].concat())
        .collect()
}

/// Each message in each phase: handled, or without use.
fn wanted_messages() -> Vec<Event> {
    let device_phases = [IDLE, LOADING, LOADED, ACKED, FAILED, INSTALLING, REPORTING];
    let gateway_phases = [ASK, OFFER, SERVE, RUN, ENDED];
    let mut events = Vec::new();
    for (code, uses) in [
        (QUERY, &device_phases[..]),
        (ANNOUNCE, &device_phases),
        (FRAGMENT, &[LOADING]),
        (DOWNLOAD_RESULT, &[LOADED, FAILED]),
        (EXECUTE, &device_phases),
        (UPGRADE_RESULT, &[REPORTING]),
    ] {
        events.extend(by_use([DEVICE_HANDLED, DEVICE_NO_USE], code, &device_phases, uses));
    }
    for (code, uses) in [
        (QUERY, &[ASK][..]),
        (ANNOUNCE, &[OFFER]),
        (FRAGMENT, &gateway_phases),
        (DOWNLOAD_RESULT, &gateway_phases),
        (EXECUTE, &[RUN]),
        (UPGRADE_RESULT, &gateway_phases),
    ] {
        events.extend(by_use([GATEWAY_HANDLED, GATEWAY_NO_USE], code, &gateway_phases, uses));
    }
    events
}

fn by_use([handled, no_use]: [&'static str; 2], code: u8, phases: &[u8], uses: &[u8]) -> Vec<Event> {
    let kind = |phase| if uses.contains(phase) { handled } else { no_use };
    phases.iter().map(|phase| (kind(phase), code, *phase)).collect()
}

fn wanted_steps() -> Vec<Event> {
    [
        with_each(DEVICE_STEP, IDLE, &[IDLE, LOADING]),
        with_each(DEVICE_STEP, LOADING, &[IDLE, LOADING, LOADED, FAILED]),
        with_each(DEVICE_STEP, LOADED, &[IDLE, LOADING, LOADED, ACKED, INSTALLING]),
        with_each(DEVICE_STEP, ACKED, &[LOADING, ACKED, INSTALLING]),
        with_each(DEVICE_STEP, FAILED, &[IDLE, LOADING, FAILED]),
        with_each(DEVICE_STEP, INSTALLING, &[INSTALLING, REPORTING]),
        with_each(DEVICE_STEP, REPORTING, &[IDLE, REPORTING]),
        with_each(GATEWAY_STEP, ASK, &[ASK, OFFER, ENDED]),
        with_each(GATEWAY_STEP, OFFER, &[OFFER, SERVE, ENDED]),
        with_each(GATEWAY_STEP, SERVE, &[SERVE, RUN, ENDED]),
        with_each(GATEWAY_STEP, RUN, &[RUN, ENDED]),
        with_each(GATEWAY_STEP, ENDED, &[ENDED]),
        one_each(GATEWAY_ENDING, &[0, 1, 2, 3, 4, 5]),
        one_each(RESUMED, &[LOADING, LOADED, ACKED]),
        one_each(STARTED, &[IDLE, LOADING, LOADED, ACKED, FAILED]),
        with_each(LOADED_WITH, 0, &[0, 1]),
        with_each(LOADED_WITH, 1, &[0, 1]),
        with_each(FAILED_WITH, 1, &[0, 1]),
        with_each(LOADED_WITH_DIGEST, 0, &[0, 1]),
        with_each(LOADED_WITH_DIGEST, 1, &[0, 1]),
        with_each(FAILED_WITH_DIGEST, 0, &[0, 1]),
        with_each(FAILED_WITH_DIGEST, 1, &[0, 1]),
        one_each(DIGEST_GIVEN, &[0, 1]),
        one_each(DIGEST_RESUMED, &[LOADING, LOADED, ACKED]),
    ]
    .concat()
}

/// Every reply and message, by code and first data byte; a version's first byte says nothing and is not wanted.
fn wanted_sendings() -> Vec<Event> {
    [
        with_each(DEVICE_REPLY, QUERY, &[0x00]),
        with_each(DEVICE_REPLY, ANNOUNCE, &ANNOUNCE_ANSWERS),
        with_each(DEVICE_REPLY, EXECUTE, &[0x00, 0x01, 0x04]),
        with_each(DEVICE_MESSAGE, DOWNLOAD_RESULT, &[0x00, 0x07]),
        with_each(DEVICE_MESSAGE, UPGRADE_RESULT, &UPGRADE_RESULTS),
        with_each(GATEWAY_REPLY, FRAGMENT, &[0x00, 0x80, 0x81]),
        with_each(GATEWAY_REPLY, DOWNLOAD_RESULT, &[0x00, 0x80]),
        with_each(GATEWAY_REPLY, UPGRADE_RESULT, &[0x00, 0x80]),
        with_each(GATEWAY_MESSAGE, QUERY, &[0x00]),
        with_each(GATEWAY_MESSAGE, EXECUTE, &[0x00]),
    ]
    .concat()
}
