//! Captures to be read and mended: cut, changed, with records inside records, and random ones.

use super::writes::FAR;
use crate::reading::capture::{Mended, Reader, FROM_DEVICE, HEADER, MESSAGE_MOST, TOWARD_DEVICE};
use crate::reading::message::{
    encode, recognise, set_check, ToGateway, ANNOUNCE, BOTH_FACTS, DEVICE_ROOM, FRAGMENT, QUERY,
    UPGRADE_RESULT,
};
use crate::reading::{number, number_of};
use crate::support::captures::{self, Writer, SAMPLE_SEED};
use crate::support::inputs::{random_capture, short_download, with_byte};
use crate::support::messages::{self, fragment, query, with_reserved_bits, with_version_byte};
use crate::support::random::Random;

/// Captures of up to so many bytes are compared at every place.
const SHORT: usize = 700;

/// What a byte is changed to, beside its neighbour.
const CHANGES: [u8; 5] = [0x00, 0x4C, 0x3E, 0x3C, 0xFF];

const MARKS: [[u8; 2]; 2] = [TOWARD_DEVICE, FROM_DEVICE];

/// What recognition, both facts yes, may say of a message.
const NUMBERS: [u8; 6] = [
    number::HANDLED,
    number::START,
    number::PROTOCOL_VERSION,
    number::MESSAGE_CODE,
    number::CHECK,
    number::DATA_LENGTH,
];

/// A capture, and what it is.
#[derive(Clone, Debug)]
pub struct Case {
    pub name: String,
    pub capture: Vec<u8>,
}

impl Case {
    fn new(name: impl Into<String>, capture: Vec<u8>) -> Case {
        Case { name: name.into(), capture }
    }

    /// All places of a short capture; of a long one those where a mending reader comes, and their neighbours. Then
    /// places at the end and past it.
    pub fn places(&self) -> Vec<usize> {
        let length = self.capture.len();
        let mut places: Vec<usize> = if length <= SHORT { (0..length).collect() } else { self.stops() };
        places.extend([length, length + 1, length + HEADER]);
        places.extend(FAR);
        places
    }

    fn stops(&self) -> Vec<usize> {
        let mut stops = Vec::new();
        let mut reader = Reader::new(&self.capture);
        loop {
            stops.extend([reader.place.saturating_sub(1), reader.place, reader.place + 1]);
            if reader.next_mended() == Mended::End {
                return stops;
            }
        }
    }
}

/// The same ones in every run.
pub fn all() -> Vec<Case> {
    let mut cases = vec![Case::new("empty", Vec::new())];
    cases.extend(bad_messages());
    cases.extend(cuts_and_changes());
    cases.extend(overlapping());
    cases.extend(nested());
    cases.extend(codes_and_versions());
    cases.extend(long_captures());
    cases
}

fn record(mark: [u8; 2], message: &[u8]) -> Vec<u8> {
    let mut capture = Writer::default();
    capture.add(mark, message);
    capture.bytes
}

/// A record whose length is higher than any that can follow.
fn cut_record(mark: [u8; 2], message: &[u8]) -> Vec<u8> {
    [&mark[..], &[0xFF, 0xFF], message].concat()
}

/// A message that recognition answers with this number, and that ends with these bytes.
fn message(number: u8, data: &[u8]) -> Vec<u8> {
    let mut message = encode(FRAGMENT, data);
    match number {
        number::HANDLED => {}
        number::START => message[1] = 0xFF,
        number::PROTOCOL_VERSION => message = with_version_byte(&message, 0x02),
        number::MESSAGE_CODE => message = encode(UPGRADE_RESULT + 1, data),
        number::CHECK => message[5] ^= 1,
        number::DATA_LENGTH => {
            message[7] ^= 1;
            set_check(&mut message);
        }
        _ => unreachable!("recognition does not give {number}"),
    }
    assert_eq!(number_of(&recognise(BOTH_FACTS, &message)), number);
    message
}

/// Messages that are refused, or cut at each length: where a reader walks over them, and where mending seeks.
fn bad_messages() -> Vec<Case> {
    let mut all: Vec<Vec<u8>> = NUMBERS.iter().map(|number| message(*number, b"data")).collect();
    all.extend(messages::other_lengths(&query()));
    let sound = record(FROM_DEVICE, &query());
    let mut cases = Vec::new();
    for message in all {
        for mark in MARKS {
            let bad = record(mark, &message);
            cases.push(Case::new("a message walked over", [&bad[..], &sound].concat()));
            cases.push(Case::new("a message behind a stretch", [&[0x4C], &sound[..], &bad].concat()));
            cases.push(Case::new("a message in a stretch", [&[0x00], &bad[..], &sound].concat()));
        }
    }
    cases
}

/// Both directions, an empty record, one whose message is refused, and one whose message holds marks.
fn both_directions() -> Vec<u8> {
    let answer = ToGateway::Announce { result: 0x00 }.write(DEVICE_ROOM).expect("the answer fits the table");
    let mut capture = Writer::default();
    capture.add_toward_device(&query());
    capture.add_from_device(&answer);
    capture.add_toward_device(&[]);
    capture.add_from_device(&message(number::CHECK, &[]));
    capture.add_toward_device(&fragment(0, &[0x4C, 0x3E, 0x00, 0x00, 0x4C, 0x3C]));
    capture.bytes
}

/// Every cut of short captures; every byte changed, left out and put in.
fn cuts_and_changes() -> Vec<Case> {
    let mut cases = Vec::new();
    for (name, capture) in
        [("both directions", both_directions()), ("01's four records", captures::four_records())]
    {
        for length in 0..=capture.len() {
            cases.push(Case::new(format!("{name} cut at {length}"), capture[..length].to_vec()));
        }
        for place in 0..capture.len() {
            let neighbour = capture[place] ^ 1;
            for value in CHANGES.into_iter().chain([neighbour]) {
                let name = format!("{name}, byte {place} is {value:02X}");
                cases.push(Case::new(name, with_byte(&capture, place, value)));
            }
            let (before, behind) = capture.split_at(place);
            cases.push(Case::new(format!("{name} without byte {place}"), [before, &behind[1..]].concat()));
            let name = format!("{name} with 4C before byte {place}");
            cases.push(Case::new(name, [before, &[0x4C], behind].concat()));
        }
    }
    let download = short_download();
    for length in 0..=download.len() {
        cases.push(Case::new(format!("a short download cut at {length}"), download[..length].to_vec()));
    }
    cases
}

/// A candidate that ends at each byte of a record.
fn overlapping() -> Vec<Case> {
    let second = record(TOWARD_DEVICE, &query());
    let mut cases = Vec::new();
    for number in NUMBERS {
        for mark in MARKS {
            for inside in 1..second.len() {
                let (front, rest) = second.split_at(inside);
                let first = record(mark, &message(number, front));
                let capture = [&[0x00], &first[..], rest, &second].concat();
                let name = format!("a candidate of {number} over the first {inside} bytes of a record");
                cases.push(Case::new(name, capture));
            }
        }
    }
    cases
}

/// Records around others, good and bad, with each kind of bytes before and behind them.
fn nested() -> Vec<Case> {
    let sound = record(TOWARD_DEVICE, &query());
    let refused = record(FROM_DEVICE, &message(number::CHECK, &[]));
    let befores: [&[u8]; 6] = [&[], &[0x00], &[0x4C], &[0x4C, 0x3E, 0xFF, 0xFF], &sound, &refused];
    let behinds: [&[u8]; 5] = [&[], &[0x00], &[0x4C, 0x3C, 0x00], &sound, &refused];
    let mut cases = Vec::new();
    for (inner_name, inner) in inners() {
        for (name, outer) in outers(&inner) {
            for before in befores {
                for behind in behinds {
                    let name = format!("{name} around {inner_name}");
                    cases.push(Case::new(name, [before, &outer, behind].concat()));
                }
            }
        }
    }
    cases
}

fn inners() -> Vec<(&'static str, Vec<u8>)> {
    let sound = MARKS.map(|mark| record(mark, &query()));
    vec![
        ("nothing", Vec::new()),
        ("a record toward", sound[0].clone()),
        ("a record from", sound[1].clone()),
        ("two records", sound.concat()),
        ("a refused record and a good one", [record(TOWARD_DEVICE, &[]), sound[1].clone()].concat()),
        ("a record around a record", record(FROM_DEVICE, &message(number::HANDLED, &sound[0]))),
        ("a cut record", cut_record(FROM_DEVICE, &[0xFF])),
    ]
}

fn outers(inside: &[u8]) -> Vec<(String, Vec<u8>)> {
    let mut outers = Vec::new();
    for mark in MARKS {
        for number in NUMBERS {
            outers.push((format!("a record of {number}"), record(mark, &message(number, inside))));
        }
        outers.push(("a cut record".to_string(), cut_record(mark, inside)));
    }
    outers.push(("a wrong mark".to_string(), record([0x4C, 0x3D], inside)));
    outers
}

/// Each code and its neighbours, and each version byte, in both directions, behind a byte that is passed over.
fn codes_and_versions() -> Vec<Case> {
    let mut all = Vec::new();
    for code in QUERY - 1..=UPGRADE_RESULT + 1 {
        all.push((format!("code {code}"), encode(code, &[0x00])));
    }
    for version in 0..=255 {
        all.push((format!("version byte {version:02X}"), with_version_byte(&query(), version)));
    }
    let cases = all.iter().flat_map(|(name, message)| {
        MARKS.map(|mark| Case::new(name, [&[0x00], &record(mark, message)[..]].concat()))
    });
    cases.collect()
}

/// The longest messages, the samples with and without damage, and a capture that takes long.
fn long_captures() -> Vec<Case> {
    let mut cases = Vec::new();
    let sound = record(FROM_DEVICE, &query());
    let longest = message(number::HANDLED, &vec![0x4C; MESSAGE_MOST - 8]);
    for mark in MARKS {
        for whole in [record(mark, &longest), record(mark, &vec![0x3E; MESSAGE_MOST])] {
            for before in [&[][..], &[0x00]] {
                cases.push(Case::new("the longest message", [before, &whole, &sound].concat()));
                let cut = &whole[..whole.len() - 1];
                cases.push(Case::new("the longest message cut", [before, cut].concat()));
            }
        }
    }
    for sample in [captures::full_download(SAMPLE_SEED), captures::large_fragments(), captures::damaged()] {
        let mut random = Random::new(SAMPLE_SEED);
        cases.push(Case::new("a sample", sample.clone()));
        for _ in 0..10 {
            cases.push(Case::new("a sample with damage", damaged(&mut random, sample.clone())));
        }
    }
    cases.push(Case::new("candidates everywhere", candidates_everywhere()));
    cases
}

/// One candidate after the other, each of which reaches to the end, so that its check is made over all of that.
fn candidates_everywhere() -> Vec<u8> {
    let start = [&TOWARD_DEVICE[..], &[0x00, 0x00, 0xFF, 0xFE, 0x01, ANNOUNCE, 0x00, 0x00]].concat();
    let mut capture: Vec<u8> = start.iter().copied().cycle().take(4_096).collect();
    for place in (0..capture.len() - HEADER).step_by(start.len()) {
        let length = (capture.len() - place - HEADER) as u16;
        capture[place + 2..place + HEADER].copy_from_slice(&length.to_be_bytes());
    }
    capture[0] = 0x00;
    capture
}

/// A capture of pieces that may hold others, or one of the replay program's, mostly with some damage.
pub fn random(random: &mut Random) -> Case {
    let (name, mut capture) = if random.once_in(40) {
        ("a random capture for replay", random_capture(random))
    } else {
        let count = random.between(1..=6);
        ("random pieces", pieces(random, count, 0))
    };
    for _ in 0..random.below(4) {
        capture = damaged(random, capture);
    }
    Case::new(name, capture)
}

fn pieces(random: &mut Random, count: usize, depth: usize) -> Vec<u8> {
    (0..count).flat_map(|_| piece(random, depth)).collect()
}

fn piece(random: &mut Random, depth: usize) -> Vec<u8> {
    let mark = random.pick(&MARKS);
    let code = random.between(QUERY.into()..=UPGRADE_RESULT.into()) as u8;
    let inside = if depth < 2 && random.once_in(3) {
        let count = random.between(1..=3);
        pieces(random, count, depth + 1)
    } else {
        noise(random)
    };
    match random.below(12) {
        0 => inside,
        1 => cut_record(mark, &inside),
        2 => record([0x4C, random.byte()], &inside),
        3 => record(mark, &inside),
        4 => record(mark, &messages::damaged(random, &encode(code, &inside))),
        5 => record(mark, &with_reserved_bits(&encode(code, &inside), random.below(16) as u8)),
        6 | 7 => record(mark, &message(random.pick(&NUMBERS), &inside)),
        _ => record(mark, &encode(code, &inside)),
    }
}

/// Bytes of which marks and messages are made.
fn noise(random: &mut Random) -> Vec<u8> {
    let length = random.pick(&[0, 0, 1, 2, 3, 5, 9, 20]);
    (0..length).map(|_| random.pick(&[0x4C, 0x4C, 0x3E, 0x3C, 0x00, 0x08, 0xFF, 0xFE, 0x01, 0x13])).collect()
}

/// Bytes changed, lost, put in, repeated or cut off.
fn damaged(random: &mut Random, mut capture: Vec<u8>) -> Vec<u8> {
    if capture.is_empty() {
        return noise(random);
    }
    let from = random.below(capture.len());
    let to = from + random.between(1..=12).min(capture.len() - from);
    match random.below(6) {
        0 => capture[from] ^= 1 << random.below(8),
        1 => capture[from] = random.pick(&CHANGES),
        2 => drop(capture.drain(from..to)),
        3 => drop(capture.splice(from..from, noise(random))),
        4 => capture.extend_from_within(from..to),
        _ => capture.truncate(from),
    }
    capture
}
