//! Inputs of the programs that read a capture.

use super::captures::{self, all_toward_device, Server, Session, Writer, SAMPLE_SEED};
use super::messages::{
    self, announce, download_result, execute, fragment, no_fragment, query, upgrade_result, with_right_check,
};
use super::random::Random;
use super::version;
use crate::reading::capture::{FROM_DEVICE, TOWARD_DEVICE};
use crate::reading::check::check;
use crate::reading::decode::decode;
use crate::reading::device::{FAILED, IDLE, INSTALLING, LOADED, LOADING};
use crate::reading::message::{
    encode, rounded_up, ToGateway, Version, ANNOUNCE_ANSWERS, DEVICE_ROOM, DOWNLOAD_RESULTS, EXECUTE_ANSWERS,
    GATEWAY_ANSWERS, HEADER, UPGRADE_RESULTS,
};
use crate::reading::replay::{hex, replay, IMAGE_LENGTH, INPUT_LIMIT, MAP_LENGTH};
use std::collections::BTreeSet;

/// As many as replay's map has bits.
const FRAGMENTS: u16 = (MAP_LENGTH * 8) as u16;

const RANDOM_CAPTURES: usize = 1_200;
const RANDOM_DOWNLOADS: usize = 120;

/// One input of the program.
pub struct Case {
    pub name: String,
    pub input: Vec<u8>,
    /// Written in pieces of this many bytes with pauses, so that the program's reads return early.
    pub pieces: Option<usize>,
}

/// All cases, as they are collected.
#[derive(Default)]
struct Cases(Vec<Case>);

impl Cases {
    fn add(&mut self, name: impl Into<String>, input: Vec<u8>) {
        self.0.push(Case { name: name.into(), input, pieces: None });
    }

    fn add_in_pieces(&mut self, name: &str, input: &[u8], pieces: usize) {
        let name = format!("{} in pieces of {}", name, pieces);
        self.0.push(Case { name, input: input.to_vec(), pieces: Some(pieces) });
    }
}

/// Every input, the same ones for the same seed.
pub fn all_cases(seed: u64) -> Vec<Case> {
    let mut random = Random::new(seed);
    let mut cases = Cases::default();
    cases.add("empty", Vec::new());
    add_samples(&mut cases);
    add_cuts(&mut cases);
    add_input_lengths(&mut cases);
    add_marks(&mut cases);
    add_record_lengths(&mut cases);
    add_messages_by_phase(&mut cases);
    add_messages_both_ways(&mut cases);
    add_whole_images(&mut cases);
    add_downloads(&mut cases, &mut random);
    add_random_captures(&mut cases, &mut random);
    cases.0
}

fn add_samples(cases: &mut Cases) {
    cases.add("01's four records", captures::four_records());
    cases.add("full download", captures::full_download(SAMPLE_SEED));
    cases.add("recut", captures::recut(SAMPLE_SEED));
    cases.add("damaged", captures::damaged());
    cases.add("cut", captures::cut());
    for pieces in [1, 2, 3, 5, 64] {
        cases.add_in_pieces("01's four records", &captures::four_records(), pieces);
    }
    for pieces in [100, 1000] {
        cases.add_in_pieces("full download", &captures::full_download(SAMPLE_SEED), pieces);
    }
}

/// A capture of both directions, short enough to be cut at every byte.
pub fn short_download() -> Vec<u8> {
    let package = captures::package(5, 2 * 32 + 9);
    let mut server = Server::new("V1.0", 32, &package, true);
    let mut session = Session::new(2);
    session.offer(&mut server);
    session.download(&mut server, 3);
    session.report(&mut server);
    session.exchange(&mut server);
    session.capture.bytes
}

fn add_cuts(cases: &mut Cases) {
    for (name, capture) in
        [("01's four records", captures::four_records()), ("a short download", short_download())]
    {
        for length in 0..=capture.len() {
            cases.add(format!("{} cut at {}", name, length), capture[..length].to_vec());
        }
    }
}

/// A capture of exactly so many bytes: 01's records, then one long record that fills it up.
fn filled(length: usize, mark: [u8; 2]) -> Vec<u8> {
    let mut capture = Writer { bytes: captures::four_records() };
    let rest = length - capture.bytes.len() - 4;
    capture.add(mark, &vec![0xFF; rest.min(30_000)]);
    if rest > 30_000 {
        capture.add(mark, &vec![0xFE; rest - 30_004]);
    }
    capture.bytes
}

/// So many bytes of records without a message; the last one is cut short if they do not come out even.
fn empty_records(length: usize, mark: [u8; 2]) -> Vec<u8> {
    [mark[0], mark[1], 0, 0].iter().copied().cycle().take(length).collect()
}

fn add_input_lengths(cases: &mut Cases) {
    let lengths = INPUT_LIMIT - 3..=INPUT_LIMIT + 4;
    for length in lengths.chain([36_864, 49_152, 60_000]) {
        for mark in [TOWARD_DEVICE, FROM_DEVICE] {
            cases.add(format!("filled up to {}", length), filled(length, mark));
            cases.add(format!("{} bytes of empty records", length), empty_records(length, mark));
        }
        cases.add(format!("{} bytes 00", length), vec![0; length]);
    }
    for length in [65_535, 65_536, 65_537, 65_625, 131_072, 1_000_000, 3_000_000] {
        cases.add(format!("{} bytes of empty records", length), empty_records(length, TOWARD_DEVICE));
        let mut capture = captures::four_records();
        capture.resize(length, 0);
        cases.add(format!("{} bytes, four records first", length), capture);
    }
    for length in [INPUT_LIMIT - 1, INPUT_LIMIT, INPUT_LIMIT + 1] {
        for pieces in [4_096, 8_191, 32_768] {
            cases.add_in_pieces("filled up", &filled(length, TOWARD_DEVICE), pieces);
        }
    }
}

/// Each byte of the first mark at every value, and each of the later marks at some.
fn add_marks(cases: &mut Cases) {
    let capture = captures::four_records();
    for place in 0..2 {
        for value in 0..=255 {
            cases.add(format!("mark byte {} is {:02X}", place, value), with_byte(&capture, place, value));
        }
    }
    let messages = captures::four_messages();
    for count in 1..=messages.len() {
        let start = all_toward_device(&messages[..count]).len();
        let mut longer = capture.clone();
        longer.extend(&capture);
        for (place, value) in [(0, 0x3E), (0, 0x00), (0, 0x4D), (1, 0x4C), (1, 0x3D), (1, 0x3C), (1, 0x00)] {
            let name = format!("mark byte {} after {} records is {:02X}", place, count, value);
            cases.add(name, with_byte(&longer, start + place, value));
        }
    }
}

pub fn with_byte(capture: &[u8], place: usize, value: u8) -> Vec<u8> {
    let mut changed = capture.to_vec();
    changed[place] = value;
    changed
}

/// Lengths that do and do not fit, and rests of 1 to 3 bytes; at the start and after good records.
fn add_record_lengths(cases: &mut Cases) {
    for before in [Vec::new(), captures::four_records()] {
        for mark in [TOWARD_DEVICE, FROM_DEVICE] {
            for (length, there) in [
                (0, 0),
                (0, 1),
                (1, 0),
                (1, 1),
                (1, 2),
                (255, 255),
                (256, 255),
                (256, 256),
                (256, 1),
                (257, 257),
                (1_024, 2),
                (30_000, 29_999),
                (30_000, 30_000),
                (32_675, 32_675),
                (65_535, 0),
                (65_535, 1),
                (65_535, 30_000),
                (65_535, 32_675),
            ] {
                let name = format!("length {} with {} bytes there", length, there);
                let record = [&mark[..], &u16::to_be_bytes(length), &vec![0; there]].concat();
                cases.add(name, [&before[..], &record].concat());
            }
        }
        for rest in
            ["00", "4C", "3E", "FF", "4C3E", "4C3C", "4C3D", "3E4C", "0000", "4C3E00", "4C3CFF", "4C0000"]
        {
            cases.add(format!("{} left", rest), [&before[..], &super::bytes(rest)].concat());
        }
        let record_and_more = [&[0x4C, 0x3E, 0, 0][..], &before].concat();
        cases.add("an empty record first", record_and_more);
    }
}

const SIZE: u16 = 32;

fn target() -> Version {
    version("V1.0")
}

/// The package of the prefixes below: three fragments, the last one short.
fn small_package() -> Vec<u8> {
    captures::package(6, 2 * 32 + 9)
}

fn small_fragments() -> Vec<Vec<u8>> {
    let package = small_package();
    package.chunks(SIZE.into()).enumerate().map(|(index, data)| fragment(index as u16, data)).collect()
}

/// Messages that bring the device of the program into each of its states.
fn prefixes() -> Vec<(&'static str, Vec<Vec<u8>>)> {
    let code = check(&small_package());
    let fragments = small_fragments();
    let good = announce(target(), SIZE, 3, code);
    let bad = announce(target(), SIZE, 3, code ^ 1);
    let uncoded = announce(target(), SIZE, 3, 0);
    let started = |first: &Vec<u8>, count: usize| [&[first.clone()][..], &fragments[..count]].concat();
    let then = |mut messages: Vec<Vec<u8>>, last: Vec<u8>| {
        messages.push(last);
        messages
    };
    vec![
        ("fresh", vec![]),
        ("given up", then(started(&good, 1), no_fragment(0x80, 1))),
        ("Loading, none stored", started(&good, 0)),
        ("Loading, one missing", started(&good, 2)),
        ("Loading without code", started(&uncoded, 1)),
        ("Loaded", started(&good, 3)),
        ("Acked", then(started(&good, 3), download_result(0x00))),
        ("Acked without code", then(started(&uncoded, 3), download_result(0x00))),
        ("Failed", started(&bad, 3)),
        ("Installing", then(started(&good, 3), execute())),
    ]
}

/// What comes after each message or batch, so that what it has left behind shows.
fn tail() -> Vec<Vec<u8>> {
    let mut messages = small_fragments();
    messages.extend([download_result(0x00), query(), execute(), upgrade_result(0x00)]);
    messages
}

/// Valid messages, each tried alone.
fn valid_messages() -> Vec<Vec<u8>> {
    let code = check(&small_package());
    let old = version("V0.9");
    let mut all = vec![query(), execute(), download_result(0x00), download_result(0x80)];
    all.extend([upgrade_result(0x00), upgrade_result(0x80)]);
    for (version, size, total, code) in [
        (target(), 32, 3, code),
        (target(), 32, 3, code ^ 0x0100),
        (target(), 32, 3, 0),
        (target(), 32, 4, code),
        (target(), 33, 3, code),
        (version("V1.0-"), 32, 3, code),
        (old, 32, 3, code),
        (old, 1_024, 65_535, code),
        (target(), 500, 32, 0),
        (target(), 500, 33, 0),
        (target(), 1_024, 16, 0),
        (target(), 1_024, 17, 0),
        (target(), 32, FRAGMENTS, 0),
        (target(), 32, FRAGMENTS + 1, 0),
        (target(), 256, 64, 0),
        (target(), 256, 65, 0),
        (target(), 145, 113, 0),
        (target(), 256, 256, 0),
        (target(), 1_024, 65_535, 0),
    ] {
        all.push(announce(version, size, total, code));
    }
    for index in [0, 2, 3, 256, 65_535] {
        for length in [1, 9, 31, 32, 33, 500, 1_024] {
            all.push(fragment(index, &vec![0x5A; length]));
        }
        all.push(no_fragment(0x80, index));
        all.push(no_fragment(0x81, index));
    }
    all
}

/// Messages of the other direction: the device reads them by its own column.
fn replies() -> Vec<Vec<u8>> {
    let mut all: Vec<ToGateway> = vec![ToGateway::Query { version: target() }];
    all.push(ToGateway::Fragment { version: target(), index: 0 });
    all.push(ToGateway::Announce { result: 0x00 });
    all.push(ToGateway::DownloadResult { result: 0x07 });
    all.push(ToGateway::Execute { result: 0x00 });
    all.push(ToGateway::UpgradeResult { result: 0x00, version: target() });
    all.iter().map(|message| message.write(DEVICE_ROOM).expect("the message fits the table")).collect()
}

/// Damaged messages, tried many in one capture.
fn batches() -> Vec<(String, Vec<Vec<u8>>)> {
    let code = check(&small_package());
    let mut all = vec![
        ("other data".to_string(), messages::other_data()),
        ("other results".to_string(), messages::other_results()),
        ("other announcements".to_string(), messages::other_announcements()),
        ("other fragments".to_string(), messages::other_fragments()),
        ("replies".to_string(), replies()),
    ];
    for (name, message) in [
        ("query", query()),
        ("announcement", announce(target(), SIZE, 3, code)),
        ("fragment", small_fragments().remove(2)),
        ("no fragment", no_fragment(0x81, 0)),
        ("download result", download_result(0x00)),
        ("execute", execute()),
        ("upgrade result", upgrade_result(0x00)),
    ] {
        let flips = messages::bit_flips(&message);
        let lengths = messages::other_lengths(&message);
        all.push((format!("{}, bits", name), flips.clone()));
        all.push((format!("{}, lengths", name), lengths.clone()));
        all.push((format!("{}, data lengths", name), messages::other_data_lengths(&message)));
        all.push((format!("{}, bits with right checks", name), messages::with_right_check(flips)));
        all.push((format!("{}, lengths with right checks", name), messages::with_right_check(lengths)));
    }
    all
}

fn add_messages_by_phase(cases: &mut Cases) {
    for (phase, prefix) in prefixes() {
        for message in valid_messages() {
            let name = format!("{}: {}", phase, hex(&message));
            cases.add(name, all_toward_device(&[&prefix[..], &[message], &tail()].concat()));
        }
        for (batch, messages) in batches() {
            let name = format!("{}: {}", phase, batch);
            cases.add(name, all_toward_device(&[&prefix[..], &messages, &tail()].concat()));
        }
    }
}

/// Downloads that fill image and map to the last byte, in rising and falling order.
fn add_whole_images(cases: &mut Cases) {
    for (size, length) in [
        (32, IMAGE_LENGTH),
        (32, IMAGE_LENGTH - 31),
        (500, 16_000),
        (64, IMAGE_LENGTH),
        (1_024, IMAGE_LENGTH),
        (1_023, 16 * 1_023),
    ] {
        for falling in [false, true] {
            let package = captures::package(8, length);
            let total = rounded_up(length, size) as u16;
            let mut messages = vec![announce(target(), size as u16, total, check(&package))];
            let mut fragments: Vec<Vec<u8>> =
                package.chunks(size).enumerate().map(|(index, data)| fragment(index as u16, data)).collect();
            if falling {
                fragments.reverse();
            }
            messages.extend(fragments);
            messages.extend([download_result(0x00), execute()]);
            cases.add(format!("{} bytes by {}", length, size), all_toward_device(&messages));
        }
    }
}

/// Whole downloads over a bad link, and the March case, with random sizes.
fn add_downloads(cases: &mut Cases, random: &mut Random) {
    for _ in 0..RANDOM_DOWNLOADS {
        let size = random.between(32..=1_024) as u16;
        let total = random.between(1..=(16_384 / usize::from(size)).min(14));
        let length = (total - 1) * usize::from(size) + random.between(1..=size.into());
        let seed = random.draw();
        let mut session = Session::new(seed);
        if random.once_in(2) {
            let mut first = Server::new("V1.0", size, &random.bytes(length), random.once_in(2));
            session.offer(&mut first);
            session.download(&mut first, random.below(total + 1) as u16);
        }
        let package = random.bytes(length);
        let mut server = Server::new("V1.0", size, &package, !random.once_in(3));
        session.offer(&mut server);
        session.download(&mut server, total as u16);
        if random.once_in(2) {
            session.offer(&mut server.clone());
        }
        session.report(&mut server);
        session.exchange(&mut server);
        cases.add("a random download", session.capture.bytes);
    }
    for seed in 0..20 {
        cases.add("the full download with other losses", captures::full_download(seed));
        cases.add("the recut with other losses", captures::recut(seed));
    }
}

/// Random records that mostly suit the phase that the device has reached.
fn add_random_captures(cases: &mut Cases, random: &mut Random) {
    for _ in 0..RANDOM_CAPTURES {
        let capture = random_capture(random);
        cases.add("a random capture", capture);
    }
}

pub fn random_capture(random: &mut Random) -> Vec<u8> {
    let mut session = Session::new(random.draw());
    let package = small_random_package(random);
    let records = random.between(1..=80);
    for _ in 0..records {
        if random.once_in(10) {
            let length = random.below(30);
            session.capture.add_from_device(&random.bytes(length));
        }
        let message = random_message(random, &session, &package);
        let message = if random.once_in(8) { messages::damaged(random, &message) } else { message };
        session.deliver(&message);
    }
    let mut capture = session.capture.bytes;
    match random.below(8) {
        0 => capture.truncate(random.below(capture.len())),
        1 => capture = with_byte(&capture, random.below(capture.len()), random.byte()),
        2 => capture.extend(random.bytes(2)),
        _ => {}
    }
    capture.truncate(INPUT_LIMIT);
    capture
}

/// Fragment size and package of one random capture.
struct Package {
    size: u16,
    bytes: Vec<u8>,
}

impl Package {
    fn total(&self) -> u16 {
        self.bytes.chunks(self.size.into()).len() as u16
    }
}

fn small_random_package(random: &mut Random) -> Package {
    let size = random.pick(&[32, 33, 40, 64, 100, 500, 1_023, 1_024]);
    let total = random.between(1..=10);
    let length = (total - 1) * size + random.between(1..=size);
    Package { size: size as u16, bytes: random.bytes(length) }
}

fn random_message(random: &mut Random, session: &Session, package: &Package) -> Vec<u8> {
    if random.once_in(5) {
        return unsuited_message(random, package);
    }
    match session.device.phase {
        IDLE | FAILED if random.once_in(4) => download_result(random.pick(&[0x00, 0x80])),
        IDLE | FAILED => random_announcement(random, package),
        LOADING => random_fragment(random, session, package),
        LOADED if random.once_in(2) => download_result(0x00),
        INSTALLING => unsuited_message(random, package),
        _ => execute(),
    }
}

fn unsuited_message(random: &mut Random, package: &Package) -> Vec<u8> {
    match random.below(8) {
        0 => query(),
        1 => random_announcement(random, package),
        2 => execute(),
        3 => download_result(random.pick(&[0x00, 0x80])),
        4 => upgrade_result(random.pick(&[0x00, 0x80])),
        5 => no_fragment(random.pick(&[0x80, 0x81, 0x81]), random.word()),
        6 => {
            let length = random.between(1..=1_024);
            fragment(random.below(12) as u16, &random.bytes(length))
        }
        _ => {
            let length = random.below(24);
            encode(random.between(19..=24) as u8, &random.bytes(length))
        }
    }
}

fn random_announcement(random: &mut Random, package: &Package) -> Vec<u8> {
    let code = check(&package.bytes);
    let code = random.pick(&[code, code, code, 0, code ^ 0x8000]);
    let text = random.pick(&["V1.0", "V1.0", "V1.0", "V1.0", "V0.9", "V0.9.1"]);
    match random.below(8) {
        0 => announce(version(text), random.between(32..=1_024) as u16, random.between(1..=60) as u16, code),
        1 => announce(version(text), package.size, package.total() + 1, code),
        _ => announce(version(text), package.size, package.total(), code),
    }
}

/// Mostly a fragment of the package, by any index; sometimes of a wrong length or index.
fn random_fragment(random: &mut Random, session: &Session, package: &Package) -> Vec<u8> {
    let chunks: Vec<&[u8]> = package.bytes.chunks(package.size.into()).collect();
    let index = random.below(chunks.len());
    match random.below(10) {
        0 => fragment(session.device.total + random.below(3) as u16, chunks[index]),
        1 => fragment(index as u16, &chunks[index][..random.between(1..=chunks[index].len())]),
        _ => fragment(index as u16, chunks[index]),
    }
}

/// Every message of both columns, as a record of either direction: whole, then with each of the tests 3 to 7 failing, then
/// with two bytes of data more.
fn add_messages_both_ways(cases: &mut Cases) {
    for message in messages_of_both_columns() {
        let mut all = vec![message.clone()];
        for place in 1..5 {
            let mut other = message.clone();
            other[place] ^= 0x22;
            all.push(other);
        }
        all.extend(with_right_check(vec![[&message[..], &[0]].concat()]));
        all.push(encode(message[3], &[&message[HEADER..], &[0, 0]].concat()));
        let mut capture = Writer { bytes: Vec::new() };
        for message in &all {
            capture.add_toward_device(message);
            capture.add_from_device(message);
        }
        cases.add(format!("either way, {}", hex(&message[..message.len().min(40)])), capture.bytes);
    }
}

/// Texts of every length among them, and the results that the table allows.
fn messages_of_both_columns() -> Vec<Vec<u8>> {
    let texts = (1..=16).map(|length| version(&"V_0.9-az10ABCDEF"[..length]));
    let mut messages = vec![query(), execute(), announce(version("V1.0"), 1_024, 65_535, 0xABCD)];
    messages.extend([fragment(65_535, &[0x41; 1_024]), fragment(0, &[0x41])]);
    messages.extend([0x80, 0x81].map(|result| no_fragment(result, 9)));
    messages.extend(GATEWAY_ANSWERS.map(download_result));
    messages.extend(GATEWAY_ANSWERS.map(upgrade_result));
    let mut to_gateway = Vec::new();
    for text in texts {
        messages.push(announce(text, 32, 1, 0));
        to_gateway.extend([
            ToGateway::Query { version: text },
            ToGateway::Fragment { version: text, index: 10 },
            ToGateway::UpgradeResult { result: 0x00, version: text },
        ]);
    }
    to_gateway.extend(ANNOUNCE_ANSWERS.map(|result| ToGateway::Announce { result }));
    to_gateway.extend(DOWNLOAD_RESULTS.map(|result| ToGateway::DownloadResult { result }));
    to_gateway.extend(EXECUTE_ANSWERS.map(|result| ToGateway::Execute { result }));
    to_gateway
        .extend(UPGRADE_RESULTS.map(|result| ToGateway::UpgradeResult { result, version: version("V1.0") }));
    messages
        .extend(to_gateway.iter().map(|message| message.write(DEVICE_ROOM).expect("the table allows it")));
    messages
}

/// What the inputs must bring about, whatever the seed: every outcome, phase and fault that a replay can print, and
/// every name and reason in the lines of decode.
pub fn not_reached(cases: &[Case]) -> Vec<String> {
    let mut seen = BTreeSet::new();
    for case in cases {
        for line in replay(&case.input).lines() {
            let words: Vec<&str> = line.split(' ').collect();
            match words[..] {
                [_, outcome, phase, _] => {
                    seen.extend([format!("outcome {}", outcome), format!("phase {}", phase)])
                }
                _ => seen.extend([format!("fault {}", line)]),
            }
        }
        for line in decode(&case.input).lines() {
            let words: Vec<&str> = line.split(' ').collect();
            match words[..] {
                [_, direction, "none", number, ..] => seen.insert(format!("{} none {}", direction, number)),
                [_, direction, name, ..] => seen.insert(format!("{} {}", direction, name)),
                _ => seen.insert(format!("line {}", line)),
            };
        }
    }
    let outcomes = [0, 3, 4, 5, 6, 7, 8, 9, 10, 11, 12].map(|number| format!("outcome {}", number));
    let phases = [0, 1, 2, 3, 4, 5].map(|phase| format!("phase {}", phase));
    let faults = [20, 21].map(|number| format!("fault {}", number));
    let names = ["query", "announce", "fragment", "download", "execute", "result"].map(str::to_string);
    let reasons = [3, 4, 5, 6, 7, 8].map(|number| format!("none {}", number));
    let lines = names
        .into_iter()
        .chain(reasons)
        .flat_map(|line| ["to-device", "from-device"].map(|direction| format!("{} {}", direction, line)));
    let stops = ["20 wrong", "21 cut", "line 21"].map(str::to_string);
    let all = outcomes.into_iter().chain(phases).chain(faults).chain(lines).chain(stops);
    all.filter(|wanted| !seen.contains(wanted)).collect()
}
