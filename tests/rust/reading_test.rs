//! Holds the reading against the published messages and the examples of 01. The expected values are written out here.

mod reading;
mod support;

use reading::boundary::{Boundary, Reading};
use reading::capture::{mend, write, Item, Mended, Reader};
use reading::check::{check, message_check, step, TABLE};
use reading::decode::decode;
use reading::device::{self, Device, BUSY, INTERNAL, LOW_POWER, READY, WEAK_SIGNAL};
use reading::gateway::{self, cut, Gateway};
use reading::layout::{read_device, read_state, write_device, write_state, MD5_STATE};
use reading::md5::{md5, State};
use reading::message::{
    encode, recognise, set_check, Announcement, Facts, ToDevice, ToGateway, BOTH_FACTS, DEVICE_ROOM,
    GATEWAY_ROOM,
};
use reading::replay::{hex, replay, run};
use reading::{number_of, Answer};
use std::fmt::Debug;
use std::process;
use support::captures::{self, all_toward_device, SAMPLE_SEED};
use support::messages::{
    announce, any_announce, download_result, execute, fragment, no_fragment, query, upgrade_result,
    with_reserved_bits,
};
use support::random::Random;
use support::{bytes, version};

/// The reading's values that were compared with expected ones.
#[derive(Default)]
struct Tally {
    compared: usize,
    different: usize,
}

impl Tally {
    fn same<T: PartialEq + Debug>(&mut self, what: &str, found: T, expected: T) {
        self.compared += 1;
        if found != expected {
            self.different += 1;
            println!("{}: found {:02X?}, expected {:02X?}", what, found, expected);
        }
    }
}

const V09: &str = "56302E39000000000000000000000000";
const V10: &str = "56312E30000000000000000000000000";

fn published_to_device() -> Vec<(String, ToDevice<'static>)> {
    let v10 = version("V1.0");
    let offer = |size, total, code| ToDevice::Announce(Announcement { version: v10, size, total, code });
    vec![
        ("FFFE01134C9A0000".to_string(), ToDevice::Query),
        (format!("FFFE011402F70016{}01F400011234", V10), offer(500, 1, 0x1234)),
        (format!("FFFE01143AE60016{}01F400010000", V10), offer(500, 1, 0)),
        (format!("FFFE011410190016{}0100013D6534", V10), offer(256, 317, 0x6534)),
        (
            "FFFE0115E107001300000048454C4C4F2C20496F5420534F544121".to_string(),
            ToDevice::Fragment { result: 0, index: 0, data: b"HELLO, IoT SOTA!" },
        ),
        ("FFFE0116850E000100".to_string(), ToDevice::DownloadResult { result: 0 }),
        ("FFFE0117CF900000".to_string(), ToDevice::Execute),
        ("FFFE0118AFA1000100".to_string(), ToDevice::UpgradeResult { result: 0 }),
    ]
}

fn published_to_gateway() -> Vec<(String, ToGateway)> {
    let (v09, v10) = (version("V0.9"), version("V1.0"));
    vec![
        (format!("FFFE01138DE3001100{}", V09), ToGateway::Query { version: v09 }),
        (format!("FFFE01137AB3001100{}", V10), ToGateway::Query { version: v10 }),
        ("FFFE0114D768000100".to_string(), ToGateway::Announce { result: 0 }),
        (format!("FFFE011556180012{}0000", V10), ToGateway::Fragment { version: v10, index: 0 }),
        ("FFFE0116850E000100".to_string(), ToGateway::DownloadResult { result: 0 }),
        ("FFFE0117B725000100".to_string(), ToGateway::Execute { result: 0 }),
        (format!("FFFE0118C7D2001100{}", V10), ToGateway::UpgradeResult { result: 0, version: v10 }),
    ]
}

/// Each published message is recognised, read as its fields, and written back byte for byte; with reserved bits it is
/// read as the same, and written as it was published.
fn published_messages(tally: &mut Tally) {
    for (text, message) in published_to_device() {
        let wire = bytes(&text);
        tally.same(&text, ToDevice::read(BOTH_FACTS, &wire), Ok(message));
        tally.same(&text, message.write(GATEWAY_ROOM), Ok(wire.clone()));
        tally.same(&text, message.write(GATEWAY_ROOM - 1), Err(15));
        for bits in 1..16 {
            tally.same(&text, ToDevice::read(BOTH_FACTS, &with_reserved_bits(&wire, bits)), Ok(message));
        }
    }
    for (text, message) in published_to_gateway() {
        let wire = bytes(&text);
        tally.same(&text, ToGateway::read(BOTH_FACTS, &wire), Ok(message));
        tally.same(&text, message.write(DEVICE_ROOM), Ok(wire.clone()));
        tally.same(&text, message.write(DEVICE_ROOM - 1), Err(15));
        for bits in 1..16 {
            tally.same(&text, ToGateway::read(BOTH_FACTS, &with_reserved_bits(&wire, bits)), Ok(message));
        }
    }
}

fn check_rule(tally: &mut Tally) {
    for (entry, value) in [(0, 0), (1, 0x1021), (137, 0x00A1), (255, 0x1EF0)] {
        tally.same(&format!("entry {}", entry), TABLE[entry], value);
    }
    tally.same("the step that loses information", step(0xA189, 0x00), 0x0000);
    tally.same("the check of nothing", check(&[]), 0);
    let announcement = bytes(&format!("FFFE01143AE60016{}01F400010000", V10));
    for place in (0..announcement.len() - 1).filter(|place| !(3..=5).contains(place)) {
        let mut changed = announcement.clone();
        changed[place] ^= 0x0A;
        changed[place + 1] ^= 0xC3;
        tally.same("two neighbouring bytes", message_check(&changed), 0x3AE6);
    }
}

/// The test suite of RFC 1321 (A.5), whole and byte by byte, with the state in bytes between them.
fn digest_suite(tally: &mut Tally) {
    for (text, digest) in [
        ("", "D41D8CD98F00B204E9800998ECF8427E"),
        ("a", "0CC175B9C0F1B6A831C399E269772661"),
        ("abc", "900150983CD24FB0D6963F7D28E17F72"),
        ("message digest", "F96B697D7CB7938D525A2F31AAF161D0"),
        ("abcdefghijklmnopqrstuvwxyz", "C3FCD3D76192E4007DFB496CCA67E13B"),
        (
            "ABCDEFGHIJKLMNOPQRSTUVWXYZabcdefghijklmnopqrstuvwxyz0123456789",
            "D174AB98D277D9F5A5611C2C9F419D9F",
        ),
        (&"1234567890".repeat(8), "57EDF4A22BE3C955AC49DA2E2107B67A"),
    ] {
        tally.same(text, hex(&md5(text.as_bytes())), digest.to_string());
        let mut buffer = [0; MD5_STATE];
        write_state(&State::new(), &mut buffer);
        for byte in text.bytes() {
            let mut state = read_state(&buffer).expect("the buffer is long enough");
            state.feed(&[byte]);
            write_state(&state, &mut buffer);
        }
        let state = read_state(&buffer).expect("the buffer is long enough");
        tally.same(text, (hex(&state.finish()), state.count), (digest.to_string(), text.len() as u64));
    }
    let mut start = [0x55; MD5_STATE];
    write_state(&State::new(), &mut start);
    tally.same("the words at the start", hex(&start[..16]), "67452301EFCDAB8998BADCFE10325476".to_string());
}

/// Source 000's misprint, and the order of the tests.
fn recognition(tally: &mut Tally) {
    let yes = BOTH_FACTS;
    let unsupported = Facts { supported: false, is_pcp: true };
    let not_pcp = Facts { supported: true, is_pcp: false };
    let neither = Facts { supported: false, is_pcp: false };
    let misprint = format!("FFFE011402F70016{}01F400010000", V10);
    for (facts, message, number) in [
        (yes, misprint.as_str(), 6),
        (yes, "FFFE01134C9A0000", 0),
        (neither, "", 1),
        (unsupported, "FFFE01134C9A0000", 1),
        (not_pcp, "FFFE01134C9A0000", 2),
        (yes, "", 3),
        (yes, "FF", 3),
        (yes, "FEFF01134C9A0000", 3),
        (yes, "FFFF0000", 3),
        (yes, "FFFE", 4),
        (yes, "FFFE02134C9A0000", 4),
        // Only the lower four bits of the version byte count.
        (yes, "FFFE0013", 4),
        (yes, "FFFE1013F9340000", 4),
        (yes, "FFFEF212", 4),
        (yes, "FFFE1112", 5),
        (yes, "FFFEF1134C9A0000", 6),
        (yes, "FFFE1113CB1F0000", 0),
        (yes, "FFFE8113243C0000", 0),
        (yes, "FFFEF113BD920000", 0),
        (yes, "FFFE01", 5),
        (yes, "FFFE01124C9A0000", 5),
        (yes, "FFFE0119", 5),
        (yes, "FFFE0113", 6),
        (yes, "FFFE01134C9A", 6),
        (yes, "FFFE01134C9A00", 6),
        (yes, "FFFE01134C9B0000", 6),
        // Bad in check and length: the check comes first.
        (yes, "FFFE01134C9A0001", 6),
    ] {
        tally.same(message, number_of(&recognise(facts, &bytes(message))), number);
    }
    let mut longer = bytes("FFFE01134C9A000000");
    set_check(&mut longer);
    tally.same("a length that differs, with its check", recognise(yes, &longer), Err(7));
}

fn bad_data(tally: &mut Tally) {
    for (size, number) in [(31, 8), (32, 0), (500, 0), (501, 0), (1_024, 0), (1_025, 8)] {
        let message = any_announce(version("V1.0"), size, 1, 0);
        tally.same("size announced", number_of(&ToDevice::read(BOTH_FACTS, &message)), number);
        let (started, _) = Gateway::start(version("V1.0"), size, b"package", false);
        tally.same("size at the start", started, if number == 0 { 0 } else { 18 });
    }
    for (total, number) in [(0, 8), (1, 0), (65_535, 0)] {
        let message = any_announce(version("V1.0"), 32, total, 0);
        tally.same("total announced", number_of(&ToDevice::read(BOTH_FACTS, &message)), number);
    }
    let mut gap = version("V1.0");
    gap[5] = b'1';
    for (text, good) in [
        ([0; 16], false),
        (version("V"), true),
        (version("0123456789"), true),
        (version("AZ_az-09.V"), true),
        (version("V1.0 beta"), false),
        (version(" V1.0"), false),
        (version("V1.0 "), false),
        (version("V1.0~"), false),
        ([b'z'; 16], true),
        ([b' '; 16], false),
        ([0x7F; 16], false),
        (gap, false),
    ] {
        tally.same("version text", Device::make(text).0, if good { 0 } else { 17 });
    }
    // The other side's readings, and results outside the lists.
    let long_announcement = format!("{}002000010000 00", V10);
    let long_fragment = "00".repeat(3 + 1_025);
    for (code, data) in [
        (19, "00"),
        (20, ""),
        (20, &long_announcement),
        (21, "820000"),
        (21, "80000041"),
        (21, "0000"),
        (21, "000000"),
        (21, &long_fragment),
        (22, "01"),
        (22, "0000"),
        (23, "00"),
        (24, "81"),
    ] {
        let message = encode(code, &bytes(data));
        tally.same(data, ToDevice::read(BOTH_FACTS, &message), Err(8));
    }
    let (query_answer, long_query_answer) = (format!("01{}", V10), format!("00{}00", V10));
    let long_request = format!("{}000000", V10);
    let (result_answer, long_result_answer) = (format!("02{}", V10), format!("00{}00", V10));
    for (code, data) in [
        (19, ""),
        (19, &query_answer),
        (19, &long_query_answer),
        (20, "06"),
        (20, "80"),
        (21, "00"),
        (21, &long_request),
        (22, "01"),
        (22, "09"),
        (23, ""),
        (23, "02"),
        (23, "0A"),
        (24, "00"),
        (24, &result_answer),
        (24, &long_result_answer),
    ] {
        let message = encode(code, &bytes(data));
        tally.same(data, ToGateway::read(BOTH_FACTS, &message), Err(8));
    }
    tally.same("a start without package", Gateway::start(version("V1.0"), 32, &[], false).0, 19);
    let longest = vec![0; 65_535 * 32];
    tally.same("65,535 fragments", Gateway::start(version("V1.0"), 32, &longest, false).0, 0);
    let longer = vec![0; 65_535 * 32 + 1];
    tally.same("65,536 fragments", Gateway::start(version("V1.0"), 32, &longer, false).0, 19);
}

/// Each message that carries a result, with every byte there.
fn results(tally: &mut Tally) {
    let lists: [(u8, &str, &[u8]); 4] = [
        (20, "", &[0x00, 0x01, 0x02, 0x03, 0x04, 0x05, 0x09, 0x7F]),
        (22, "", &[0x00, 0x05, 0x06, 0x07, 0x08]),
        (23, "", &[0x00, 0x01, 0x04, 0x05, 0x09]),
        (24, V10, &[0x00, 0x01, 0x04, 0x05, 0x09, 0x0A, 0x7F]),
    ];
    for (code, rest, list) in lists {
        for result in 0..=255 {
            let message = encode(code, &[vec![result], bytes(rest)].concat());
            let number = if list.contains(&result) { 0 } else { 8 };
            tally.same("a result", number_of(&ToGateway::read(BOTH_FACTS, &message)), number);
        }
    }
    let lists: [(u8, &str, &[u8]); 4] = [
        (21, "0102", &[0x80, 0x81]),
        (21, "0102 03", &[0x00]),
        (22, "", &[0x00, 0x80]),
        (24, "", &[0x00, 0x80]),
    ];
    for (code, rest, list) in lists {
        for result in 0..=255 {
            let message = encode(code, &[vec![result], bytes(rest)].concat());
            let number = if list.contains(&result) { 0 } else { 8 };
            tally.same("a result", number_of(&ToDevice::read(BOTH_FACTS, &message)), number);
        }
    }
}

/// A device with its memory.
#[derive(Clone)]
struct Bench {
    device: Device,
    image: Vec<u8>,
    map: Vec<u8>,
}

impl Bench {
    fn new(image: usize, map: usize) -> Bench {
        Bench { device: Device::make(version("V0.9")).1, image: vec![0xEE; image], map: vec![0xFF; map] }
    }

    fn receive_in(&mut self, condition: u8, message: &[u8]) -> Answer {
        self.device.receive(message, BOTH_FACTS, condition, &mut self.image, &mut self.map, DEVICE_ROOM)
    }

    fn receive(&mut self, message: &[u8]) -> Answer {
        self.receive_in(READY, message)
    }

    /// Number and phase after a message.
    fn step(&mut self, message: &[u8]) -> (u8, u8) {
        (self.receive(message).number, self.device.phase)
    }

    fn parts(self) -> (Device, Vec<u8>, Vec<u8>) {
        (self.device, self.image, self.map)
    }

    fn next_message(&self) -> Answer {
        self.device.next_message(&self.image, &self.map, DEVICE_ROOM)
    }
}

/// The result byte that a reply carries.
fn result(answer: &Answer) -> u8 {
    answer.reply[8]
}

fn announcements(tally: &mut Tally) {
    let v10 = version("V1.0");
    let mut bench = Bench::new(96, 1);
    for (condition, message, answer) in [
        (BUSY, announce(v10, 32, 3, 7), 0x01),
        (WEAK_SIGNAL, announce(v10, 32, 3, 7), 0x02),
        (LOW_POWER, announce(v10, 1_024, 65_535, 7), 0x04),
        (INTERNAL, announce(v10, 32, 3, 7), 0x7F),
        (READY, announce(version("V0.9"), 1_024, 65_535, 7), 0x03),
        (READY, announce(v10, 33, 3, 7), 0x05),
        (READY, announce(v10, 32, 3, 7), 0x00),
    ] {
        let answered = bench.receive_in(condition, &message);
        tally.same("announcement", (answered.number, result(&answered)), (0, answer));
    }
    tally.same("the map is cleared", (bench.device.phase, bench.map[0]), (1, 0));
    let mut small = Bench::new(9 * 32, 1);
    tally.same("a map too small", result(&small.receive(&announce(v10, 32, 9, 7))), 0x09);
    // March: only the same four fields with a code resume.
    tally.same("a fragment", bench.step(&fragment(0, &[1; 32])), (0, 1));
    tally.same("resume", (bench.step(&announce(v10, 32, 3, 7)), bench.device.stored), ((0, 1), 1));
    tally.same("a recut", (bench.step(&announce(v10, 32, 3, 8)), bench.device.stored), ((0, 1), 0));
    tally.same("a fragment", bench.step(&fragment(0, &[1; 32])), (0, 1));
    tally.same("no code", (bench.step(&announce(v10, 32, 3, 0)), bench.device.stored), ((0, 1), 0));
    tally.same("a fragment", bench.step(&fragment(0, &[1; 32])), (0, 1));
    tally.same("no code again", (bench.step(&announce(v10, 32, 3, 0)), bench.device.stored), ((0, 1), 0));
}

/// Resuming takes phase 1 to 3, a code, and the same four fields.
fn resumes(tally: &mut Tally) {
    let held = Announcement { version: version("V1.0"), size: 64, total: 2, code: 7 };
    for phase in device::IDLE..=device::FAILED {
        for (offer, same) in [
            (held, true),
            (Announcement { version: version("V1.1"), ..held }, false),
            (Announcement { size: 63, ..held }, false),
            (Announcement { total: 1, ..held }, false),
            (Announcement { code: 8, ..held }, false),
            (Announcement { code: 0, ..held }, false),
        ] {
            let mut bench = Bench::new(128, 2);
            bench.receive(&announce(held.version, held.size, held.total, held.code));
            bench.receive(&fragment(1, &[1; 5]));
            bench.device.phase = phase;
            let before = bench.clone();
            bench.receive(&announce(offer.version, offer.size, offer.total, offer.code));
            let resumed = same && (device::LOADING..=device::ACKED).contains(&phase);
            tally.same("resumed", bench.device == before.device && bench.map == before.map, resumed);
            if !resumed {
                let Device { phase, stored, last, .. } = bench.device;
                tally.same("afresh", (phase, stored, last, bench.device.held()), (1, 0, 0, offer));
                tally.same("the map", bench.map, vec![0x00, 0xFF]);
            }
        }
    }
}

fn fragments(tally: &mut Tally) {
    let v10 = version("V1.0");
    let package = captures::package(1, 2 * 32 + 5);
    let mut bench = Bench::new(96, 1);
    tally.same("out of phase", bench.step(&fragment(0, &[1; 32])), (9, 0));
    tally.same("out of phase", bench.step(&no_fragment(0x80, 0)), (9, 0));
    bench.receive(&announce(v10, 32, 3, check(&package)));
    tally.same("lowest missing", bench.next_message().reply[24..].to_vec(), vec![0, 0]);
    tally.same("index", bench.step(&fragment(3, &[1; 1_024])), (10, 1));
    tally.same("length", bench.step(&fragment(1, &[1; 31])), (11, 1));
    tally.same("length", bench.step(&fragment(2, &[1; 33])), (11, 1));
    tally.same("not there", bench.step(&no_fragment(0x81, 0)), (0, 1));
    tally.same("the last first", bench.step(&fragment(2, cut(&package, 32, 2))), (0, 1));
    // Repeats do not complete the download.
    for _ in 0..3 {
        tally.same("a repeat", bench.step(&fragment(2, cut(&package, 32, 2))), (12, 1));
    }
    // One that differs fails it, and changes nothing else: the last one by its length too.
    let mut longer = cut(&package, 32, 2).to_vec();
    longer.push(0);
    for data in [&[1; 5][..], &longer, &longer[..4], &[1; 32]] {
        let mut other = bench.clone();
        tally.same("a repeat that differs", other.step(&fragment(2, data)), (23, 4));
        other.device.phase = 1;
        tally.same("and all else", (other.device, other.image, other.map), bench.clone().parts());
    }
    tally.same("the first", bench.step(&fragment(0, cut(&package, 32, 0))), (0, 1));
    tally.same("lowest missing", bench.next_message().reply[24..].to_vec(), vec![0, 1]);
    tally.same("length before repeat", bench.step(&fragment(0, &[1; 5])), (11, 1));
    tally.same("all stored", bench.clone().step(&fragment(1, cut(&package, 32, 1))), (0, 2));
    tally.same("other bytes", bench.step(&fragment(1, &[1; 32])), (0, 4));
    tally.same("the failure is reported", result(&bench.next_message()), 0x07);
    tally.same("and answered", bench.step(&download_result(0x00)), (0, 0));
    bench.receive(&announce(v10, 32, 3, 0));
    tally.same("no such task", bench.step(&no_fragment(0x80, 0)), (0, 0));
    tally.same("nothing to send", bench.next_message().number, 9);
}

/// A device that has one fragment of 16 bytes loaded.
fn loaded() -> Bench {
    let mut bench = Bench::new(500, 1);
    bench.receive(&announce(version("V1.0"), 500, 1, 0));
    bench.receive(&fragment(0, b"HELLO, IoT SOTA!"));
    bench
}

fn execution(tally: &mut Tally) {
    for (condition, answer, phase) in
        [(READY, 0x00, 5), (BUSY, 0x01, 2), (WEAK_SIGNAL, 0x00, 5), (LOW_POWER, 0x04, 2), (INTERNAL, 0x01, 2)]
    {
        let mut bench = loaded();
        let answered = bench.receive_in(condition, &execute());
        tally.same("execute", (result(&answered), bench.device.phase), (answer, phase));
    }
    let mut bench = loaded();
    tally.same("loaded is reported", hex(&bench.next_message().reply), "FFFE0116850E000100".to_string());
    tally.same("no such task", bench.clone().step(&download_result(0x80)), (0, 0));
    tally.same("acknowledged", bench.step(&download_result(0x00)), (0, 3));
    tally.same("nothing to send", bench.next_message().number, 9);
    tally.same("not now", bench.device.install_finished(0x00), 9);
    tally.same("execute", bench.step(&execute()), (0, 5));
    tally.same("again, busy", result(&bench.receive_in(BUSY, &execute())), 0x00);
    tally.same("announced meanwhile", result(&bench.receive(&announce(version("V2"), 32, 1, 0))), 0x01);
    tally.same("an unknown code", bench.device.install_finished(0x02), 16);
    let mut failed = bench.clone();
    tally.same("installer fails", failed.device.install_finished(0x0A), 0);
    let report = (result(&failed.next_message()), failed.device.running);
    tally.same("the failure is reported", report, (0x0A, version("V0.9")));
    tally.same("installer ends", (bench.device.install_finished(0x00), bench.device.phase), (0, 6));
    let report = format!("FFFE0118C7D2001100{}", V10);
    tally.same("success is reported", hex(&bench.next_message().reply), report);
    tally.same("execute while reporting", result(&bench.receive(&execute())), 0x01);
    tally.same("answered", bench.step(&upgrade_result(0x80)), (0, 0));
    tally.same("execute when idle", result(&bench.receive(&execute())), 0x01);
}

/// A record in any phase: one fragment of 16 bytes, missing only in Loading.
fn in_phase(phase: u8) -> Bench {
    let mut bench = loaded();
    bench.device.phase = phase;
    if phase == device::LOADING {
        bench.device.stored = 0;
        bench.device.last = 0;
        bench.map[0] = 0;
    }
    bench
}

/// Number and phase afterwards for the messages that most phases have no use for, and what each phase sends.
fn phases(tally: &mut Tally) {
    let no_use = [(9, 0), (9, 1), (9, 2), (9, 3), (9, 4), (9, 5), (9, 6)];
    let but = |changed: &[(usize, (u8, u8))]| {
        let mut expected = no_use;
        for (phase, outcome) in changed {
            expected[*phase] = *outcome;
        }
        expected
    };
    for (message, expected) in [
        (no_fragment(0x80, 0), but(&[(1, (0, 0))])),
        (no_fragment(0x81, 0), but(&[(1, (0, 1))])),
        (fragment(0, &[1]), but(&[(1, (0, 2))])),
        (fragment(1, &[1]), but(&[(1, (10, 1))])),
        (download_result(0x00), but(&[(2, (0, 3)), (4, (0, 0))])),
        (download_result(0x80), but(&[(2, (0, 0)), (4, (0, 0))])),
        (upgrade_result(0x00), but(&[(6, (0, 0))])),
        (upgrade_result(0x80), but(&[(6, (0, 0))])),
        (execute(), [(0, 0), (0, 1), (0, 5), (0, 5), (0, 4), (0, 5), (0, 6)]),
        (query(), [(0, 0), (0, 1), (0, 2), (0, 3), (0, 4), (0, 5), (0, 6)]),
    ] {
        for phase in device::IDLE..=device::REPORTING {
            let found = in_phase(phase).step(&message);
            tally.same(&hex(&message), found, expected[usize::from(phase)]);
        }
    }
    for (phase, answer) in [0x01, 0x01, 0x00, 0x00, 0x01, 0x00, 0x01].iter().enumerate() {
        tally.same("execute", result(&in_phase(phase as u8).receive(&execute())), *answer);
    }
    for (phase, code) in [None, Some(21), Some(22), None, Some(22), None, Some(24)].iter().enumerate() {
        let sent = in_phase(phase as u8).next_message();
        tally.same(
            "next message",
            (sent.number, sent.reply.get(3)),
            (if code.is_some() { 0 } else { 9 }, code.as_ref()),
        );
    }
}

/// Several faults at once give the number that comes first in the order.
fn order(tally: &mut Tally) {
    let no = Facts { supported: false, is_pcp: false };
    let mut bench = loaded();
    bench.device.last = 501;
    let mut receive = |room, condition, last: u16, image: usize, facts, message: &[u8]| {
        bench.device.last = last;
        bench
            .device
            .receive(message, facts, condition, &mut bench.image[..image], &mut bench.map, room)
            .number
    };
    tally.same("order", receive(25, 3, 501, 499, no, &[]), 15);
    tally.same("order", receive(26, 3, 501, 499, no, &[]), 13);
    tally.same("order", receive(26, 0, 501, 499, no, &[]), 29);
    tally.same("order", receive(26, 0, 500, 499, no, &[]), 14);
    tally.same("order", receive(26, 0, 500, 500, no, &[]), 1);
    tally.same("order", receive(26, 0, 500, 500, BOTH_FACTS, &upgrade_result(0)), 9);
    let mut full = Bench::new(96, 1);
    full.receive(&announce(version("V1.0"), 32, 3, 7));
    full.map[0] = 0x07;
    tally.same("asking with a full map", full.next_message().number, 29);
    full.image.truncate(95);
    tally.same("asking, image too short", full.next_message().number, 14);
}

/// A package of two fragments, 32 bytes and 18, with its MD5 as md5sum prints it; and that of the 64 bytes which two whole
/// fragments would be, the last of them filled up as the image is.
const FIFTY: &[u8] = b"Fifty bytes in two fragments: 32 of them, then 18.";
const FIFTY_DIGEST: [u8; 16] =
    [0x1D, 0xF7, 0xC5, 0x2D, 0x76, 0xF8, 0x93, 0xF5, 0x40, 0x0B, 0xE2, 0x95, 0x0E, 0xAE, 0x05, 0x8D];
const FILLED_DIGEST: [u8; 16] =
    [0x0F, 0x4F, 0xAB, 0xBB, 0x4A, 0x0D, 0x60, 0x82, 0x8D, 0x06, 0xD0, 0x38, 0xB9, 0xCD, 0xE7, 0x37];
/// Its check.
const FIFTY_CODE: u16 = 0xE7C6;

/// The bytes 00, 01, 02 and so on about the places where the padding needs a block more, as md5sum has them.
fn digest_lengths(tally: &mut Tally) {
    let counted: Vec<u8> = (0..=255).collect();
    for (length, digest) in [
        (55, "6912ee65fff2d9f9ce2508cddf8bcda0"),
        (56, "51fdd1acda72405dfdfa03fcb85896d7"),
        (63, "48a6295221902e8e0938f773a7185e72"),
        (64, "b2d3f56bc197fd985d5965079b5e7148"),
        (65, "8bd7053801c768420faf816fadba971c"),
        (119, "1c772251899a7ff007400b888d6b2042"),
        (120, "b7ba1efc6022e9ed272f00b8831e26e6"),
        (256, "e2c865db4162bed963bfaa9ef6ac18f0"),
    ] {
        tally.same(&format!("{length} bytes"), md5(&counted[..length]).to_vec(), bytes(digest));
    }
    tally.same("fifty bytes", md5(FIFTY), FIFTY_DIGEST);
    tally.same("filled up", md5(&[FIFTY, &[0xEE; 14]].concat()), FILLED_DIGEST);
}

/// A device to which the fifty bytes are announced, in Loading with none stored.
fn fifty_announced(code: u16) -> Bench {
    let mut bench = Bench::new(64, 1);
    bench.receive(&announce(version("V1.0"), 32, 2, code));
    bench
}

/// Whether a digest is set, and which.
fn set(bench: &Bench) -> (u8, [u8; 16]) {
    (bench.device.digest_set, bench.device.digest)
}

const NONE: (u8, [u8; 16]) = (0, [0; 16]);
const GIVEN: (u8, [u8; 16]) = (1, FIFTY_DIGEST);

/// 02, 2026-05: when a digest is taken, and how long it stays. (29 is among the broken records.)
fn digests_given(tally: &mut Tally) {
    tally.same("a fresh record", set(&Bench::new(64, 1)), NONE);
    for phase in device::IDLE..=device::REPORTING {
        let mut bench = in_phase(phase);
        let before = bench.device.clone();
        let loading = phase == device::LOADING;
        tally.same("given", bench.device.give_digest(FIFTY_DIGEST), if loading { 0 } else { 9 });
        let expected =
            if loading { Device { digest_set: 1, digest: FIFTY_DIGEST, ..before } } else { before };
        tally.same("and nothing else", bench.device, expected);
    }
    let mut bench = fifty_announced(7);
    tally.same("given", bench.device.give_digest(FILLED_DIGEST), 0);
    tally.same("given again", (bench.device.give_digest([0; 16]), set(&bench)), (0, (1, [0; 16])));
    tally.same("and again", (bench.device.give_digest(FIFTY_DIGEST), set(&bench)), (0, GIVEN));
    // What keeps it: all that does not begin a download.
    let resume = announce(version("V1.0"), 32, 2, 7);
    for message in [query(), resume.clone(), no_fragment(0x81, 0), fragment(0, &FIFTY[..32]), execute()] {
        tally.same("kept in Loading", (bench.step(&message), set(&bench)), ((0, 1), GIVEN));
    }
    let other = announce(version("V1.0"), 32, 2, 8);
    tally.same("kept while busy", (result(&bench.receive_in(BUSY, &other)), set(&bench)), (0x01, GIVEN));
    tally.same("kept by a refusal", (bench.step(&fragment(0, &[1; 5])), set(&bench)), ((11, 1), GIVEN));
    let mut given_up = bench.clone();
    tally.same("kept by 80", (given_up.step(&no_fragment(0x80, 0)), set(&given_up)), ((0, 0), GIVEN));
    let mut differs = bench.clone();
    let repeat = fragment(0, &[1; 32]);
    tally.same("kept by a differing repeat", (differs.step(&repeat), set(&differs)), ((23, 4), GIVEN));
    // What clears it: a fresh announcement, in whatever phase it comes.
    for (code, size) in [(8, 32), (0, 32), (7, 33)] {
        let mut afresh = bench.clone();
        afresh.image.resize(80, 0xEE);
        let offer = announce(version("V1.0"), size, 2, code);
        tally.same("cleared", (afresh.step(&offer), set(&afresh)), ((0, 1), NONE));
    }
    for phase in [device::IDLE, device::LOADED, device::ACKED, device::FAILED] {
        let mut bench = in_phase(phase);
        (bench.device.digest_set, bench.device.digest) = GIVEN;
        let resumed = bench.device.held();
        let kept = (bench.step(&announce(version("V1.0"), 32, 1, 9)), set(&bench));
        tally.same("cleared by another", kept, ((0, 1), NONE));
        // The same with a code is a resume in Loaded and Acked, and keeps phase and digest.
        let mut bench = in_phase(phase);
        (bench.device.digest_set, bench.device.digest) = GIVEN;
        bench.device.code = 9;
        let resumes = [device::LOADED, device::ACKED].contains(&phase);
        let offer = announce(resumed.version, resumed.size, resumed.total, 9);
        let expected = if resumes { ((0, phase), GIVEN) } else { ((0, 1), NONE) };
        tally.same("the same again", (bench.step(&offer), set(&bench)), expected);
    }
}

/// 02, 2026-05: at completion the code, if it is not 0, and the digest, if one is set, must both be those of the bytes.
fn digests_tested(tally: &mut Tally) {
    let mut almost = FIFTY_DIGEST;
    almost[15] ^= 0x01;
    let mut from_the_first = FIFTY_DIGEST;
    from_the_first[0] ^= 0x80;
    for (code, flag, digest, phase) in [
        (FIFTY_CODE, 0, [0; 16], 2),
        (FIFTY_CODE, 1, FIFTY_DIGEST, 2),
        (0, 1, FIFTY_DIGEST, 2),
        // The one does not stand for the other.
        (FIFTY_CODE ^ 1, 1, FIFTY_DIGEST, 4),
        (FIFTY_CODE, 1, almost, 4),
        (0, 1, almost, 4),
        (0, 1, from_the_first, 4),
        // The true length, not that of whole fragments.
        (FIFTY_CODE, 1, FILLED_DIGEST, 4),
        (0, 1, FILLED_DIGEST, 4),
        // The flag says whether there is one: zeros can be one, and other bytes none.
        (FIFTY_CODE, 1, [0; 16], 4),
        (0, 1, [0; 16], 4),
        (FIFTY_CODE, 0, almost, 2),
        (0, 0, almost, 2),
    ] {
        for order in [[0, 1], [1, 0]] {
            let mut bench = fifty_announced(code);
            (bench.device.digest_set, bench.device.digest) = (flag, digest);
            let first = fragment(order[0], cut(FIFTY, 32, order[0]));
            tally.same("one is missing", (bench.step(&first), set(&bench)), ((0, 1), (flag, digest)));
            let second = fragment(order[1], cut(FIFTY, 32, order[1]));
            tally.same("completed", (bench.step(&second), set(&bench)), ((0, phase), (flag, digest)));
        }
    }
    // Given between the fragments, it counts; a fresh announcement takes it back.
    let mut bench = fifty_announced(FIFTY_CODE);
    bench.step(&fragment(1, &FIFTY[32..]));
    tally.same("given late", bench.device.give_digest(almost), 0);
    let mut failed = bench.clone();
    tally.same("failed", failed.step(&fragment(0, &FIFTY[..32])), (0, 4));
    tally.same("and reported", result(&failed.next_message()), 0x07);
    tally.same("too late", failed.device.give_digest(FIFTY_DIGEST), 9);
    tally.same("mended", bench.device.give_digest(FIFTY_DIGEST), 0);
    tally.same("loaded", bench.step(&fragment(0, &FIFTY[..32])), (0, 2));
    tally.same("fetched again", failed.step(&announce(version("V1.0"), 32, 2, FIFTY_CODE)), (0, 1));
    failed.step(&fragment(1, &FIFTY[32..]));
    tally.same("with none", failed.step(&fragment(0, &FIFTY[..32])), (0, 2));
}

/// The digest through bytes: 61 of them, the flag at 44, the digest from 45 on; 64 for one of another length, and before 29.
fn digests_in_bytes(tally: &mut Tally) {
    let mut bench = fifty_announced(7);
    let mut record = [0x77; 64];
    write_device(&bench.device, &mut record);
    let before = record;
    for (length, number) in [(16, 0), (0, 64), (1, 64), (15, 64), (17, 64), (32, 64)] {
        for room in [60, 61, 64] {
            let mut lent = before;
            let digest = [&FIFTY_DIGEST[..], &FIFTY_DIGEST].concat();
            let given = Reading.device_give_digest(&mut lent[..room], &digest[..length]);
            tally.same("given in bytes", given, if room < 61 { 64 } else { number });
            let mut expected = before;
            if given == 0 {
                expected[44] = 1;
                expected[45..61].copy_from_slice(&FIFTY_DIGEST);
            }
            tally.same("the bytes", lent, expected);
        }
    }
    bench.device.give_digest(FIFTY_DIGEST);
    write_device(&bench.device, &mut record);
    tally.same("the record", read_device(&record), Ok(bench.device.clone()));
    record[44] = 2;
    tally.same("29", Reading.device_give_digest(&mut record, &FIFTY_DIGEST), 29);
    tally.same("64 before 29", Reading.device_give_digest(&mut record, &FIFTY_DIGEST[1..]), 64);
}

type Damage = (&'static str, fn(&mut Device));

/// Each field of the record out of its range.
fn broken_records(tally: &mut Tally) {
    let always: [Damage; 6] = [
        ("phase", |device| device.phase = 7),
        ("kept code", |device| device.outcome = 0x02),
        ("whether a digest is set", |device| device.digest_set = 2),
        ("whether a digest is set", |device| device.digest_set = 0xFF),
        ("running", |device| device.running = [0; 16]),
        ("target", |device| device.version[0] = 0x1F),
    ];
    let with_download: [Damage; 5] = [
        ("size", |device| device.size = 31),
        ("size", |device| device.size = 1_025),
        ("total", |device| device.total = 0),
        ("stored", |device| device.stored = device.total + 1),
        ("last", |device| device.last = device.size + 1),
    ];
    for phase in device::IDLE..=device::REPORTING {
        let mut sound = loaded();
        sound.device.phase = phase;
        sound.device.stored = u16::from(phase != device::LOADING);
        tally.same("a sound record", sound.clone().receive(&query()).number, 0);
        let idle = phase == device::IDLE;
        let all = always.iter().map(|damage| (damage, 29));
        let all = all.chain(with_download.iter().map(|damage| (damage, if idle { 0 } else { 29 })));
        for ((field, damage), number) in all {
            let mut bench = sound.clone();
            damage(&mut bench.device);
            tally.same(field, bench.receive(&query()).number, number);
            // A digest: 29 comes before 9.
            let given = bench.device.give_digest(FIFTY_DIGEST);
            tally.same(field, given, if number == 0 { 9 } else { number });
        }
    }
    let mut counted = loaded();
    counted.device.phase = device::LOADING;
    tally.same("all stored in Loading", counted.receive(&query()).number, 29);
    tally.same("all zero", Device::default().install_finished(0x00), 29);
}

/// A record in which every field may be out of its range, with memory that may be too short.
fn any_bench(random: &mut Random) -> Bench {
    let total = random.pick(&[0, 1, 2, 3, 9]);
    let size = random.pick(&[31, 32, 33, 1_024, 1_025]);
    let device = Device {
        phase: random.below(8) as u8,
        running: random.pick(&[version("V0.9"), version("V1.0"), [0; 16]]),
        version: random.pick(&[version("V1.0"), version("V1.1"), [0x1F; 16]]),
        size,
        total,
        code: random.below(2) as u16,
        stored: random.below(usize::from(total) + 2) as u16,
        last: random.below(usize::from(size) + 2) as u16,
        outcome: random.pick(&[0x00, 0x0A, 0x02]),
        digest_set: random.pick(&[0, 1, 2]),
        digest: random.pick(&[[0; 16], FIFTY_DIGEST]),
    };
    let (image, map) = (random.below(5_000), random.below(4));
    Bench { device, image: random.bytes(image), map: random.bytes(map) }
}

fn any_message(random: &mut Random) -> Vec<u8> {
    let length = random.pick(&[1, 31, 32, 33, 1_024]);
    let index = random.below(4) as u16;
    match random.below(8) {
        0 => query(),
        1 => execute(),
        2 => download_result(random.pick(&[0x00, 0x80])),
        3 => upgrade_result(random.pick(&[0x00, 0x80])),
        4 => announce(version("V1.0"), random.pick(&[32, 33, 1_024]), random.pick(&[1, 3, 9, 65_535]), 1),
        5 => no_fragment(random.pick(&[0x80, 0x81]), index),
        6 => fragment(index, &random.bytes(length)),
        _ => random.bytes(length),
    }
}

/// Whether one random call at the device was refused and yet left something changed, but for the phase with 23, or gave
/// a reply.
fn refusal_changes(random: &mut Random) -> bool {
    let mut bench = any_bench(random);
    let before = bench.clone();
    let room = random.pick(&[25, 26, 26, 26]);
    let answer = match random.below(5) {
        0 => bench.device.next_message(&bench.image, &bench.map, room),
        1 => Answer { number: bench.device.install_finished(random.pick(&[0, 2, 10])), reply: Vec::new() },
        2 => Answer { number: bench.device.give_digest([0x5A; 16]), reply: Vec::new() },
        _ => {
            let condition = random.pick(&[0, 0, 0, 1, 2, 3, 4, 127]);
            let message = any_message(random);
            bench.device.receive(&message, BOTH_FACTS, condition, &mut bench.image, &mut bench.map, room)
        }
    };
    if answer.number == 23 {
        bench.device.phase = before.device.phase;
    }
    let same = bench.parts() == before.parts();
    answer.number != 0 && !(same && answer.reply.is_empty())
}

fn refusals(tally: &mut Tally) {
    let mut random = Random::new(1);
    let changes = (0..50_000).filter(|_| refusal_changes(&mut random)).count();
    tally.same("refusals that change something", changes, 0);
}

/// The gateway in any phase, given one message in a phase: number, phase, ending, result of the reply.
fn at_gateway(phase: u8, message: ToGateway) -> (u8, u8, u8, Option<u8>) {
    let mut gateway = Gateway::start(version("V1.0"), 32, &[7; 40], true).1;
    gateway.phase = phase;
    let message = message.write(DEVICE_ROOM).expect("the message fits the table");
    let answer = gateway.receive(&message, BOTH_FACTS, &[7; 40], GATEWAY_ROOM);
    (answer.number, gateway.phase, gateway.ending, answer.reply.get(8).copied())
}

fn gateway_steps(tally: &mut Tally) {
    use gateway::{ASK, ENDED, OFFER, RUN, SERVE};
    let (v09, v10) = (version("V0.9"), version("V1.0"));
    let requests = |version, index| ToGateway::Fragment { version, index };
    let loaded = |result| ToGateway::DownloadResult { result };
    let upgraded = |result, version| ToGateway::UpgradeResult { result, version };
    for (phase, message, expected) in [
        (ASK, ToGateway::Query { version: v10 }, (0, ENDED, 1, None)),
        (ASK, ToGateway::Query { version: v09 }, (0, OFFER, 0, None)),
        (OFFER, ToGateway::Query { version: v09 }, (9, OFFER, 0, None)),
        (OFFER, ToGateway::Announce { result: 0x00 }, (0, SERVE, 0, None)),
        (OFFER, ToGateway::Announce { result: 0x03 }, (0, ENDED, 2, None)),
        (SERVE, ToGateway::Announce { result: 0x03 }, (9, SERVE, 0, None)),
        (SERVE, requests(v10, 1), (0, SERVE, 0, Some(0x00))),
        (RUN, requests(v10, 2), (0, RUN, 0, Some(0x81))),
        (RUN, requests(v09, 2), (0, RUN, 0, Some(0x80))),
        (OFFER, requests(v10, 0), (0, OFFER, 0, Some(0x80))),
        (SERVE, loaded(0x00), (0, RUN, 0, Some(0x00))),
        (SERVE, loaded(0x07), (0, ENDED, 3, Some(0x00))),
        (RUN, loaded(0x07), (0, RUN, 0, Some(0x00))),
        (ENDED, loaded(0x00), (0, ENDED, 0, Some(0x80))),
        (RUN, ToGateway::Execute { result: 0x00 }, (0, RUN, 0, None)),
        (RUN, ToGateway::Execute { result: 0x04 }, (0, ENDED, 4, None)),
        (SERVE, ToGateway::Execute { result: 0x04 }, (9, SERVE, 0, None)),
        (RUN, upgraded(0x00, v10), (0, ENDED, 0, Some(0x00))),
        (RUN, upgraded(0x00, v09), (0, ENDED, 5, Some(0x00))),
        (RUN, upgraded(0x0A, v10), (0, ENDED, 5, Some(0x00))),
        (SERVE, upgraded(0x00, v10), (0, SERVE, 0, Some(0x80))),
    ] {
        tally.same(
            &format!("gateway in {} given {:?}", phase, message),
            at_gateway(phase, message),
            expected,
        );
    }
}

fn gateway_refusals(tally: &mut Tally) {
    let sound = Gateway::start(version("V1.0"), 32, &[7; 40], true).1;
    let ask = |gateway: &Gateway, package: &[u8], room| gateway.next_message(package, room).number;
    tally.same("sound", ask(&sound, &[7; 40], GATEWAY_ROOM), 0);
    tally.same("buffer", ask(&Gateway::default(), &[], 1_034), 15);
    tally.same("all zero", ask(&Gateway::default(), &[], 1_035), 29);
    tally.same("phase", ask(&Gateway { phase: 5, ..sound.clone() }, &[], GATEWAY_ROOM), 29);
    tally.same("ending", ask(&Gateway { ending: 6, ..sound.clone() }, &[], GATEWAY_ROOM), 29);
    tally.same("ending", ask(&Gateway { ending: 5, ..sound.clone() }, &[7; 40], GATEWAY_ROOM), 0);
    tally.same("size", ask(&Gateway { size: 31, ..sound.clone() }, &[], GATEWAY_ROOM), 29);
    tally.same("length", ask(&Gateway { length: 0, ..sound.clone() }, &[], GATEWAY_ROOM), 29);
    tally.same("length", ask(&Gateway { length: 65_535 * 32 + 1, ..sound.clone() }, &[], GATEWAY_ROOM), 29);
    tally.same("package", ask(&sound, &[7; 39], GATEWAY_ROOM), 14);
    tally.same("nothing to send", ask(&Gateway { phase: 2, ..sound.clone() }, &[7; 40], GATEWAY_ROOM), 9);
    tally.same("nothing to send", ask(&Gateway { phase: 4, ..sound }, &[7; 40], GATEWAY_ROOM), 9);
}

/// 01's clean run.
fn clean_run(tally: &mut Tally) {
    let package = captures::package(2, 1_000);
    let mut bench = Bench::new(1_024, 4);
    let mut gateway = Gateway::start(version("V1.0"), 64, &package, true).1;
    // Query and announcement.
    for _ in 0..2 {
        let message = gateway.next_message(&package, GATEWAY_ROOM).reply;
        let reply = bench.receive(&message).reply;
        tally.same("answered", gateway.receive(&reply, BOTH_FACTS, &package, GATEWAY_ROOM).number, 0);
    }
    // 16 fragments and the download result.
    for _ in 0..17 {
        let request = bench.next_message().reply;
        let reply = gateway.receive(&request, BOTH_FACTS, &package, GATEWAY_ROOM).reply;
        tally.same("handled", bench.receive(&reply).number, 0);
    }
    tally.same("nothing to send", bench.next_message().number, 9);
    let message = gateway.next_message(&package, GATEWAY_ROOM).reply;
    let reply = bench.receive(&message).reply;
    tally.same("executing", gateway.receive(&reply, BOTH_FACTS, &package, GATEWAY_ROOM).number, 0);
    tally.same("installed", bench.device.install_finished(0x00), 0);
    let report = bench.next_message().reply;
    gateway.receive(&report, BOTH_FACTS, &package, GATEWAY_ROOM);
    tally.same("the ending", (gateway.phase, gateway.ending), (4, 0));
    tally.same("the image", &bench.image[..1_000], &package[..]);
    tally.same("after the image", &bench.image[1_000..], &[0xEE; 24][..]);
}

fn reader(tally: &mut Tally) {
    let capture = bytes("4C3E0002AABB 4C3C0000 4C3D");
    let mut reader = Reader::new(&capture);
    let first = Item::Record { toward_device: true, message: &[0xAA, 0xBB] };
    tally.same("first record", reader.next_record(), first);
    tally.same("second record", reader.next_record(), Item::Record { toward_device: false, message: &[] });
    for _ in 0..2 {
        tally.same("wrong mark", (reader.next_record(), reader.place), (Item::Fault(20), 10));
    }
    for (rest, item) in
        [("", Item::End), ("4D", Item::Fault(21)), ("4C3E", Item::Fault(21)), ("3E4C", Item::Fault(20))]
    {
        tally.same(rest, Reader::new(&bytes(rest)).next_record(), item);
    }
    for rest in ["4C3C00", "4C3E0001", "4C3EFFFF00"] {
        tally.same(rest, Reader::new(&bytes(rest)).next_record(), Item::Fault(21));
    }
}

/// Each row: whether toward the device, the message, buffer and place; then number, next place and buffer.
fn writer(tally: &mut Tally) {
    for (toward_device, message, before, place, number, next, after) in [
        (true, "AABB", "000000000000", 0, 0, 6, "4C3E0002AABB"),
        (false, "AABB", "000000000000", 0, 0, 6, "4C3C0002AABB"),
        (true, "", "11111111", 0, 0, 4, "4C3E0000"),
        // The bytes before and behind stay.
        (false, "55", "11111111111111", 1, 0, 6, "114C3C00015511"),
        (true, "", "1111111111", 1, 0, 5, "114C3E0000"),
        // No room: one byte short, none for the header, at the end, past it.
        (true, "AABB", "1111111111", 0, 22, 0, "1111111111"),
        (true, "AABB", "111111111111", 1, 22, 1, "111111111111"),
        (false, "", "111111", 0, 22, 0, "111111"),
        (true, "", "", 0, 22, 0, ""),
        (true, "", "11111111", 4, 22, 4, "11111111"),
        (true, "", "11111111", 5, 22, 5, "11111111"),
        (true, "", "11111111", usize::MAX, 22, usize::MAX, "11111111"),
        (false, "AABB", "11111111", usize::MAX - 3, 22, usize::MAX - 3, "11111111"),
    ] {
        let mut buffer = bytes(before);
        let wrote = write(toward_device, &bytes(message), &mut buffer, place);
        let what = format!("{message} at {place} of {before}");
        tally.same(&what, (wrote, buffer), ((number, next), bytes(after)));
    }
    for (length, room, number) in [
        (256, 260, 0),
        (65_535, 65_539, 0),
        (65_535, 65_538, 22),
        (65_536, 65_540, 22),
        (65_536, 80_000, 22),
        (131_071, 140_000, 22),
    ] {
        let message = vec![0xAA; length];
        let mut expected = vec![0x11; room];
        if number == 0 {
            expected[..4].copy_from_slice(&[0x4C, 0x3C, (length / 256) as u8, (length % 256) as u8]);
            expected[4..4 + length].copy_from_slice(&message);
        }
        let mut buffer = vec![0x11; room];
        let next = if number == 0 { 4 + length } else { 0 };
        tally.same("a long message", write(false, &message, &mut buffer, 0), (number, next));
        tally.same("a long record", buffer == expected, true);
    }
}

/// A query toward the device, and a download result from it.
const QUERY_RECORD: &str = "4C3E0008 FFFE01134C9A0000";
const RESULT_RECORD: &str = "4C3C0009 FFFE0116850E000100";

/// Each row: a capture, with {Q} and {R} for those records; what is left of it; a line for each stretch.
fn mending(tally: &mut Tally) {
    for (capture, mended, lines) in [
        ("", "", ""),
        ("{Q}{R}{Q}", "{Q}{R}{Q}", ""),
        // Ordinary walking does not test messages.
        ("4C3E0002AABB {Q}", "4C3E0002AABB {Q}", ""),
        ("4C3E0008 FFFE01134C9B0000 4C3C0000", "4C3E0008 FFFE01134C9B0000 4C3C0000", ""),
        // Nothing to go on from.
        ("4C", "", "0 1\n"),
        ("4C3D", "", "0 2\n"),
        ("00 4C3E0000 4C3C0002AABB", "", "0 11\n"),
        ("{Q}4C", "{Q}", "12 1\n"),
        ("{Q}4C3E00", "{Q}", "12 3\n"),
        ("{Q}4C3E0008 FFFE01134C9A00", "{Q}", "12 11\n"),
        // Each direction, and a record that has lost its first byte.
        ("00 {Q}", "{Q}", "0 1\n"),
        ("00 {R}{Q}", "{R}{Q}", "0 1\n"),
        ("{R}3E0008FFFE01134C9A0000 {Q}", "{R}{Q}", "13 11\n"),
        ("{Q}4C3D0000 {R}", "{Q}{R}", "12 4\n"),
        // Cut short at first, and a record within.
        ("4C3EFFFF {Q}", "{Q}", "0 4\n"),
        ("4C3CFFFF 4C3EFFFF {R}", "{R}", "0 8\n"),
        // Whole records whose messages are refused with 3, 4, 5, 6 and 7 are passed over.
        ("00 4C3E0000 {Q}", "{Q}", "0 5\n"),
        ("00 4C3E0003FFFE02 {Q}", "{Q}", "0 8\n"),
        ("00 4C3C0004FFFE0112 {Q}", "{Q}", "0 9\n"),
        ("00 4C3E0004FFFE0113 {Q}", "{Q}", "0 9\n"),
        ("00 4C3E0008 FFFE01134C9B0000 {Q}", "{Q}", "0 13\n"),
        ("00 4C3E0009 FFFE011322BF000000 {R}", "{R}", "0 14\n"),
        // Bad data passes the tests 1 to 7, and so do reserved bits.
        ("00 4C3E0009 FFFE011320BF000130", "4C3E0009 FFFE011320BF000130", "0 1\n"),
        ("00 4C3E0008 FFFEF113BD920000", "4C3E0008 FFFEF113BD920000", "0 1\n"),
        // Behind the record found, ordinary walking goes on.
        ("00 {Q}4C3E0000 4C3C0002AABB", "{Q}4C3E0000 4C3C0002AABB", "0 1\n"),
        // Candidates within others: the first that is good counts, and what stands inside it is its message.
        ("00 4C3E000E 0000 {Q}", "{Q}", "0 7\n"),
        ("4C3D000C {Q}{R}", "{Q}{R}", "0 4\n"),
        ("4C3E000C {Q}", "4C3E000C {Q}", ""),
        // A record that reaches into the next: what is left of that is passed over.
        ("4C3E0009 FFFE01134C9A0000 {Q}{R}", "4C3E0009 FFFE01134C9A0000 4C {R}", "13 11\n"),
        // Two stretches and more, each where it falls.
        ("00 {Q}0000 {R}4C", "{Q}{R}", "0 1\n13 2\n28 1\n"),
    ] {
        let written_out = |row: &str| bytes(&row.replace("{Q}", QUERY_RECORD).replace("{R}", RESULT_RECORD));
        let found = mend(&written_out(capture));
        tally.same(capture, found, (written_out(mended), lines.to_string()));
    }
    let capture = bytes("4C3E0001AA 4C3C00");
    let mut reader = Reader::new(&capture);
    let first = Mended::Record { toward_device: true, message: &[0xAA] };
    tally.same("a record", (reader.next_mended(), reader.place), (first, 5));
    let passed = Mended::Passed { start: 5, length: 3 };
    tally.same("a stretch", (reader.next_mended(), reader.place), (passed, 8));
    for _ in 0..2 {
        tally.same("the end", (reader.next_mended(), reader.place), (Mended::End, 8));
    }
    for place in [8, 9, usize::MAX] {
        let mut reader = Reader::at(&capture, place);
        tally.same("past the end", (reader.next_record(), reader.place), (Item::End, place));
        tally.same("past the end", (reader.next_mended(), reader.place), (Mended::End, place));
    }
    let whole = captures::full_download(SAMPLE_SEED);
    tally.same("without damage", mend(&whole), (whole.clone(), String::new()));
    for (damaged, line) in [(captures::damaged(), "46 31\n"), (captures::cut(), "46 26\n")] {
        let (mended, lines) = mend(&damaged);
        tally.same("a damaged sample", lines.as_str(), line);
        tally.same("mended again", mend(&mended), (mended.clone(), String::new()));
    }
    tally.same("too long", mend(&vec![0; 32_769]), (Vec::new(), "21\n".to_string()));
    tally.same("as long as can be", mend(&vec![0; 32_768]), (Vec::new(), "0 32768\n".to_string()));
}

const FOUR_LINES: &str = "\
0 0 0 FFFE01138DE300110056302E39000000000000000000000000
1 0 1 FFFE0114D768000100
2 0 2 -
3 0 5 FFFE0117B725000100
";

fn replays(tally: &mut Tally) {
    let wires: Vec<Vec<u8>> = [
        "FFFE01134C9A0000".to_string(),
        format!("FFFE01143AE60016{}01F400010000", V10),
        "FFFE0115E107001300000048454C4C4F2C20496F5420534F544121".to_string(),
        "FFFE0117CF900000".to_string(),
    ]
    .iter()
    .map(|text| bytes(text))
    .collect();
    let four = all_toward_device(&wires);
    tally.same("01's lines", replay(&four).as_str(), FOUR_LINES);
    tally.same("the sample", captures::four_records(), four.clone());
    tally.same("nothing", replay(&[]).as_str(), "");
    tally.same("one byte", replay(&[0x4C]).as_str(), "21\n");
    let mixed = [bytes("4C3C0001AA"), four].concat();
    let answer = format!("1 0 0 FFFE01138DE3001100{}", V09);
    tally.same("all are counted", replay(&mixed).lines().next(), Some(answer.as_str()));
    tally.same("too long", replay(&vec![0; 32_769]).as_str(), "21\n");
    tally.same("as long as can be", replay(&vec![0; 32_768]).as_str(), "20\n");
    let recut = run(&captures::recut(SAMPLE_SEED));
    let (_, second) = captures::builds();
    tally.same("the recut's end", recut.device.phase, 2);
    tally.same("the recut's bytes", &recut.image[..second.len()], &second[..]);
}

/// Each row: a capture, with {Q} and {R} for those records, and its lines.
fn decoded(tally: &mut Tally) {
    for (capture, lines) in [
        ("", ""),
        ("{Q}{R}", "0 to-device query\n12 from-device download result 00\n"),
        // Each is read as a message of its direction.
        ("4C3C0008 FFFE01134C9A0000 4C3C0000", "0 from-device none 8 bad data\n12 from-device none 3 no FFFE\n"),
        ("4C3E0008 FFFE01134C9B0000 {Q}", "0 to-device none 6 wrong check\n12 to-device query\n"),
        ("{Q}4C3D {Q}", "0 to-device query\n12 20 wrong mark\n"),
        ("{R}4C", "0 from-device download result 00\n13 21 cut short\n"),
    ] {
        let filled = capture.replace("{Q}", QUERY_RECORD).replace("{R}", RESULT_RECORD);
        tally.same(capture, decode(&bytes(&filled)).as_str(), lines);
    }
    tally.same("01's records", decode(&captures::four_records()).as_str(), FOUR_DECODED);
    tally.same("too long", decode(&vec![0; 32_769]).as_str(), "21\n");
    tally.same("as long as can be", decode(&vec![0; 32_768]).as_str(), "0 20 wrong mark\n");
}

const FOUR_DECODED: &str = "\
0 to-device query
12 to-device announce version V1.0 size 500 total 1 code 0000
46 to-device fragment result 00 index 0 data 16
77 to-device execute
";

fn main() {
    let mut tally = Tally::default();
    check_rule(&mut tally);
    digest_suite(&mut tally);
    published_messages(&mut tally);
    recognition(&mut tally);
    bad_data(&mut tally);
    results(&mut tally);
    announcements(&mut tally);
    resumes(&mut tally);
    fragments(&mut tally);
    execution(&mut tally);
    phases(&mut tally);
    order(&mut tally);
    broken_records(&mut tally);
    digest_lengths(&mut tally);
    digests_given(&mut tally);
    digests_tested(&mut tally);
    digests_in_bytes(&mut tally);
    refusals(&mut tally);
    gateway_steps(&mut tally);
    gateway_refusals(&mut tally);
    clean_run(&mut tally);
    reader(&mut tally);
    writer(&mut tally);
    mending(&mut tally);
    replays(&mut tally);
    decoded(&mut tally);
    println!("reading: {} compared, {} different", tally.compared, tally.different);
    process::exit(i32::from(tally.different > 0));
}
