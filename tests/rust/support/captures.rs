//! Captures for the samples and for the checks of the replay program.

use super::messages::{
    announce, any_announce, execute, fragment, query, with_reserved_bits, with_version_byte,
};
use super::random::Random;
use super::version;
use crate::reading::capture::{Item, Reader, FROM_DEVICE, TOWARD_DEVICE};
use crate::reading::check::check;
use crate::reading::device::{is_stored, Device, READY};
use crate::reading::gateway::Gateway;
use crate::reading::message::{encode, ToGateway, BOTH_FACTS, DEVICE_ROOM, GATEWAY_ROOM, SIZES};
use crate::reading::replay::{IMAGE_LENGTH, MAP_LENGTH, RUNNING};

/// Fixes what gets lost, repeated and reordered in the samples.
pub const SAMPLE_SEED: u64 = 7;

/// How many fragments the recorded device asks for at a time.
const ASKED_AT_ONCE: usize = 3;

/// A capture while it is written.
#[derive(Clone, Debug, Default)]
pub struct Writer {
    pub bytes: Vec<u8>,
}

impl Writer {
    pub fn add_toward_device(&mut self, message: &[u8]) {
        self.add(TOWARD_DEVICE, message);
    }

    pub fn add_from_device(&mut self, message: &[u8]) {
        self.add(FROM_DEVICE, message);
    }

    pub fn add(&mut self, mark: [u8; 2], message: &[u8]) {
        let length = u16::try_from(message.len()).expect("a record fits its length field");
        self.bytes.extend(mark);
        self.bytes.extend(length.to_be_bytes());
        self.bytes.extend(message);
    }
}

/// A capture of messages toward the device.
pub fn all_toward_device(messages: &[Vec<u8>]) -> Vec<u8> {
    let mut capture = Writer::default();
    for message in messages {
        capture.add_toward_device(message);
    }
    capture.bytes
}

/// The four messages of 01's example: query, announcement, the one fragment, execute.
pub fn four_messages() -> Vec<Vec<u8>> {
    vec![query(), announce(version("V1.0"), 500, 1, 0), fragment(0, b"HELLO, IoT SOTA!"), execute()]
}

pub fn four_records() -> Vec<u8> {
    all_toward_device(&four_messages())
}

/// An upgrade as it is recorded at the device: what arrives there, and what the device sends. Requests and fragments
/// may get lost, come twice or overtake each other.
pub struct Session {
    pub device: Device,
    pub image: Vec<u8>,
    pub map: Vec<u8>,
    pub capture: Writer,
    pub random: Random,
}

/// A gateway with its package.
#[derive(Clone, Debug)]
pub struct Server {
    pub gateway: Gateway,
    pub package: Vec<u8>,
}

impl Server {
    pub fn new(text: &str, size: u16, package: &[u8], with_code: bool) -> Server {
        let (number, gateway) = Gateway::start(version(text), size, package, with_code);
        assert_eq!(number, 0, "the gateway starts");
        Server { gateway, package: package.to_vec() }
    }

    pub fn next_message(&self) -> Vec<u8> {
        self.gateway.next_message(&self.package, GATEWAY_ROOM).reply
    }

    pub fn receive(&mut self, message: &[u8]) -> Vec<u8> {
        self.gateway.receive(message, BOTH_FACTS, &self.package, GATEWAY_ROOM).reply
    }
}

impl Session {
    pub fn new(seed: u64) -> Session {
        Session {
            device: Device::make(RUNNING).1,
            image: vec![0; IMAGE_LENGTH],
            map: vec![0; MAP_LENGTH],
            capture: Writer::default(),
            random: Random::new(seed),
        }
    }

    /// A message arrives at the device; returns the reply, which is recorded too.
    pub fn deliver(&mut self, message: &[u8]) -> Vec<u8> {
        self.capture.add_toward_device(message);
        let reply = self
            .device
            .receive(message, BOTH_FACTS, READY, &mut self.image, &mut self.map, DEVICE_ROOM)
            .reply;
        if !reply.is_empty() {
            self.capture.add_from_device(&reply);
        }
        reply
    }

    /// The gateway's own next message makes its way there and back.
    pub fn exchange(&mut self, server: &mut Server) {
        let message = server.next_message();
        let reply = self.deliver(&message);
        server.receive(&reply);
    }

    /// Query and announcement.
    pub fn offer(&mut self, server: &mut Server) {
        self.exchange(server);
        self.exchange(server);
    }

    /// Fragments are asked for until so many are stored.
    pub fn download(&mut self, server: &mut Server, wanted: u16) {
        let mut air = Vec::new();
        while self.device.stored < wanted {
            self.request(server, &mut air);
            self.random.shuffle(&mut air);
            let late = if self.random.once_in(2) { air.pop() } else { None };
            for message in air.drain(..) {
                if self.device.stored < wanted {
                    self.deliver(&message);
                }
            }
            air.extend(late);
        }
    }

    /// The lowest missing fragments are asked for; what comes back is put on the air.
    fn request(&mut self, server: &mut Server, air: &mut Vec<Vec<u8>>) {
        let map = self.map.clone();
        let missing = (0..self.device.total).filter(|index| !is_stored(&map, *index));
        for index in missing.take(ASKED_AT_ONCE) {
            let request = ToGateway::Fragment { version: self.device.version, index };
            let request = request.write(DEVICE_ROOM).expect("the request fits the table");
            self.capture.add_from_device(&request);
            let reply = server.receive(&request);
            let copies = self.random.pick(&[0, 1, 1, 1, 2]);
            air.extend(vec![reply; copies]);
        }
    }

    /// The device reports its download and is told the answer.
    pub fn report(&mut self, server: &mut Server) {
        let report = self.device.next_message(&self.image, &self.map, DEVICE_ROOM).reply;
        self.capture.add_from_device(&report);
        let answer = server.receive(&report);
        self.deliver(&answer);
    }
}

/// A package whose bytes do not repeat with the fragments.
pub fn package(seed: u64, length: usize) -> Vec<u8> {
    Random::new(seed).bytes(length)
}

/// Twelve fragments, the last one short, up to the installation; the order to install comes twice.
pub fn full_download(seed: u64) -> Vec<u8> {
    let package = package(seed, 11 * 96 + 41);
    let mut server = Server::new("V1.0", 96, &package, true);
    let mut session = Session::new(seed);
    session.offer(&mut server);
    session.download(&mut server, 12);
    session.report(&mut server);
    session.exchange(&mut server);
    session.exchange(&mut server);
    assert_eq!(session.device.phase, 5, "the device installs");
    assert_eq!(session.image[..package.len()], package);
    session.capture.bytes
}

/// Sixteen fragments of the most bytes, which fill replay's image but for the last byte, up to the installation; and before
/// them an announcement with one byte more in each, which is refused.
pub fn large_fragments() -> Vec<u8> {
    let package = package(5, IMAGE_LENGTH - 1);
    let mut server = Server::new("V1.0", *SIZES.end(), &package, true);
    let mut session = Session::new(SAMPLE_SEED);
    session.exchange(&mut server);
    session.deliver(&any_announce(version("V1.0"), SIZES.end() + 1, 1, 0));
    session.exchange(&mut server);
    for (index, data) in package.chunks(usize::from(*SIZES.end())).enumerate() {
        session.deliver(&fragment(index as u16, data));
    }
    session.report(&mut server);
    session.exchange(&mut server);
    assert_eq!(session.device.phase, 5, "the device installs");
    assert_eq!(session.image[..package.len()], package);
    session.capture.bytes
}

/// The two builds of the recut: same version, size and total, other bytes and so another check code.
pub fn builds() -> (Vec<u8>, Vec<u8>) {
    (package(3, 11 * 64 + 40), package(4, 11 * 64 + 40))
}

/// March: half of a build is stored when its recut is announced.
pub fn recut(seed: u64) -> Vec<u8> {
    let (first, second) = builds();
    let mut session = Session::new(seed);
    let mut server = Server::new("V1.0", 64, &first, true);
    session.offer(&mut server);
    session.download(&mut server, 6);
    let mut server = Server::new("V1.0", 64, &second, true);
    session.offer(&mut server);
    assert_eq!(session.device.stored, 0, "the download starts afresh");
    session.download(&mut server, 12);
    assert_eq!(session.device.phase, 2, "the recut is loaded");
    assert_eq!(session.image[..second.len()], second);
    session.capture.bytes
}

/// The four messages from a gateway that sets reserved bits, and before the announcement what is refused: bad version
/// bytes (alone, with a bad code, a bad check, both), then the check of 01 beside F1.
pub fn reserved_bits() -> Vec<u8> {
    let messages = four_messages();
    let query = &messages[0];
    let other_code = encode(18, &[]);
    let with_check_of_01 = |message: &[u8], version| {
        let mut other = message.to_vec();
        other[2] = version;
        other
    };
    all_toward_device(&[
        with_reserved_bits(query, 0xF),
        with_version_byte(query, 0x00),
        with_version_byte(&other_code, 0x02),
        with_check_of_01(query, 0x10),
        with_check_of_01(&other_code, 0xF2),
        with_check_of_01(query, 0xF1),
        with_reserved_bits(&messages[1], 0x1),
        with_reserved_bits(&messages[2], 0x8),
        with_reserved_bits(&messages[3], 0xF),
    ])
}

/// March, where nobody announces the recut: half of a build is stored when the gateway serves its recut in its place. The
/// first of its fragments that is stored already differs, and the download has failed; then the recut is announced.
pub fn recut_repeated(seed: u64) -> Vec<u8> {
    let (first, second) = builds();
    let mut session = Session::new(seed);
    let mut server = Server::new("V1.0", 64, &first, true);
    session.offer(&mut server);
    session.download(&mut server, 6);
    for index in [8, 9, 2, 10] {
        let data = &second[usize::from(index) * 64..][..64];
        session.deliver(&fragment(index, data));
    }
    assert_eq!(session.device.phase, 4, "the download has failed");
    session.report(&mut server);
    let mut server = Server::new("V1.0", 64, &second, true);
    session.offer(&mut server);
    session.download(&mut server, 12);
    assert_eq!(session.device.phase, 2, "the recut is loaded");
    assert_eq!(session.image[..second.len()], second);
    session.capture.bytes
}

/// A package, and a download of it in which two fragments are damaged on the way and no check sees it: in the one two
/// neighbouring bytes are xored with 0A and C3, in the other two bytes that are 13 apart are exchanged. The image has the
/// package's code as its check, and is installed.
pub fn unseen_damage() -> (Vec<u8>, Vec<u8>) {
    let package = package(8, 5 * 128 + 77);
    let mut server = Server::new("V1.0", 128, &package, true);
    let mut session = Session::new(SAMPLE_SEED);
    session.offer(&mut server);
    for index in 0..6 {
        let request = session.device.next_message(&session.image, &session.map, DEVICE_ROOM).reply;
        session.capture.add_from_device(&request);
        let mut message = server.receive(&request);
        match index {
            1 => {
                message[40] ^= 0x0A;
                message[41] ^= 0xC3;
            }
            4 => message.swap(30, 43),
            _ => {}
        }
        session.deliver(&message);
    }
    session.report(&mut server);
    session.exchange(&mut server);
    assert_eq!(session.device.phase, 5, "the device installs");
    let image = &session.image[..package.len()];
    let differing = image.iter().zip(&package).filter(|(stored, sent)| stored != sent).count();
    assert_eq!((differing, check(image)), (4, check(&package)), "the damage is there, and not seen");
    (package, session.capture.bytes)
}

/// A good start, then a record whose mark is wrong.
pub fn damaged() -> Vec<u8> {
    let messages = four_messages();
    let mut capture = Writer { bytes: all_toward_device(&messages[..2]) };
    capture.add([0x4C, 0x3D], &messages[2]);
    capture.add_toward_device(&messages[3]);
    capture.bytes
}

/// The third of four records ends too early.
pub fn cut() -> Vec<u8> {
    let messages = four_messages();
    let mut capture = all_toward_device(&messages[..3]);
    capture.truncate(capture.len() - 5);
    capture
}

/// A download whose capture was damaged in three places: a mark, the length of a later record, which then reaches past the
/// end, and the end, which is missing.
pub fn damaged_in_three_places() -> Vec<u8> {
    let mut capture = full_download(SAMPLE_SEED);
    let places = record_places(&capture);
    capture[places[4]] = 0x00;
    capture[places[20] + 2] = 0xFF;
    capture.truncate(capture.len() - 3);
    capture
}

/// Where the records of a capture without damage begin.
fn record_places(capture: &[u8]) -> Vec<usize> {
    let mut reader = Reader::new(capture);
    let mut places = Vec::new();
    loop {
        places.push(reader.place);
        if !matches!(reader.next_record(), Item::Record { .. }) {
            return places;
        }
    }
}
