//! A whole upgrade without losses, by the crate's types alone: what each call answers, and what it says has changed.
//! Digests given to a device. And captures, written, read and mended.

use pcp::capture::{self, Direction, Item, Reader, Record};
use pcp::{
    Code, Condition, Device, DevicePhase, Ending, Facts, Gateway, GatewayPhase, InstallCode, Refusal,
    Version, DEVICE_RECORD, DEVICE_REPLY, DIGEST_LENGTH, GATEWAY_RECORD, GATEWAY_REPLY,
};

/// Two fragments: 32 bytes, then 18.
const PACKAGE: &[u8] = b"Fifty bytes in two fragments: 32 of them, then 18.";
const SIZE: u16 = 32;
const ERASED: u8 = 0xFF;

/// Both ends, and the device's memory.
struct Pair {
    device: Device,
    image: [u8; 64],
    map: [u8; 1],
    gateway: Gateway,
}

impl Pair {
    fn new() -> Pair {
        Pair {
            device: Device::new(b"V0.9").unwrap(),
            image: [ERASED; 64],
            map: [ERASED],
            gateway: Gateway::start(b"V1.0", SIZE, PACKAGE, true).unwrap(),
        }
    }

    fn device_asks(&self) -> Option<Vec<u8>> {
        let mut reply = [0; DEVICE_REPLY];
        let message = self.device.next_message(&self.image, &self.map, &mut reply).unwrap();
        message.map(<[u8]>::to_vec)
    }

    fn gateway_asks(&self) -> Option<Vec<u8>> {
        let mut reply = [0; GATEWAY_REPLY];
        self.gateway.next_message(PACKAGE, &mut reply).unwrap().map(<[u8]>::to_vec)
    }

    /// Gives back the reply, and whether record and image have changed.
    fn device_takes(&mut self, message: &[u8]) -> (Option<Vec<u8>>, bool, Option<(usize, usize)>) {
        let mut reply = [0; DEVICE_REPLY];
        let (image, map) = (&mut self.image, &mut self.map);
        let answer = self.device.receive(Facts::BOTH, Condition::Ready, message, image, map, &mut reply);
        let answer = answer.unwrap();
        let written = answer.written.map(|place| (place.start, place.len()));
        (answer.reply.map(<[u8]>::to_vec), answer.changed, written)
    }

    fn gateway_takes(&mut self, message: &[u8]) -> (Option<Vec<u8>>, bool) {
        let mut reply = [0; GATEWAY_REPLY];
        let answer = self.gateway.receive(Facts::BOTH, message, PACKAGE, &mut reply).unwrap();
        (answer.reply.map(<[u8]>::to_vec), answer.changed)
    }

    /// The gateway asks, and hears the answer.
    fn gateway_speaks(&mut self) -> bool {
        let message = self.gateway_asks().unwrap();
        let (reply, changed, written) = self.device_takes(&message);
        assert_eq!(written, None);
        assert_eq!(self.gateway_takes(&reply.unwrap()).0, None);
        changed
    }

    /// The device asks, and hears the answer: what of its image was written.
    fn device_speaks(&mut self) -> Option<(usize, usize)> {
        let message = self.device_asks().unwrap();
        let reply = self.gateway_takes(&message).0.unwrap();
        let (further, changed, written) = self.device_takes(&reply);
        assert!(further.is_none() && changed);
        written
    }

    fn phases(&self) -> (DevicePhase, GatewayPhase) {
        (self.device.phase(), self.gateway.phase())
    }

    /// Up to where the device has all.
    fn loaded() -> Pair {
        let mut pair = Pair::new();
        assert!(!pair.gateway_speaks(), "a query changes no device");
        assert!(pair.gateway_speaks(), "an announcement begins a download");
        assert_eq!(pair.device_speaks(), Some((0, 32)));
        assert_eq!(pair.device_speaks(), Some((32, 18)));
        pair
    }
}

#[test]
fn an_upgrade_succeeds() {
    let mut pair = Pair::loaded();
    assert_eq!(pair.phases(), (DevicePhase::Loaded, GatewayPhase::Serve));
    assert_eq!((pair.device.size(), pair.device.total(), pair.device.stored()), (SIZE, 2, 2));
    assert_eq!((pair.device.check_code(), pair.device.map_length()), (Some(0xE7C6), 1));
    assert_eq!(pair.device.target().as_str(), "V1.0");
    assert_eq!((pair.gateway.target().as_str(), pair.gateway.size()), ("V1.0", SIZE));
    assert_eq!(pair.gateway_asks(), None);
    assert_eq!(pair.device_speaks(), None);
    assert_eq!(pair.device_asks(), None);
    assert_eq!(pair.device.to_install(&pair.image), None);
    assert!(pair.gateway_speaks());
    assert_eq!(pair.device.to_install(&pair.image), Some(PACKAGE));
    assert_eq!(pair.device.to_install(&pair.image[..PACKAGE.len() - 1]), None);
    assert_eq!(pair.gateway.ending(), None);
    pair.device.install_finished(InstallCode::Installed).unwrap();
    assert_eq!(pair.device_speaks(), None);
    assert_eq!(pair.phases(), (DevicePhase::Idle, GatewayPhase::Ended));
    assert_eq!(pair.gateway.ending(), Some(Ending::Success));
    assert_eq!(pair.device.running().to_string(), "V1.0");
    assert_eq!(&pair.image[..PACKAGE.len()], PACKAGE);
    assert_eq!(pair.image[PACKAGE.len()..], [ERASED; 14]);
}

/// The message as a sender that sets reserved bits of the version byte would send it.
fn with_reserved_bits(message: &[u8], bits: u8) -> Vec<u8> {
    let mut other = message.to_vec();
    other[2] |= bits << 4;
    let check = pcp::check_of_message(&other).to_be_bytes();
    other[4..6].copy_from_slice(&check);
    other
}

#[test]
fn reserved_bits_change_nothing() {
    for bits in 0..16 {
        let (mut pair, mut plain) = (Pair::new(), Pair::new());
        let query = plain.gateway_asks().unwrap();
        let answer = plain.device_takes(&query);
        assert_eq!(pair.device_takes(&with_reserved_bits(&query, bits)), answer);
        let version = answer.0.unwrap();
        let heard = plain.gateway_takes(&version);
        assert_eq!(pair.gateway_takes(&with_reserved_bits(&version, bits)), heard);
        let offer = plain.gateway_asks().unwrap();
        let answer = plain.device_takes(&offer);
        assert_eq!(pair.device_takes(&with_reserved_bits(&offer, bits)), answer);
        assert_eq!((pair.device, pair.gateway), (plain.device, plain.gateway));
    }
}

#[test]
fn a_repeat_that_differs_fails_the_download() {
    let mut pair = Pair::new();
    pair.gateway_speaks();
    pair.gateway_speaks();
    let request = pair.device_asks().unwrap();
    let fragment = pair.gateway_takes(&request).0.unwrap();
    assert_eq!(pair.device_takes(&fragment).2, Some((0, 32)));
    let mut other = fragment.clone();
    other[11] ^= 1;
    let check = pcp::check_of_message(&other).to_be_bytes();
    other[4..6].copy_from_slice(&check);
    let (image, map) = (pair.image, pair.map);
    for (message, refusal, phase) in [
        (&fragment, Refusal::AlreadyStored, DevicePhase::Loading),
        (&other, Refusal::RepeatDiffers, DevicePhase::Failed),
        (&other, Refusal::NoUse, DevicePhase::Failed),
    ] {
        let mut reply = [0; DEVICE_REPLY];
        let buffers = (&mut pair.image, &mut pair.map);
        let answer =
            pair.device.receive(Facts::BOTH, Condition::Ready, message, buffers.0, buffers.1, &mut reply);
        assert_eq!((answer, pair.device.phase()), (Err(refusal), phase));
        assert_eq!((pair.image, pair.map, pair.device.stored()), (image, map, 1));
    }
    assert!(!Refusal::RepeatDiffers.is_hosts_fault());
    let report = pair.device_asks().unwrap();
    assert_eq!((report[3], report[8]), (22, 0x07));
}

/// The package's MD5, as md5sum has it.
const DIGEST: [u8; DIGEST_LENGTH] =
    [0x1D, 0xF7, 0xC5, 0x2D, 0x76, 0xF8, 0x93, 0xF5, 0x40, 0x0B, 0xE2, 0x95, 0x0E, 0xAE, 0x05, 0x8D];

/// Where the record has the flag, and then the digest.
const DIGEST_SET: usize = 44;

impl Pair {
    /// Up to where the download has begun.
    fn offered() -> Pair {
        let mut pair = Pair::new();
        pair.gateway_speaks();
        pair.gateway_speaks();
        pair
    }

    /// The phase in which the download ends with this digest.
    fn ended_with(digest: &[u8; DIGEST_LENGTH]) -> DevicePhase {
        let mut pair = Pair::offered();
        pair.device.give_digest(digest).unwrap();
        pair.device_speaks();
        pair.device_speaks();
        assert_eq!(pair.device.expected_digest(), Some(*digest));
        pair.device.phase()
    }
}

#[test]
fn a_digest_is_tested_at_completion() {
    assert_eq!(Pair::ended_with(&DIGEST), DevicePhase::Loaded);
    assert_eq!(Pair::ended_with(&[0; DIGEST_LENGTH]), DevicePhase::Failed);
    for bit in 0..8 * DIGEST_LENGTH {
        let mut other = DIGEST;
        other[bit / 8] ^= 1 << (bit % 8);
        assert_eq!(Pair::ended_with(&other), DevicePhase::Failed);
    }
    // Failed is told, the gateway ends, and its next offer begins without a digest.
    let mut pair = Pair::offered();
    pair.device_speaks();
    pair.device.give_digest(&[0; DIGEST_LENGTH]).unwrap();
    assert_eq!(pair.device_speaks(), Some((32, 18)));
    assert_eq!(pair.device_asks().unwrap()[8], 0x07);
    assert_eq!(pair.device_speaks(), None);
    assert_eq!(pair.phases(), (DevicePhase::Idle, GatewayPhase::Ended));
    assert_eq!(pair.gateway.ending(), Some(Ending::DownloadFailed));
    pair.gateway = Gateway::start(b"V1.0", SIZE, PACKAGE, true).unwrap();
    pair.gateway_speaks();
    assert!(pair.gateway_speaks());
    assert_eq!(pair.device.expected_digest(), None);
}

#[test]
fn a_digest_is_given_in_loading() {
    let mut pair = Pair::new();
    assert_eq!(pair.device.give_digest(&DIGEST), Err(Refusal::NoUse));
    assert_eq!((pair.device.phase(), pair.device.expected_digest()), (DevicePhase::Idle, None));
    pair.gateway_speaks();
    pair.gateway_speaks();
    let before = *pair.device.record();
    pair.device.give_digest(&[0; DIGEST_LENGTH]).unwrap();
    assert_eq!(pair.device.expected_digest(), Some([0; DIGEST_LENGTH]));
    // It replaces the one before, and stands at the end of the record; all else is as it was.
    pair.device.give_digest(&DIGEST).unwrap();
    let record = *pair.device.record();
    assert_eq!(record[..DIGEST_SET], before[..DIGEST_SET]);
    assert_eq!((record[DIGEST_SET], &record[DIGEST_SET + 1..]), (1, &DIGEST[..]));
    assert_eq!(Device::from_record(record), Ok(pair.device.clone()));
    // A resume keeps it; an offer of another package does not.
    pair.gateway = Gateway::start(b"V1.0", SIZE, PACKAGE, true).unwrap();
    assert!(!pair.gateway_speaks());
    assert!(!pair.gateway_speaks());
    assert_eq!(pair.device.expected_digest(), Some(DIGEST));
    pair.gateway = Gateway::start(b"V1.1", SIZE, PACKAGE, true).unwrap();
    assert!(!pair.gateway_speaks());
    assert!(pair.gateway_speaks());
    assert_eq!(pair.device.expected_digest(), None);
    for flag in 2..=255 {
        let mut other = record;
        other[DIGEST_SET] = flag;
        assert_eq!(Device::from_record(other), Err(Refusal::BadRecord));
    }
}

#[test]
fn a_digest_is_of_no_use_outside_loading() {
    let mut pair = Pair::loaded();
    let mut phases = Vec::new();
    for step in 0..5 {
        let before = pair.device.clone();
        assert_eq!(pair.device.give_digest(&DIGEST), Err(Refusal::NoUse));
        assert_eq!(pair.device, before);
        phases.push(pair.device.phase());
        match step {
            1 => drop(pair.gateway_speaks()),
            2 => pair.device.install_finished(InstallCode::Installed).unwrap(),
            0 | 3 => drop(pair.device_speaks()),
            _ => {}
        }
    }
    use DevicePhase::{Acked, Idle, Installing, Loaded, Reporting};
    assert_eq!(phases, [Loaded, Acked, Installing, Reporting, Idle]);
}

#[test]
fn a_digest_that_was_given_is_tested() {
    let right = pcp::md5::digest(PACKAGE);
    let mut wrong = right;
    wrong[15] ^= 1;
    for (digest, phase) in [(right, DevicePhase::Loaded), (wrong, DevicePhase::Failed)] {
        let mut pair = Pair::new();
        assert_eq!(pair.device.give_digest(&digest), Err(Refusal::NoUse));
        pair.gateway_speaks();
        pair.gateway_speaks();
        assert_eq!(pair.device.expected_digest(), None);
        assert_eq!(pair.device.give_digest(&digest), Ok(()));
        assert_eq!(pair.device.expected_digest(), Some(digest));
        pair.device_speaks();
        pair.device_speaks();
        assert_eq!(pair.device.phase(), phase);
    }
}

#[test]
fn a_refusal_changes_nothing() {
    let mut pair = Pair::loaded();
    let (device, image, map) = (pair.device.clone(), pair.image, pair.map);
    let mut reply = [0x55; DEVICE_REPLY];
    let refusals = [
        (&b"no message"[..], DEVICE_REPLY, Refusal::BadStart),
        (b"\xFF\xFE\x10\x13\xF9\x34\0\0", DEVICE_REPLY, Refusal::BadVersion),
        (b"\xFF\xFE\x01\x13\x4C\x9B\0\0", DEVICE_REPLY, Refusal::BadCheck),
        (b"\xFF\xFE\xF1\x13\x4C\x9A\0\0", DEVICE_REPLY, Refusal::BadCheck),
        (b"\xFF\xFE\x01\x13\x4C\x9A\0\0", DEVICE_REPLY - 1, Refusal::ShortReply),
    ];
    for (message, room, refusal) in refusals {
        let reply = &mut reply[..room];
        let (image, map) = (&mut pair.image, &mut pair.map);
        let answer = pair.device.receive(Facts::BOTH, Condition::Ready, message, image, map, reply);
        assert_eq!(answer, Err(refusal));
    }
    assert_eq!(pair.device.install_finished(InstallCode::Installed), Err(Refusal::NoUse));
    assert_eq!((pair.device, pair.image, pair.map, reply), (device, image, map, [0x55; DEVICE_REPLY]));
}

#[test]
fn records_outlive_a_restart() {
    let mut pair = Pair::loaded();
    pair.device = Device::from_record(*pair.device.record()).unwrap();
    pair.gateway = Gateway::from_record(*pair.gateway.record()).unwrap();
    assert_eq!(pair.phases(), (DevicePhase::Loaded, GatewayPhase::Serve));
    pair.device_speaks();
    assert_eq!(pair.phases(), (DevicePhase::Acked, GatewayPhase::Run));
}

#[test]
fn other_bytes_are_no_record() {
    assert_eq!(Device::from_record([0; DEVICE_RECORD]), Err(Refusal::BadRecord));
    assert_eq!(Gateway::from_record([0; GATEWAY_RECORD]), Err(Refusal::BadRecord));
    let pair = Pair::loaded();
    for phase in 0..=255 {
        let (mut device, mut gateway) = (*pair.device.record(), *pair.gateway.record());
        (device[0], gateway[0]) = (phase, phase);
        let device = Device::from_record(device).map(|device| device.phase());
        let gateway = Gateway::from_record(gateway).map(|gateway| gateway.phase());
        match DevicePhase::try_from(phase) {
            // A count that is the total is none of Loading.
            Ok(DevicePhase::Loading) | Err(_) => assert_eq!(device, Err(Refusal::BadRecord)),
            Ok(phase) => assert_eq!(device, Ok(phase)),
        }
        assert_eq!(gateway, GatewayPhase::try_from(phase).map_err(|_| Refusal::BadRecord));
    }
}

#[test]
fn values_and_bytes_are_each_others() {
    fn known<T: TryFrom<u8> + Into<u8>>() -> Vec<u8> {
        let known = |byte: &u8| match T::try_from(*byte) {
            Ok(value) => value.into() == *byte,
            Err(_) => false,
        };
        (0..=255).filter(known).collect()
    }
    assert_eq!(known::<Code>(), [19, 20, 21, 22, 23, 24]);
    assert_eq!(known::<DevicePhase>(), [0, 1, 2, 3, 4, 5, 6]);
    assert_eq!(known::<GatewayPhase>(), [0, 1, 2, 3, 4]);
    assert_eq!(known::<Condition>(), [0, 1, 2, 4, 127]);
    assert_eq!(known::<InstallCode>(), [0x00, 0x01, 0x04, 0x05, 0x09, 0x0A, 0x7F]);
    assert_eq!(known::<Ending>(), [0, 1, 2, 3, 4, 5]);
    assert_eq!(known::<Refusal>(), [&(1..=23).collect::<Vec<_>>()[..], &[29, 64]].concat());
    assert_eq!(Ending::try_from(6).unwrap_err().to_string(), "unknown byte 06");
}

#[test]
fn refusals_have_reasons() {
    assert_eq!(Device::new(b"").unwrap_err().to_string(), "bad version text");
    assert_eq!(Device::new(b"V1.0 beta"), Err(Refusal::BadVersionText));
    assert_eq!(Gateway::start(b"V1.0 beta", 32, PACKAGE, true), Err(Refusal::BadVersionText));
    assert_eq!(Device::new(b"V1.0-beta_2").unwrap().running().as_str(), "V1.0-beta_2");
    assert_eq!(Gateway::start(b"V1.0", 31, PACKAGE, true), Err(Refusal::BadSize));
    assert_eq!(Gateway::start(b"V1.0", 32, b"", true), Err(Refusal::BadPackage));
    assert!(Refusal::BadSize.is_hosts_fault() && !Refusal::AlreadyStored.is_hosts_fault());
    assert_eq!(pcp::recognise(Facts { pcp: false, ..Facts::BOTH }, b""), Err(Refusal::OtherProtocol));
    assert_eq!(pcp::recognise(Facts::BOTH, b"\xFF\xFE\x01\x13\x4C\x9A\0\0"), Ok(()));
    assert_eq!((Code::of(b"\xFF\xFE\x01\x17"), Code::of(b"\xFF\xFE\x01")), (Some(Code::Execute), None));
}

#[test]
fn checks_are_the_published_ones() {
    assert_eq!(pcp::check_of_bytes(PACKAGE), 0xE7C6);
    assert_eq!(pcp::check_of_message(b"\xFF\xFE\x01\x13\x12\x34\0\0"), 0x4C9A);
}

const QUERY: &[u8] = b"\xFF\xFE\x01\x13\x4C\x9A\0\0";

/// A query toward the device, any bytes from it, and the query again; and the places between them.
fn recorded() -> (Vec<u8>, [usize; 3]) {
    let mut bytes = vec![ERASED; 64];
    let first = capture::write(Direction::ToDevice, QUERY, &mut bytes, 0).unwrap();
    let second = capture::write(Direction::FromDevice, b"any", &mut bytes, first).unwrap();
    let end = capture::write(Direction::ToDevice, QUERY, &mut bytes, second).unwrap();
    assert!(bytes[end..].iter().all(|byte| *byte == ERASED));
    bytes.truncate(end);
    (bytes, [first, second, end])
}

#[test]
fn a_capture_is_read_as_it_was_written() {
    let (bytes, [first, second, end]) = recorded();
    assert_eq!((first, second, end), (12, 19, 31));
    assert_eq!(bytes[..first], [b"\x4C\x3E\0\x08", QUERY].concat());
    assert_eq!(bytes[first..second], *b"\x4C\x3C\0\x03any");
    let query = Record { direction: Direction::ToDevice, message: QUERY };
    let any = Record { direction: Direction::FromDevice, message: b"any" };
    let (mut reader, mut mending) = (Reader::new(&bytes), Reader::new(&bytes));
    for (record, place) in [(query, first), (any, second), (query, end)] {
        assert_eq!((reader.next_record(), reader.place()), (Ok(Some(record)), place));
        assert_eq!((mending.next_mended(), mending.place()), (Some(Item::Record(record)), place));
    }
    assert_eq!((reader.next_record(), reader.place()), (Ok(None), end));
    assert_eq!((mending.next_mended(), mending.place()), (None, end));
    assert_eq!(Reader::from(&bytes, first).next_record(), Ok(Some(any)));
    assert_eq!(Reader::from(&bytes, usize::MAX).next_record(), Ok(None));
    assert_eq!(Reader::from(&bytes, usize::MAX).next_mended(), None);
}

#[test]
fn a_damaged_capture_is_mended() {
    let (mut bytes, [first, second, end]) = recorded();
    bytes[first] = 0x00;
    let mut reader = Reader::from(&bytes, first);
    for _ in 0..2 {
        assert_eq!((reader.next_record(), reader.place()), (Err(Refusal::BadMark), first));
    }
    // The bytes that are no message of PCP are passed over with the damage.
    let query = Record { direction: Direction::ToDevice, message: QUERY };
    assert_eq!(reader.next_mended(), Some(Item::Passed(first..second)));
    assert_eq!((reader.next_mended(), reader.place()), (Some(Item::Record(query)), end));
    assert_eq!(reader.next_mended(), None);
    let cut = &bytes[..end - 1];
    let mut reader = Reader::from(cut, second);
    assert_eq!((reader.next_record(), reader.place()), (Err(Refusal::CutShort), second));
    assert_eq!(reader.next_mended(), Some(Item::Passed(second..end - 1)));
    assert_eq!((reader.next_mended(), reader.place()), (None, end - 1));
}

#[test]
fn a_record_without_room_is_refused_whole() {
    let message = vec![0; capture::MESSAGE_MOST + 1];
    let mut buffer = vec![ERASED; capture::HEADER + message.len()];
    for (length, room, at) in [
        (message.len(), buffer.len(), 0),
        (capture::MESSAGE_MOST, buffer.len() - 2, 0),
        (capture::MESSAGE_MOST, buffer.len(), 2),
        (0, 8, 5),
        (0, 8, 8),
        (0, 8, usize::MAX),
        (0, 0, 0),
    ] {
        let (message, buffer) = (&message[..length], &mut buffer[..room]);
        let refused = capture::write(Direction::ToDevice, message, buffer, at);
        assert_eq!(refused, Err(Refusal::DoesNotFit));
    }
    assert!(buffer.iter().all(|byte| *byte == ERASED));
    let longest = &message[..capture::MESSAGE_MOST];
    let end = capture::write(Direction::FromDevice, longest, &mut buffer, 1);
    assert_eq!(end, Ok(buffer.len()));
    assert_eq!(buffer[..5], [ERASED, 0x4C, 0x3C, 0xFF, 0xFF]);
    // Damage is daily work; a buffer that is too short is the host's.
    assert!(!Refusal::BadMark.is_hosts_fault() && !Refusal::CutShort.is_hosts_fault());
    assert!(Refusal::DoesNotFit.is_hosts_fault());
}

#[test]
fn a_version_is_made_of_its_text() {
    let version = Version::new(b"V2.0_rc-1").expect("a version text");
    assert_eq!((version.as_str(), version.as_bytes()), ("V2.0_rc-1", b"V2.0_rc-1\0\0\0\0\0\0\0"));
    for text in [&b""[..], b"V 2.0", b"a text of 17 byte"] {
        assert_eq!(Version::new(text), Err(Refusal::BadVersionText));
    }
}

#[test]
fn the_manifest_has_the_librarys_version() {
    assert_eq!(pcp::VERSION, env!("CARGO_PKG_VERSION"));
}
