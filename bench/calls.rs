//! Single calls.

use crate::ends::{DeviceEnd, GatewayEnd, Library, Memory, Plain, Side};
use crate::md5;
use crate::measure::{compare, timed, Times};
use crate::upgrade::offered;
use pcp::{Code, DevicePhase, DEVICE_REPLY, GATEWAY_REPLY};
use plain::search::{by_bits, by_bytes, by_eights, Search};
use std::hint::black_box;
use std::time::Duration;

const ROUNDS: usize = 301;

/// As many bytes has a round of checks, as far as one call has no more.
const ROUND: usize = 32_000;

/// What the check is compared with.
pub const CHECKS: [(&str, fn(&[u8]) -> u16); 3] = [
    ("by the table", plain::check::check),
    ("folded too", plain::check::folded),
    ("reading alone", plain::check::read),
];

/// The check, against one of these.
pub fn check(input: &[u8], against: fn(&[u8]) -> u16) -> Times {
    assert_eq!(Library::check(input), Plain::check(input));
    of_bytes(input, Library::check, against)
}

/// MD5, against OpenSSL's.
pub fn digest(input: &[u8]) -> Times {
    assert_eq!(md5::library(input), md5::openssl(input));
    of_bytes(input, md5::library, md5::openssl)
}

/// What is worked out of some bytes. A round is short, so that what else the machine does meets the rounds of a pair alike.
fn of_bytes<T>(input: &[u8], library: fn(&[u8]) -> T, against: fn(&[u8]) -> T) -> Times {
    let calls = (ROUND / input.len()).max(1);
    let rounds = if calls > 1 { 2_001 } else { 41 };
    let units = calls * input.len();
    compare(
        rounds,
        units,
        || repeated(calls, || library(black_box(input))),
        || repeated(calls, || against(black_box(input))),
    )
}

fn repeated<T>(calls: usize, mut call: impl FnMut() -> T) -> Duration {
    timed(|| {
        for _ in 0..calls {
            call();
        }
    })
}

/// What follows damage in a capture is passed over, up to its end: in the hostile one each eighth place begins a whole record
/// whose message has nothing wrong but its check, over all that is left.
pub fn passed_over(capture: &[u8]) -> Times {
    let end = || pcp::raw::capture_mended(black_box(capture), 0);
    let plain = || plain::capture::first_sound(black_box(capture), 1);
    assert_eq!((end(), plain()), (capture.len(), capture.len()));
    let ignored = |_: usize| ();
    compare(101, 1, || timed(|| ignored(end())), || timed(|| ignored(plain())))
}

pub fn hostile_capture(length: usize) -> Vec<u8> {
    let mut capture = vec![0x00; length];
    for at in (1..length - 15).step_by(8) {
        let count = (length - at - 4).min(0xFFFF) as u16;
        capture[at..at + 2].copy_from_slice(&[0x4C, 0x3E]);
        capture[at + 2..at + 4].copy_from_slice(&count.to_be_bytes());
        capture[at + 4..at + 8].copy_from_slice(&[0xFF, 0xFE, 0x01, 0x13]);
    }
    capture
}

/// All fragments but the last are received, for that one would also have the image checked.
pub fn fragment_received(size: u16, package: &[u8]) -> Times {
    let messages = fragment_messages(size, package);
    let messages = &messages[..messages.len() - 1];
    let (mut library, mut plain) =
        (Loading::<Library>::new(size, package), Loading::<Plain>::new(size, package));
    library.receive_and_set_back(messages);
    plain.receive_and_set_back(messages);
    assert!(library.memory.image == plain.memory.image, "the image of both is the same");
    compare(
        ROUNDS,
        messages.len(),
        || library.receive_and_set_back(messages),
        || plain.receive_and_set_back(messages),
    )
}

/// The last fragment is received, with which the image is tested: by check and digest on the one side, by the check alone
/// on the other, both of them the library.
pub fn completed(size: u16, package: &[u8]) -> Times {
    let messages = fragment_messages(size, package);
    let (before, last) = messages.split_at(messages.len() - 1);
    let (mut with, mut without) =
        (Loading::<Library>::new(size, package), Loading::<Library>::new(size, package));
    with.device.give_digest(&md5::openssl(package)).expect("a digest is taken in Loading");
    for side in [&mut with, &mut without] {
        side.receive(before);
        let (device, map) = (side.device.clone(), side.memory.map.clone());
        side.receive(last);
        assert_eq!(side.device.phase(), DevicePhase::Loaded, "the image passes");
        (side.device, side.memory.map) = (device, map);
    }
    compare(41, package.len(), || with.receive_and_set_back(last), || without.receive_and_set_back(last))
}

/// The gateway is asked for the first fragment.
pub fn fragment_served(size: u16, package: &[u8]) -> Times {
    let request = Loading::<Plain>::new(size, package).ask().to_vec();
    let (mut library, mut plain) =
        (Serving::<Library>::new(size, package), Serving::<Plain>::new(size, package));
    assert_eq!(library.serve(&request), plain.serve(&request));
    let calls = 200;
    compare(
        ROUNDS,
        calls,
        || repeated(calls, || library.serve(&request).len()),
        || repeated(calls, || plain.serve(&request).len()),
    )
}

/// The device is asked when so many of the package's first fragments are stored; the counts rise.
pub fn asking<'a>(
    size: u16,
    package: &'a [u8],
    counts: &'a [usize],
) -> impl Iterator<Item = (usize, Times)> + 'a {
    let messages = fragment_messages(size, package);
    let (mut library, mut plain) =
        (Loading::<Library>::new(size, package), Loading::<Plain>::new(size, package));
    let mut before = 0;
    counts.iter().map(move |&stored| {
        library.receive(&messages[before..stored]);
        plain.receive(&messages[before..stored]);
        before = stored;
        (stored, ask(&mut library, &mut plain))
    })
}

fn ask(library: &mut Loading<Library>, plain: &mut Loading<Plain>) -> Times {
    assert_eq!(library.ask(), plain.ask());
    let calls = 1_000;
    compare(101, calls, || repeated(calls, || library.ask().len()), || repeated(calls, || plain.ask().len()))
}

/// The device is asked when only the last fragment is missing, against each search of plain Rust in the same map: on one
/// side a whole message, on the other the index alone.
pub fn searched(size: u16, package: &[u8]) -> Vec<(&'static str, Times)> {
    let messages = fragment_messages(size, package);
    let mut library = Loading::<Library>::new(size, package);
    library.receive(&messages[..messages.len() - 1]);
    let (map, total) = (library.memory.map.clone(), messages.len() as u16);
    let against = |(name, search): (&'static str, Search)| {
        assert_eq!(search(&map, total), Some(total - 1));
        assert!(library.ask().ends_with(&(total - 1).to_be_bytes()));
        let calls = 100;
        let times = compare(
            101,
            calls,
            || repeated(calls, || library.ask().len()),
            || repeated(calls, || search(&map, total)),
        );
        (name, times)
    };
    [("every bit", by_bits as Search), ("byte by byte", by_bytes), ("eight bytes at a time", by_eights)]
        .into_iter()
        .map(against)
        .collect()
}

fn fragment_messages(size: u16, package: &[u8]) -> Vec<Vec<u8>> {
    let fragments = package.chunks(size.into()).enumerate();
    fragments.map(|(index, data)| fragment_message(index as u16, data)).collect()
}

fn fragment_message(index: u16, data: &[u8]) -> Vec<u8> {
    let mut buffer = [0; GATEWAY_REPLY];
    plain::message::write(&mut buffer, Code::Fragment.into(), &[&[0x00], &index.to_be_bytes(), data]).to_vec()
}

/// A device to which a package was announced.
struct Loading<S: Side> {
    device: S::Device,
    memory: Memory,
    reply: [u8; DEVICE_REPLY],
}

impl<S: Side> Loading<S> {
    fn new(size: u16, package: &[u8]) -> Loading<S> {
        let mut memory = Memory::new(size, package);
        let (device, _) = offered::<S>(size, package, &mut memory);
        Loading { device, memory, reply: [0; DEVICE_REPLY] }
    }

    fn ask(&mut self) -> &[u8] {
        self.device.next_message(&self.memory, &mut self.reply).expect("the device asks for a fragment")
    }

    fn receive(&mut self, messages: &[Vec<u8>]) {
        for message in messages {
            self.device.receive(message, &mut self.memory, &mut self.reply).expect("the device takes it");
        }
    }

    /// Record and map are set back, so that the same fragments can be received again.
    fn receive_and_set_back(&mut self, messages: &[Vec<u8>]) -> Duration {
        let (device, map) = (self.device.clone(), self.memory.map.clone());
        let time = timed(|| self.receive(messages));
        self.device = device;
        self.memory.map = map;
        time
    }
}

/// A gateway whose announcement was accepted.
struct Serving<'a, S: Side> {
    gateway: S::Gateway,
    package: &'a [u8],
    reply: [u8; GATEWAY_REPLY],
}

impl<'a, S: Side> Serving<'a, S> {
    fn new(size: u16, package: &'a [u8]) -> Serving<'a, S> {
        let (_, gateway) = offered::<S>(size, package, &mut Memory::new(size, package));
        Serving { gateway, package, reply: [0; GATEWAY_REPLY] }
    }

    fn serve(&mut self, request: &[u8]) -> &[u8] {
        self.gateway.receive(request, self.package, &mut self.reply).expect("the gateway answers")
    }
}
