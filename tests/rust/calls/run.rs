//! One random run: calls at both ends, at the three functions without state and at MD5's, mostly such as bring an upgrade
//! on. What is drawn decides everything, so that a seed, or given bytes, repeat a run.

use super::messages::{
    any_to_device, any_to_gateway, filler, near, next_to_device, next_to_gateway, some_version, SIZE_EDGES,
    TEXT_BYTES,
};
use super::{Call, Lent, Memory};
use crate::reading::device::{Device, CONDITIONS, INSTALLING, LOADING, READY, REPORTING};
use crate::reading::gateway::{fragments, Gateway, ENDED};
use crate::reading::layout::{
    read_device, read_gateway, read_state, write_device, write_state, DEVICE_FIELDS, DEVICE_RECORD,
    GATEWAY_FIELDS, GATEWAY_RECORD, MD5_STATE,
};
use crate::reading::md5::md5;
use crate::reading::message::{rounded_up, DEVICE_ROOM, GATEWAY_ROOM, SIZES, UPGRADE_RESULTS};
use crate::support::messages::{damaged, other_version_byte};
use crate::support::random::Random;
use std::array;

/// Longer than either end needs.
const REPLY: usize = GATEWAY_ROOM + 9;
/// Messages that are on the air at most.
const AIR: usize = 12;
/// The bytes of a digest.
const DIGEST: usize = 16;
/// The longest piece that is digested.
const LONGEST_PIECE: usize = 300;
/// The smallest size's package of the most fragments, and what lies behind it.
const LONGEST_PACKAGE: usize = 32 * 65_535;
const BEHIND_PACKAGE: usize = 3;

/// How much a run downloads.
#[derive(Clone, Copy, Debug, PartialEq, Eq)]
pub enum Scale {
    Small,
    /// Places in the image need more than 16 bits.
    Large,
    /// The most fragments that there can be, or one more.
    Most,
}

pub struct Run {
    random: Random,
    /// What the next call finds.
    pub memory: Memory,
    /// Somebody else writes into records, image and map between calls.
    pub is_written_into: bool,
    pub calls: usize,
    /// The size with which the gateway is started.
    size: u16,
    package: usize,
    air: Vec<Sent>,
    device_is_made: bool,
    gateway_is_started: bool,
    /// The records to put back after the next call.
    records: Option<(Vec<u8>, Vec<u8>)>,
}

/// A message on its way.
struct Sent {
    to_gateway: bool,
    bytes: Vec<u8>,
}

/// What the records of both ends say, and what their callers hold.
pub struct Ends<'a> {
    pub device: Device,
    pub gateway: Gateway,
    pub memory: &'a Memory,
    pub image: usize,
    pub map: usize,
}

impl Ends<'_> {
    pub fn of(memory: &Memory) -> Ends<'_> {
        Ends {
            device: read_device(&memory.device).expect("the buffer is long enough"),
            gateway: read_gateway(&memory.gateway).expect("the buffer is long enough"),
            memory,
            image: memory.image.len(),
            map: memory.map.len(),
        }
    }

    /// The gateway's package is there, and is cut as its record says.
    fn has_package(&self) -> bool {
        SIZES.contains(&self.gateway.size) && (1..=self.memory.package.len()).contains(&self.gateway.length)
    }

    /// How many fragments the gateway has, by its record.
    pub fn total(&self) -> u16 {
        if self.has_package() {
            fragments(self.gateway.length, self.gateway.size) as u16
        } else {
            0
        }
    }

    /// The device downloads what the gateway serves.
    pub fn is_same_download(&self) -> bool {
        self.has_package() && self.device.held() == self.gateway.announcement()
    }
}

impl Run {
    /// Lends memory for a package and some more; now and then less than it needs.
    pub fn new(mut random: Random, scale: Scale) -> Run {
        let (size, total, calls) = match scale {
            Scale::Small => (some_size(&mut random), some_total(&mut random), random.between(20..=400)),
            Scale::Large => (1_024, random.between(65..=70), random.between(20..=300)),
            Scale::Most => (32, 65_535 + random.below(2), 40),
        };
        let last = if random.once_in(2) { size } else { random.between(1..=size) };
        let package = size * (total - 1) + last;
        let image = size * total + random.pick(&[0, 1, 40]);
        let image = sometimes_less(&mut random, image);
        let map = rounded_up(total, 8) + random.below(3);
        let map = sometimes_less(&mut random, map);
        let behind = random.below(3);
        let memory = Memory {
            input: Vec::new(),
            device: filler(&mut random, DEVICE_RECORD + behind),
            image: filler(&mut random, image),
            map: filler(&mut random, map),
            gateway: filler(&mut random, GATEWAY_RECORD + behind),
            package: filler(&mut random, package + BEHIND_PACKAGE),
            state: filler(&mut random, MD5_STATE + behind),
            reply: vec![0; REPLY],
        };
        Run {
            is_written_into: random.once_in(2),
            random,
            memory,
            calls,
            size: size as u16,
            package,
            air: Vec::new(),
            device_is_made: false,
            gateway_is_started: false,
            records: None,
        }
    }

    /// Nothing is left of the bytes that were given to draw from.
    pub fn is_exhausted(&self) -> bool {
        self.random.is_exhausted()
    }

    /// The next call; its input and its reply buffer are in memory.
    pub fn next_call(&mut self) -> (Call, Lent) {
        if self.is_written_into && self.device_is_made && self.random.once_in(6) {
            self.write_into();
        }
        let fill = self.random.byte();
        self.memory.reply.fill(fill);
        let call = self.some_call();
        (call, self.some_lent(call))
    }

    /// The call was made on the memory.
    pub fn called(&mut self, call: Call, result: u32) {
        let (number, length) = (result % 256, result as usize / 256);
        match call {
            Call::DeviceNew => self.device_is_made |= number == 0,
            Call::GatewayStart { .. } => self.gateway_is_started |= number == 0,
            _ if call.has_reply() && length > 0 && self.random.below(4) > 0 => {
                let bytes = self.memory.reply[..length].to_vec();
                self.air.push(Sent { to_gateway: !call.is_at_gateway(), bytes });
            }
            _ => {}
        }
        if self.air.len() > AIR {
            let lost = self.random.below(AIR);
            self.air.remove(lost);
        }
        if let Some((device, gateway)) = self.records.take() {
            if number != 0 || self.random.once_in(2) {
                self.memory.device = device;
                self.memory.gateway = gateway;
            }
        }
    }

    fn some_call(&mut self) -> Call {
        if !self.device_is_made {
            return self.device_new();
        }
        if !self.gateway_is_started {
            return self.gateway_start();
        }
        let Ends { device, gateway, .. } = Ends::of(&self.memory);
        match self.random.below(100) {
            0..=5 if gateway.phase == ENDED || gateway.version == device.running => self.gateway_start(),
            0..=9 if device.phase == INSTALLING => self.install_finished(),
            0..=1 if device.phase == LOADING => self.give_digest(),
            0..=39 => self.device_receive(),
            40..=65 => self.gateway_receive(),
            66..=76 => Call::DeviceNextMessage,
            77..=85 => Call::GatewayNextMessage,
            86..=89 => self.install_finished(),
            90..=91 => self.gateway_start(),
            93 => self.give_digest(),
            92 if self.random.once_in(3) => self.device_new(),
            94..=96 => self.md5_call(),
            _ => self.without_state(),
        }
    }

    fn without_state(&mut self) -> Call {
        self.memory.input = if self.random.once_in(2) { self.to_device() } else { self.to_gateway() };
        match self.random.below(3) {
            0 => Call::Check,
            1 => Call::MessageCheck,
            _ => Call::Recognise { facts: self.facts() },
        }
    }

    /// Mostly a piece more. Now and then somebody else has written the state: any bytes are one.
    fn md5_call(&mut self) -> Call {
        if self.random.once_in(8) {
            self.change_state();
        }
        self.memory.input = self.piece();
        match self.random.below(8) {
            0 => Call::Md5New,
            1 | 2 => Call::Md5Finish,
            3 | 4 => Call::Md5,
            _ => Call::Md5Feed,
        }
    }

    /// Other bytes, or a count at an edge.
    fn change_state(&mut self) {
        let (random, buffer) = (&mut self.random, &mut self.memory.state);
        if random.once_in(2) {
            *buffer = filler(random, buffer.len());
        }
        let mut state = read_state(buffer).expect("the buffer is long enough");
        let edge = random.pick(&[0, 1 << 32, 1 << 61, u64::MAX]);
        state.count = edge.wrapping_add(random.below(64) as u64).wrapping_sub(32);
        write_state(&state, buffer);
    }

    /// Bytes that leave the state's block open, make it whole, or go beyond it.
    fn piece(&mut self) -> Vec<u8> {
        let state = read_state(&self.memory.state).expect("the buffer is long enough");
        let random = &mut self.random;
        let left = 64 - (state.count % 64) as usize;
        let any = random.below(LONGEST_PIECE);
        let length = random.pick(&[0, 1, left - 1, left, left + 1, left + 64, 64, any, any, any]);
        filler(random, length)
    }

    fn device_new(&mut self) -> Call {
        self.memory.input = self.text();
        Call::DeviceNew
    }

    fn device_receive(&mut self) -> Call {
        self.memory.input = self.to_device();
        Call::DeviceReceive { facts: self.facts(), condition: self.condition() }
    }

    fn install_finished(&mut self) -> Call {
        let any = self.random.byte();
        let allowed = self.random.pick(&UPGRADE_RESULTS);
        Call::DeviceInstallFinished { code: self.random.pick(&[0x00, 0x00, 0x00, allowed, any]) }
    }

    /// That of the package, mostly; else another, zeros, or no digest at all.
    fn give_digest(&mut self) -> Call {
        let mut digest = md5(&self.memory.package[..self.package]).to_vec();
        match self.random.below(8) {
            0 => digest = vec![0; 16],
            1 => digest[self.random.below(16)] ^= 1 << self.random.below(8),
            2 => digest.truncate(self.random.below(16)),
            3 => digest.push(0),
            _ => {}
        }
        self.memory.input = digest;
        Call::DeviceGiveDigest
    }

    /// Often on another build of the package, with the same version and size.
    fn gateway_start(&mut self) -> Call {
        self.memory.input = self.text();
        if self.random.once_in(2) {
            let at = self.random.below(self.package);
            self.memory.package[at] ^= 1 + self.random.below(255) as u8;
        }
        let size = match self.random.below(12) {
            0 => self.random.pick(&SIZE_EDGES),
            1 => near(&mut self.random, self.size),
            _ => self.size,
        };
        Call::GatewayStart { size, checked: self.random.pick(&[0, 1, 1, 2, 128, 255]) }
    }

    fn gateway_receive(&mut self) -> Call {
        self.memory.input = self.to_gateway();
        Call::GatewayReceive { facts: self.facts() }
    }

    /// A version text as it is lent: mostly without the 00 behind it, now and then a bad one.
    fn text(&mut self) -> Vec<u8> {
        let random = &mut self.random;
        let mut text = some_version(random).to_vec();
        if random.once_in(2) {
            text.retain(|byte| *byte != 0);
        }
        match random.below(16) {
            0 => text[random.below(4)] = random.pick(&TEXT_BYTES),
            1 => text.clear(),
            2 => text.resize(random.between(15..=18), random.pick(&[0x00, 0x41])),
            _ => {}
        }
        text
    }

    fn facts(&mut self) -> [u8; 2] {
        if self.random.once_in(8) {
            [0; 2].map(|_| self.random.pick(&[0, 1, 1, 2, 128, 255]))
        } else {
            [1, 1]
        }
    }

    fn condition(&mut self) -> u8 {
        match self.random.below(12) {
            0 | 1 => self.random.pick(&CONDITIONS),
            2 => self.random.byte(),
            _ => READY,
        }
    }

    fn to_device(&mut self) -> Vec<u8> {
        self.message(false, next_to_device, any_to_device)
    }

    fn to_gateway(&mut self) -> Vec<u8> {
        self.message(true, next_to_gateway, any_to_gateway)
    }

    /// One from the air, one that brings the end on, or any; then perhaps damaged, or with another version byte.
    fn message(
        &mut self,
        to_gateway: bool,
        next: impl Fn(&mut Random, &Ends) -> Vec<u8>,
        any: impl Fn(&mut Random, &Ends) -> Vec<u8>,
    ) -> Vec<u8> {
        let message = match self.random.below(8) {
            0..=3 => next(&mut self.random, &Ends::of(&self.memory)),
            4 | 5 => self.from_air(to_gateway).unwrap_or_default(),
            _ => any(&mut self.random, &Ends::of(&self.memory)),
        };
        match self.random.below(8) {
            _ if message.is_empty() => message,
            0 => damaged(&mut self.random, &message),
            1 => other_version_byte(&mut self.random, &message),
            _ => message,
        }
    }

    /// It may stay there, and so come again.
    fn from_air(&mut self, to_gateway: bool) -> Option<Vec<u8>> {
        if self.air.is_empty() {
            return None;
        }
        let first = self.random.below(self.air.len());
        let places = (first..self.air.len()).chain(0..first);
        let place = places.into_iter().find(|place| self.air[*place].to_gateway == to_gateway)?;
        Some(if self.random.once_in(3) {
            self.air[place].bytes.clone()
        } else {
            self.air.remove(place).bytes
        })
    }

    /// Mostly all. Now and then one buffer is lent at about the least length that is needed, or at any; or several
    /// are, so that the order of the refusals decides.
    fn some_lent(&mut self, call: Call) -> Lent {
        let Ends { device, gateway, memory, image, map } = Ends::of(&self.memory);
        let held = device.held();
        let (record, least_record, room) = if call.is_at_gateway() {
            (memory.gateway.len(), GATEWAY_RECORD, GATEWAY_ROOM)
        } else if call.is_of_md5() {
            (memory.state.len(), MD5_STATE, DIGEST)
        } else {
            (memory.device.len(), DEVICE_RECORD, DEVICE_ROOM)
        };
        let started = if matches!(call, Call::GatewayStart { .. }) { self.package } else { gateway.length };
        let package = started.min(memory.package.len());
        let random = &mut self.random;
        let reply = if call.is_of_md5() { DIGEST } else { random.pick(&[REPLY, REPLY, room]) };
        let usual = [record, image, map, package, reply];
        let least = [least_record, held.image_length(), held.map_length(), package, room];
        let most = [record, image, map, memory.package.len(), REPLY];
        let changed = match random.below(16) {
            0 | 1 => 1 << random.below(5),
            2 => random.below(32),
            _ => 0,
        };
        let [record, image, map, package, reply] = array::from_fn(|buffer| {
            if changed >> buffer & 1 == 1 {
                cut_to(random, least[buffer], most[buffer])
            } else {
                usual[buffer]
            }
        });
        Lent { record, image, map, package, reply }
    }

    /// Changes the records, the image or the map. Records that the call refuses are put back, so that the run goes on.
    fn write_into(&mut self) {
        self.records = Some((self.memory.device.clone(), self.memory.gateway.clone()));
        let (random, memory) = (&mut self.random, &mut self.memory);
        match random.below(18) {
            0..=4 => change_field(random, &DEVICE_FIELDS, &mut memory.device),
            5..=8 => change_field(random, &GATEWAY_FIELDS, &mut memory.gateway),
            9 => memory.device = filler(random, memory.device.len()),
            10 => memory.gateway = filler(random, memory.gateway.len()),
            11 => memory.device[0] = random.below(usize::from(REPORTING) + 2) as u8,
            12 => memory.gateway[0] = random.below(usize::from(ENDED) + 2) as u8,
            13 => change_byte(random, &mut memory.map),
            14 => memory.map.fill(0xFF),
            _ => self.hurry(),
        }
    }

    /// Brings a download near its end, as if the package's fragments had arrived.
    fn hurry(&mut self) {
        let Ends { mut device, gateway, map, .. } = Ends::of(&self.memory);
        let package = &self.memory.package[..gateway.length.min(self.memory.package.len())];
        if device.phase != LOADING || package.len() > self.memory.image.len() || device.total == 0 {
            return;
        }
        let left = self.random.below(usize::from(device.total)) as u16;
        self.memory.image[..package.len()].copy_from_slice(package);
        self.memory.map.fill(0xFF);
        if usize::from(left) / 8 < map {
            self.memory.map[usize::from(left) / 8] ^= 1 << (left % 8);
        }
        device.stored = device.total - 1;
        device.last = if left == device.total - 1 {
            0
        } else {
            let before = usize::from(device.size) * usize::from(device.total - 1);
            package.len().saturating_sub(before) as u16
        };
        write_device(&device, &mut self.memory.device);
        self.records = None;
    }
}

fn some_size(random: &mut Random) -> usize {
    let any = random.between((*SIZES.start()).into()..=(*SIZES.end()).into());
    random.pick(&[32, 33, 40, 64, 100, 1_024, any])
}

fn some_total(random: &mut Random) -> usize {
    random.pick(&[1, 2, 3, 5, 7, 8, 9, 12, 15, 16, 17])
}

fn sometimes_less(random: &mut Random, length: usize) -> usize {
    if random.below(10) < 9 {
        length
    } else {
        random.pick(&[0, length - 1, length / 2])
    }
}

/// A length that is not above the most: the given one, a neighbour of it, or any.
fn cut_to(random: &mut Random, length: usize, most: usize) -> usize {
    let any = random.below(most + 1);
    random.pick(&[length, length.saturating_sub(1), length + 1, 0, any]).min(most)
}

fn change_byte(random: &mut Random, bytes: &mut [u8]) {
    if !bytes.is_empty() {
        let at = random.below(bytes.len());
        bytes[at] ^= 1 << random.below(8);
    }
}

/// Sets one field of a record, often to about an edge of what is allowed there.
fn change_field(random: &mut Random, widths: &[usize], record: &mut [u8]) {
    let field = random.below(widths.len());
    let start: usize = widths[..field].iter().sum();
    let field = &mut record[start..start + widths[field]];
    match *field {
        [ref mut byte] => *byte = random.pick(&[0, 1, 2, 3, 4, 5, 6, 7, 9, 10, 126, 127, 128, 255]),
        [ref mut high, ref mut low] => {
            let value = near(random, u16::from_be_bytes([*high, *low]));
            let edge = random.pick(&SIZE_EDGES);
            [*high, *low] = random.pick(&[value, edge]).to_be_bytes();
        }
        _ if field.len() == 8 => {
            let value = u64::from_be_bytes(field.try_into().expect("8 bytes"));
            let longest = LONGEST_PACKAGE as u64;
            let edges = [
                0,
                1,
                value ^ 1,
                value.wrapping_add(1 << 32),
                longest,
                longest + 1,
                1_024 * 65_535,
                u64::MAX,
            ];
            field.copy_from_slice(&random.pick(&edges).to_be_bytes());
        }
        _ => field[random.below(16)] = random.pick(&TEXT_BYTES),
    }
}
