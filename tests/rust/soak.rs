//! `soak [SEEDS [FIRST]]` upgrades a simulated device for each seed, by the drivers of both ends, over a link that loses,
//! repeats, delays and reorders messages and is down at times, while either process is killed at any point and started
//! again from what it had saved. Each seed has to end with the device running the package, and at rest. It is run by the
//! drivers in Rust, by those in C, and with the language changed at every restart: all that they tell their hosts must be
//! the same, byte for byte.
//!
//! Seen to on the way: nothing is sent that is not saved; what is installed is the package, and does not run already; the
//! installer is begun once between two restarts; an order to install that was accepted is known after a restart; what a
//! save's map marks is whole in the image; no order to install is sent after one was answered; a digest that the device's
//! host knows is set before anything of its download is sent, and what is installed passes it; and the gateway's success is
//! true.

mod drivers;
#[path = "support/random.rs"]
#[allow(dead_code)]
mod random;

use drivers::{Action, DeviceEnd, GatewayEnd, Language};
use pcp::driver::{device_state, Config, PackageDigest, DEVICE_STATE_FIXED, GATEWAY_STATE};
use pcp::{md5, DevicePhase, GatewayPhase, Version, GATEWAY_REPLY};
use pcp::{SIZE_MAX, SIZE_MIN, SIZE_PUBLIC};
use random::Random;
use std::process::ExitCode;
use std::{env, fmt};

const SEEDS: u64 = 10_000;

const RUNNING: &[u8] = b"V1.0";
const CHANGED: &[u8] = b"V1.1";
const TARGET: &[u8] = b"V2.0";

/// Time passes in ticks. The longest delay of a message, the longest installation, and when a seed counts as one that
/// stands still.
const DELAY: usize = 8;
const INSTALLATION: usize = 100;
const MOST_TICKS: u64 = 4_000_000;

/// Numbers of the protocol that are seen here.
const ANNOUNCE: u8 = 20;
const EXECUTE: u8 = 23;
const READY: u8 = 0;
const BUSY: u8 = 1;
const SUCCESS: u32 = 1;

/// What goes wrong in one seed, and what the two ends are like. Where a number says once in how many times, 0 is never.
#[derive(Debug)]
struct Scenario {
    /// Percent of the messages. In one that is damaged a bit is another.
    lost: usize,
    repeated: usize,
    damaged: usize,
    /// Of two messages that an end sends at the same tick, the first is lost.
    crowded: bool,
    /// Outages begin once in so many ticks.
    outage: usize,
    /// Each end is killed once in so many steps, and once in so many ticks.
    cut_device: usize,
    cut_gateway: usize,
    power: usize,
    /// What was saved is lost at a restart once in so many times, but no more than twice.
    wiped: usize,
    /// The device keeps nothing over a restart.
    amnesia: bool,
    /// The device is busy, and an installation fails.
    busy: usize,
    failing: usize,
    /// The image is lost where an installation is cut off.
    forgets: bool,
    /// Longer messages reach the device cut.
    longest: usize,
    /// The device does not know fragments above 500 bytes.
    old: bool,
    /// Somebody else changes what runs on the device.
    meddled: bool,
    /// Of the device.
    image: usize,
    state: usize,
    config: Config,
    package: Package,
    digest: Known,
}

/// What the device's host knows of the package's MD5.
#[derive(Clone, Copy, Debug, PartialEq, Eq)]
enum Known {
    Nothing,
    Right,
    /// From its second start on.
    Later,
    /// A wrong one, until so many downloads failed; then the right one.
    Wrong(u64),
    /// That of another version.
    Other,
}

impl Known {
    fn any(random: &mut Random) -> Known {
        match random.below(8) {
            0..=3 => Known::Nothing,
            4 => Known::Right,
            5 => Known::Later,
            6 => Known::Wrong(random.between(1..=3) as u64),
            _ => Known::Other,
        }
    }

    /// At the device's n-th start, when so many downloads have failed.
    fn at(self, start: u64, failed: u64, package: &[u8]) -> Option<PackageDigest> {
        let version = if self == Known::Other { b"V3.0" } else { TARGET };
        let mut digest = md5::digest(package);
        match self {
            Known::Nothing => return None,
            Known::Later if start < 2 => return None,
            Known::Wrong(times) if failed < times => digest[0] ^= 1,
            Known::Other => digest[0] ^= 1,
            Known::Right | Known::Later | Known::Wrong(_) => {}
        }
        Some(PackageDigest { version: Version::new(version).expect("a version text"), digest })
    }
}

/// Its bytes are not shown.
struct Package(Vec<u8>);

impl fmt::Debug for Package {
    fn fmt(&self, f: &mut fmt::Formatter) -> fmt::Result {
        write!(f, "{} bytes", self.0.len())
    }
}

impl Scenario {
    fn new(random: &mut Random) -> Scenario {
        let package = package(random);
        let size = random.between(SIZE_MIN.into()..=SIZE_MAX.into());
        let config = Config {
            retry: 20,
            quiet: 2 * DELAY as u64 + 1,
            installation: 250,
            later: 120,
            linger: 200,
            time_limit: MOST_TICKS,
            gateway_limit: 10_000,
            failure_limit: 0,
            size: size as u16,
            size_most: SIZE_MAX,
            save_every: random.between(1..=16) as u16,
            install_limit: random.between(1..=5) as u8,
            digest: None,
        };
        let longest = if random.once_in(10) { random.between(100..=GATEWAY_REPLY) } else { GATEWAY_REPLY };
        let (image, state) = memory(random, package.len(), longest < GATEWAY_REPLY);
        // A device that begins anew each time gets nowhere if it is killed often, or has much to fetch.
        let amnesia = random.once_in(20) && package.len() < 60 * size;
        let often =
            |times: [usize; 4], random: &mut Random| random.pick(&times[..if amnesia { 2 } else { 4 }]);
        Scenario {
            lost: random.below(31),
            repeated: random.below(31),
            damaged: random.pick(&[0, 0, 3]),
            crowded: random.once_in(10),
            outage: random.pick(&[0, 0, 8_000, 2_000]),
            cut_device: often([0, 1_000, 200, 40], random),
            cut_gateway: random.pick(&[0, 1_000, 200, 40]),
            power: often([0, 10_000, 1_000, 300], random),
            wiped: random.pick(&[0, 0, 0, 20]),
            amnesia,
            busy: random.pick(&[0, 20, 8]),
            failing: random.pick(&[0, 0, 4]),
            forgets: random.once_in(4),
            longest,
            old: random.once_in(20),
            meddled: random.once_in(20),
            image,
            state,
            config,
            package: Package(package),
            digest: Known::any(random),
        }
    }
}

/// Most are short, so that a seed does not take long. Some have a check of 0, and so no code.
fn package(random: &mut Random) -> Vec<u8> {
    let length = match random.below(20) {
        0 => random.between(1..=100),
        1 => random.between(6_000..=40_000),
        _ => random.between(1..=6_000),
    };
    let mut package = random.bytes(length);
    if random.once_in(50) {
        package.truncate(60);
        package.resize(package.len().max(3), 0);
        let end = package.len() - 2;
        for word in 0..=u16::MAX {
            package[end..].copy_from_slice(&word.to_be_bytes());
            if pcp::check_of_bytes(&package) == 0 {
                break;
            }
        }
    }
    package
}

/// Lengths of a device's image and state: mostly enough for every size, at times for two sizes or some more. Not where
/// only short fragments reach it, for these need more.
fn memory(random: &mut Random, package: usize, short: bool) -> (usize, usize) {
    if short || random.below(4) > 0 {
        let image = package + usize::from(SIZE_MAX);
        return (image, device_state(image));
    }
    let size = random.between(SIZE_MIN.into()..=SIZE_PUBLIC.into());
    let (one, other) = (needs(package, size), needs(package, size - size / 10 + 1));
    let (image, map) = (one.0.max(other.0), one.1.max(other.1));
    (image, if random.once_in(2) { DEVICE_STATE_FIXED + map } else { device_state(image) })
}

/// What a package in fragments of this size needs of image and map.
fn needs(package: usize, size: usize) -> (usize, usize) {
    let total = (package + size - 1) / size;
    (size * total, (total + 7) / 8)
}

#[derive(Clone, Copy, Debug, PartialEq, Eq)]
enum End {
    Device,
    Gateway,
}

/// Where bytes are written: a place in the image, or a slot.
enum Storage {
    Image(usize),
    Device(usize),
    Gateway(usize),
}

struct Message {
    to: End,
    sent: u64,
    due: u64,
    bytes: Vec<u8>,
}

/// What happened, summed over seeds.
#[derive(Default)]
struct Counts {
    sent: u64,
    lost: u64,
    repeated: u64,
    device_restarts: u64,
    gateway_restarts: u64,
    gateways: u64,
    installations: u64,
    ticks: u64,
    longest: u64,
    longest_seed: u64,
    /// Gateways that were over, by phase and ending.
    over: [[u64; 6]; 5],
}

/// A process that is up has a driver; its clock begins anywhere.
struct Process {
    /// When it was started, and what its clock said then.
    started: u64,
    clock: u64,
    /// When its driver wants to be polled, or, if it is down, when it is started again.
    wake: u64,
    /// When the power goes.
    cut_at: u64,
    starts: u64,
    slots: [Vec<u8>; 2],
}

impl Process {
    fn new(slot: usize) -> Process {
        let slots = [vec![0xFF; slot], vec![0xFF; slot]];
        Process { started: 0, clock: 0, wake: 0, cut_at: u64::MAX, starts: 0, slots }
    }

    fn clock(&self, now: u64) -> u64 {
        self.clock + (now - self.started)
    }

    /// When the clock will say this.
    fn at(&self, clock: u64) -> u64 {
        if clock == u64::MAX {
            clock
        } else {
            self.started + clock.saturating_sub(self.clock)
        }
    }

    fn saved(&self) -> [&[u8]; 2] {
        [&self.slots[0], &self.slots[1]]
    }

    /// The newest save, read by rules of this program's own.
    fn newest(&self, kind: u8, least: usize) -> Option<&[u8]> {
        let saves = self.slots.iter().filter_map(|slot| whole(slot, kind, least));
        saves.max_by_key(|save| u32::from_be_bytes([save[8], save[9], save[10], save[11]]))
    }
}

/// Why a seed failed.
struct Failure(String);

impl<T: fmt::Display> From<T> for Failure {
    fn from(what: T) -> Failure {
        Failure(what.to_string())
    }
}

fn expect(holds: bool, what: &str) -> Result<(), Failure> {
    if holds {
        Ok(())
    } else {
        Err(what.into())
    }
}

struct World<'s> {
    scenario: &'s Scenario,
    /// Which languages the drivers are of: the n-th start has the n-th in turn.
    languages: &'s [Language],
    random: Random,
    now: u64,
    in_flight: Vec<Message>,
    down_until: u64,
    outage_at: u64,
    device: Process,
    device_end: Option<Box<dyn DeviceEnd>>,
    image: Vec<u8>,
    running: Vec<u8>,
    /// When the installer is done, if it is at work.
    installed_at: Option<u64>,
    /// The device has said that it will install.
    will_install: bool,
    /// What its host knows since its start, and how often a download failed.
    known: Option<PackageDigest>,
    failed: u64,
    gateway: Process,
    gateway_end: Option<Box<dyn GatewayEnd + 's>>,
    ended: bool,
    /// The device's answer to 23 was handled, and that is saved if a driver has come so far as to wait.
    executing: bool,
    wipes: u64,
    trace: u64,
    counts: Counts,
}

impl<'s> World<'s> {
    fn new(seed: u64, scenario: &'s Scenario, languages: &'s [Language]) -> World<'s> {
        let mut world = World {
            scenario,
            languages,
            random: Random::new(!seed),
            now: 0,
            in_flight: Vec::new(),
            down_until: 0,
            outage_at: u64::MAX,
            device: Process::new(scenario.state),
            device_end: None,
            image: vec![0xFF; scenario.image],
            running: RUNNING.to_vec(),
            installed_at: None,
            will_install: false,
            known: None,
            failed: 0,
            gateway: Process::new(GATEWAY_STATE),
            gateway_end: None,
            ended: false,
            executing: false,
            wipes: 0,
            trace: 0xCBF2_9CE4_8422_2325,
            counts: Counts::default(),
        };
        world.outage_at = world.some_time(scenario.outage);
        world
    }

    /// A time that comes once in so many ticks on average.
    fn some_time(&mut self, mean: usize) -> u64 {
        if mean == 0 {
            u64::MAX
        } else {
            self.now + 1 + self.random.below(2 * mean) as u64
        }
    }

    fn is_cut(&mut self, steps: usize) -> bool {
        steps > 0 && self.random.once_in(steps)
    }

    fn is_wiped(&mut self) -> bool {
        let wiped = self.wipes < 2 && self.is_cut(self.scenario.wiped);
        self.wipes += u64::from(wiped);
        wiped
    }

    /// FNV-1a
    fn note(&mut self, what: &[u8]) {
        for byte in what {
            self.trace = (self.trace ^ u64::from(*byte)).wrapping_mul(0x0100_0000_01B3);
        }
    }

    fn note_action(&mut self, end: End, action: &Action) {
        let (kind, number, bytes): (u8, u64, &[u8]) = match action {
            Action::Wait(until) => (0, *until, &[]),
            Action::Write { at, bytes } => (1, *at as u64, bytes),
            Action::Save { slot, bytes } => (2, *slot as u64, bytes),
            Action::Send(bytes) => (4, 0, bytes),
            Action::Install(bytes) => (8, 0, bytes),
            Action::End(outcome) => (16, u64::from(*outcome), &[]),
        };
        self.note(&[end as u8, kind]);
        self.note(&self.now.to_be_bytes());
        self.note(&number.to_be_bytes());
        self.note(bytes);
    }

    fn send(&mut self, to: End, bytes: &[u8]) {
        self.counts.sent += 1;
        if self.scenario.crowded {
            let now = self.now;
            self.in_flight.retain(|message| message.to != to || message.sent < now);
        }
        if self.now < self.down_until || self.random.below(100) < self.scenario.lost {
            self.counts.lost += 1;
            return;
        }
        self.launch(to, bytes);
        if self.random.below(100) < self.scenario.repeated {
            self.counts.repeated += 1;
            self.launch(to, bytes);
        }
    }

    /// Each copy has a delay of its own, so that messages overtake each other.
    fn launch(&mut self, to: End, bytes: &[u8]) {
        let due = self.now + self.random.between(1..=DELAY) as u64;
        let word = |at: usize| u16::from_be_bytes([bytes[at], bytes[at + 1]]);
        if to == End::Device && self.scenario.old && bytes[3] == ANNOUNCE && word(24) > SIZE_PUBLIC {
            return;
        }
        let length = if to == End::Device { bytes.len().min(self.scenario.longest) } else { bytes.len() };
        let mut bytes = bytes[..length].to_vec();
        if self.random.below(100) < self.scenario.damaged {
            bytes[self.random.below(length)] ^= 1 << self.random.below(8);
        }
        self.in_flight.push(Message { to, sent: self.now, due, bytes });
    }

    /// Writes to storage; false if the power went meanwhile: then a part is written, and a byte may be any.
    fn store(&mut self, steps: usize, storage: Storage, bytes: &[u8]) -> bool {
        let whole = !self.is_cut(steps);
        let written = if whole { bytes.len() } else { self.random.below(bytes.len() + 1) };
        let any = self.random.byte();
        let target = match storage {
            Storage::Image(at) => &mut self.image[at..],
            Storage::Device(slot) => &mut self.device.slots[slot],
            Storage::Gateway(slot) => &mut self.gateway.slots[slot],
        };
        target[..written].copy_from_slice(&bytes[..written]);
        if written < bytes.len() {
            target[written] = any;
        }
        whole
    }

    /// The device's process is gone. What it was installing may have been whole.
    fn kill_device(&mut self) {
        self.device_end = None;
        self.counts.device_restarts += 1;
        if self.installed_at.take().is_some() {
            if self.random.once_in(4) {
                self.running = TARGET.to_vec();
            }
            if self.scenario.forgets {
                self.image.fill(0xFF);
            }
        }
        self.device.wake = self.now + 1 + self.random.pick(&[0, 30, 60, 600]);
    }

    fn start_device(&mut self) -> Result<(), Failure> {
        if self.device.starts > 0 && (self.scenario.amnesia || self.is_wiped()) {
            self.image.fill(0xFF);
            self.device.slots.iter_mut().for_each(|slot| slot.fill(0xFF));
            self.will_install = false;
        }
        if self.device.starts > 0 && self.scenario.meddled && self.running == RUNNING {
            self.running = CHANGED.to_vec();
            self.will_install = false;
        }
        self.see_save_is_whole()?;
        self.device.started = self.now;
        self.device.clock = self.random.pick(&[0, 1, 1_000_000, u64::MAX / 2]);
        self.device.cut_at = self.some_time(self.scenario.power);
        let language = self.languages[self.device.starts as usize % self.languages.len()];
        self.device.starts += 1;
        self.known = self.scenario.digest.at(self.device.starts, self.failed, &self.scenario.package.0);
        let end = drivers::device(
            language,
            &Config { digest: self.known, ..self.scenario.config.clone() },
            &self.running,
            self.image.clone(),
            self.scenario.state,
            self.device.saved(),
            self.device.clock,
        );
        let end = end.map_err(|number| format!("the device does not start: {}", number))?;
        let record = end.record();
        let installs = [DevicePhase::Installing as u8, DevicePhase::Reporting as u8].contains(&record[0]);
        expect(installs || !self.will_install, "the order to install is lost after a restart")?;
        let runs = record[1..].starts_with(&self.running);
        expect(installs || runs, "the record does not say what runs after a restart")?;
        self.device_end = Some(end);
        self.run_device()
    }

    /// Reads the newest save by rules of its own: what its map marks is the package's, and there.
    fn see_save_is_whole(&self) -> Result<(), Failure> {
        let newest = match self.device.newest(b'D', DEVICE_STATE_FIXED) {
            Some(save) => save,
            None => return Ok(()),
        };
        let record = &newest[20..DEVICE_STATE_FIXED];
        if !(1..=3).contains(&record[0]) {
            return Ok(());
        }
        let word = |at: usize| usize::from(u16::from_be_bytes([record[at], record[at + 1]]));
        let (size, total, stored) = (word(33), word(35), word(39));
        let marked = |index: &usize| newest[DEVICE_STATE_FIXED + index / 8] >> (index % 8) & 1 == 1;
        for index in (0..total).filter(marked) {
            let (from, to) = (index * size, ((index + 1) * size).min(self.scenario.package.0.len()));
            expect(
                self.image[from..to] == self.scenario.package.0[from..to],
                "a marked fragment is not whole after a restart",
            )?;
        }
        expect((0..total).filter(marked).count() == stored, "the stored count is not that of the map")
    }

    /// What the device sends is of a record that is saved; in Loading the last fragments may be missing there.
    fn see_device_is_saved(&self, record: &[u8]) -> Result<(), Failure> {
        const STORED: usize = 39; // and behind it the length of the last fragment
        const CODE: usize = 43; // and behind it the digest
        let loading = record[0] == DevicePhase::Loading as u8;
        let compared = |record: &[u8]| match loading {
            true => [&record[..STORED], &record[CODE..]].concat(),
            false => record.to_vec(),
        };
        let saved = self.device.newest(b'D', DEVICE_STATE_FIXED).map(|save| &save[20..DEVICE_STATE_FIXED]);
        let same = saved.map_or(false, |saved| compared(saved) == compared(record));
        expect(same, "the device sends what is not saved")
    }

    /// The digest that the host knows is set, if the download is of its version; and none that nobody knew.
    fn see_digest_is_set(&self, record: &[u8]) -> Result<(), Failure> {
        let loading = record[0] == DevicePhase::Loading as u8;
        let known = self.known.filter(|known| loading && record[17..33] == *known.version.as_bytes());
        let is_set = known.map_or(true, |known| record[44] == 1 && record[45..] == known.digest);
        expect(is_set, "a digest is not set")?;
        let was_known = matches!(self.scenario.digest, Known::Right | Known::Wrong(_) | Known::Later);
        expect(record[44] == 0 || was_known, "a digest is set that nobody knows")
    }

    /// What is to be installed passes the digest, if one is set, and one is if it was always known.
    fn see_digest_is_passed(&self, record: &[u8]) -> Result<(), Failure> {
        let right = md5::digest(&self.scenario.package.0);
        let always_known = matches!(self.scenario.digest, Known::Right | Known::Wrong(_));
        expect(record[44] == 0 || record[45..] == right, "what is installed has another digest")?;
        expect(record[44] == 1 || !always_known, "what is installed was not tested by the digest")
    }

    /// A host that knows the wrong digest is corrected when this came to pass often enough, and started anew.
    fn count_failed(&mut self, save: &[u8]) {
        if save[20] == DevicePhase::Failed as u8 {
            self.failed += 1;
            if self.scenario.digest == Known::Wrong(self.failed) {
                self.device.cut_at = self.now;
            }
        }
    }

    /// So does the gateway; and whether 23 was answered is saved too.
    fn see_gateway_is_saved(&self, record: &[u8]) -> Result<(), Failure> {
        const EXECUTING: u8 = 1;
        let save = self.gateway.newest(b'G', GATEWAY_STATE);
        let same = save.map_or(false, |save| save[42..] == *record);
        expect(same, "the gateway sends what is not saved")?;
        let executing = save.map_or(false, |save| save[12] & EXECUTING != 0);
        expect(executing || !self.executing, "that 23 was answered is not saved")
    }

    /// The device's host works until its driver waits.
    fn run_device(&mut self) -> Result<(), Failure> {
        let steps = self.scenario.cut_device;
        let mut end = match self.device_end.take() {
            Some(end) => end,
            None => return Ok(()),
        };
        loop {
            let record = end.record();
            if record[0] == DevicePhase::Idle as u8 {
                self.will_install = false; // and has reported
            }
            if self.is_cut(steps) {
                self.kill_device();
                return Ok(());
            }
            let action = end.poll(self.device.clock(self.now));
            self.note_action(End::Device, &action);
            let done = match action {
                Action::Wait(until) => {
                    self.device.wake = self.device.at(until);
                    break;
                }
                Action::Write { at, bytes } => self.store(steps, Storage::Image(at), bytes),
                Action::Save { slot, bytes } => {
                    self.count_failed(bytes);
                    self.store(steps, Storage::Device(slot), bytes)
                }
                Action::Send(bytes) => {
                    self.see_device_is_saved(&record)?;
                    self.see_digest_is_set(&record)?;
                    let sent = !self.is_cut(steps);
                    if sent {
                        self.will_install |= bytes[3] == EXECUTE && bytes[8] == 0x00;
                        self.send(End::Gateway, bytes);
                    }
                    sent
                }
                Action::Install(bytes) => {
                    expect(self.installed_at.is_none(), "the installer is begun twice")?;
                    expect(self.running != TARGET, "what runs is installed again")?;
                    expect(bytes == self.scenario.package.0, "what is installed is not the package")?;
                    self.see_digest_is_passed(&record)?;
                    self.installed_at = Some(self.now + self.random.between(1..=INSTALLATION) as u64);
                    self.counts.installations += 1;
                    true
                }
                Action::End(_) => return Err("a device has no end".into()),
            };
            if !done {
                self.kill_device();
                return Ok(());
            }
        }
        self.note(&end.record());
        self.note(&end.look().iter().map(|number| *number as u8).collect::<Vec<_>>());
        self.device_end = Some(end);
        Ok(())
    }

    /// The installer is done. It failed; or the new software runs, and half of the installers restart the device.
    fn finish_installation(&mut self) -> Result<(), Failure> {
        self.installed_at = None;
        let failed = self.is_cut(self.scenario.failing);
        let code = if failed { self.random.pick(&[0x01, 0x04, 0x05, 0x09, 0x0A, 0x7F]) } else { 0x00 };
        if !failed {
            self.running = TARGET.to_vec();
            if self.random.once_in(2) {
                self.kill_device();
                return Ok(());
            }
        }
        if let Some(end) = &mut self.device_end {
            end.installed(code);
        }
        self.run_device()
    }

    fn kill_gateway(&mut self) {
        self.gateway_end = None;
        self.counts.gateway_restarts += 1;
        self.gateway.wake = self.now + 1 + self.random.pick(&[0, 30, 60, 600]);
    }

    fn start_gateway(&mut self) -> Result<(), Failure> {
        if self.gateway.starts > 0 && self.is_wiped() {
            self.executing = false;
            self.gateway.slots.iter_mut().for_each(|slot| slot.fill(0xFF));
        }
        self.gateway.started = self.now;
        self.gateway.clock = self.random.pick(&[0, 1, 1_000_000, u64::MAX / 2]);
        self.gateway.cut_at = self.some_time(self.scenario.power);
        let language = self.languages[self.gateway.starts as usize % self.languages.len()];
        self.gateway.starts += 1;
        let end = drivers::gateway(
            language,
            &self.scenario.config,
            TARGET,
            &self.scenario.package.0,
            self.gateway.saved(),
            self.gateway.clock,
        );
        self.gateway_end = Some(end.map_err(|number| format!("the gateway does not start: {}", number))?);
        self.run_gateway()
    }

    /// The gateway's host works until its driver waits, or tells the end: then too it hands in what arrives.
    fn run_gateway(&mut self) -> Result<(), Failure> {
        let steps = self.scenario.cut_gateway;
        let mut end = match self.gateway_end.take() {
            Some(end) => end,
            None => return Ok(()),
        };
        loop {
            if self.is_cut(steps) {
                self.kill_gateway();
                return Ok(());
            }
            let record = end.record();
            self.executing &= record[0] == GatewayPhase::Run as u8;
            let action = end.poll(self.gateway.clock(self.now));
            self.note_action(End::Gateway, &action);
            let done = match action {
                Action::Wait(until) => {
                    self.gateway.wake = self.gateway.at(until);
                    break;
                }
                Action::End(_) => {
                    self.gateway.wake = u64::MAX;
                    self.ended = true;
                    break;
                }
                Action::Save { slot, bytes } => {
                    self.count_over(bytes);
                    self.store(steps, Storage::Gateway(slot), bytes)
                }
                Action::Send(bytes) => {
                    self.see_gateway_is_saved(&record)?;
                    expect(bytes[3] != EXECUTE || !self.executing, "23 is sent after it was answered")?;
                    let sent = !self.is_cut(steps);
                    if sent {
                        self.send(End::Device, bytes);
                    }
                    sent
                }
                _ => return Err("no action of a gateway".into()),
            };
            if !done {
                self.kill_gateway();
                return Ok(());
            }
        }
        self.note(&end.record());
        self.note(&end.look().iter().flat_map(|number| number.to_be_bytes()).collect::<Vec<_>>());
        self.gateway_end = Some(end);
        Ok(())
    }

    /// A gateway is over, by its save. One that ends twice, because that save was cut off, counts twice.
    fn count_over(&mut self, save: &[u8]) {
        const OVER: u8 = 8;
        if save[12] & OVER != 0 && u32::from_be_bytes([save[24], save[25], save[26], save[27]]) > 0 {
            self.counts.over[usize::from(save[42])][usize::from(save[43])] += 1;
        }
    }

    fn deliver(&mut self) -> Result<(), Failure> {
        while let Some(at) = self.in_flight.iter().position(|message| message.due <= self.now) {
            let message = self.in_flight.swap_remove(at);
            let number = match (message.to, &mut self.device_end, &mut self.gateway_end) {
                (End::Device, Some(end), _) => {
                    let busy = self.scenario.busy > 0 && self.random.once_in(self.scenario.busy);
                    let clock = self.device.clock(self.now);
                    end.receive(clock, if busy { BUSY } else { READY }, &message.bytes)
                }
                (End::Gateway, _, Some(end)) => {
                    let clock = self.gateway.clock(self.now);
                    end.receive(clock, &message.bytes)
                }
                _ => continue,
            };
            expect(number < 13, "a number of the host's mistakes")?;
            self.note(&[number]);
            match message.to {
                End::Device => self.run_device()?,
                End::Gateway => {
                    self.run_gateway()?;
                    self.executing |=
                        number == 0 && message.bytes[3] == EXECUTE && self.gateway_end.is_some();
                }
            }
        }
        Ok(())
    }

    /// What the time brings.
    fn tick(&mut self) -> Result<(), Failure> {
        let now = self.now;
        if now >= self.outage_at {
            self.down_until = now + 1 + self.random.below(600) as u64;
            self.outage_at = self.some_time(self.scenario.outage);
        }
        self.deliver()?;
        if self.device_end.is_some() && now >= self.device.cut_at {
            self.kill_device();
        }
        if self.gateway_end.is_some() && now >= self.gateway.cut_at {
            self.kill_gateway();
        }
        if self.installed_at.map_or(false, |at| now >= at) {
            self.finish_installation()?;
        }
        if now >= self.device.wake {
            match self.device_end {
                Some(_) => self.run_device()?,
                None => self.start_device()?,
            }
        }
        if now >= self.gateway.wake {
            match self.gateway_end {
                Some(_) => self.run_gateway()?,
                None => self.start_gateway()?,
            }
        }
        Ok(())
    }

    /// When something is to be done next.
    fn next(&self) -> u64 {
        let arrival = self.in_flight.iter().map(|message| message.due).min().unwrap_or(u64::MAX);
        let mut next = arrival.min(self.device.wake).min(self.gateway.wake).min(self.outage_at);
        next = next.min(self.installed_at.unwrap_or(u64::MAX));
        if self.device_end.is_some() {
            next = next.min(self.device.cut_at);
        }
        if self.gateway_end.is_some() {
            next = next.min(self.gateway.cut_at);
        }
        next.max(self.now + 1)
    }

    /// The gateway knows that the device runs the package, and the device rests.
    fn is_done(&self) -> bool {
        match (&self.device_end, &self.gateway_end) {
            (Some(device), Some(gateway)) => {
                self.ended && gateway.look()[0] == SUCCESS && device.record()[0] == DevicePhase::Idle as u8
            }
            _ => false,
        }
    }

    fn run(&mut self) -> Result<(), Failure> {
        loop {
            expect(self.now < MOST_TICKS, "stands still")?;
            self.tick()?;
            if self.is_done() {
                break;
            }
            if let Some(gateway) = &self.gateway_end {
                expect(gateway.look()[0] <= SUCCESS, "the gateway gave up")?;
                expect(
                    gateway.look()[0] == 0 || self.running == TARGET,
                    "the gateway's success is not true",
                )?;
                self.counts.gateways = self.counts.gateways.max(gateway.look()[3].into());
            }
            self.now = self.next();
        }
        expect(self.running == TARGET, "the device does not run the package")
    }

    /// Where it stands, for a seed that failed.
    fn account(&self) -> String {
        let device = self.device_end.as_ref().map(|end| end.record());
        let gateway = self.gateway_end.as_ref().map(|end| (end.record(), end.look()));
        format!("tick {}, device {:?}, gateway {:?}, {:?}", self.now, device, gateway, self.scenario)
    }
}

fn whole(slot: &[u8], kind: u8, least: usize) -> Option<&[u8]> {
    if slot[..2] != [kind, 1] {
        return None;
    }
    let length = usize::from(u16::from_be_bytes([slot[2], slot[3]]));
    let save = slot.get(..length).filter(|_| length >= least)?;
    let mut crc = u32::MAX;
    for byte in save[..4].iter().chain(&save[8..]) {
        crc ^= u32::from(*byte);
        for _ in 0..8 {
            crc = if crc % 2 == 1 { crc / 2 ^ 0xEDB8_8320 } else { crc / 2 };
        }
    }
    Some(save).filter(|save| save[4..8] == (!crc).to_be_bytes())
}

/// Runs one seed in each way; all give the same trace.
fn soak(seed: u64, counts: &mut Counts) -> Result<(), Failure> {
    let scenario = Scenario::new(&mut Random::new(seed));
    let ways: [&[Language]; 3] = [&[Language::Rust], &[Language::C], &[Language::C, Language::Rust]];
    let mut traces = Vec::new();
    for languages in ways {
        let mut world = World::new(seed, &scenario, languages);
        if let Err(Failure(what)) = world.run() {
            return Err(format!("{:?}: {}\n  {}", languages, what, world.account()).into());
        }
        traces.push(world.trace);
        counts.add(&world.counts, seed, world.now);
    }
    expect(traces.iter().all(|trace| *trace == traces[0]), "the drivers in Rust and C differ")
}

impl Counts {
    fn add(&mut self, world: &Counts, seed: u64, now: u64) {
        self.sent += world.sent;
        self.lost += world.lost;
        self.repeated += world.repeated;
        self.device_restarts += world.device_restarts;
        self.gateway_restarts += world.gateway_restarts;
        self.gateways += world.gateways;
        self.installations += world.installations;
        self.ticks += now;
        for (sum, over) in self.over.iter_mut().flatten().zip(world.over.iter().flatten()) {
            *sum += over;
        }
        if now > self.longest {
            (self.longest, self.longest_seed) = (now, seed);
        }
    }
}

impl fmt::Display for Counts {
    fn fmt(&self, f: &mut fmt::Formatter) -> fmt::Result {
        const PHASES: [&str; 5] = ["Ask", "Offer", "Serve", "Run", "Ended"];
        writeln!(f, "messages: {} sent, {} lost, {} repeated", self.sent, self.lost, self.repeated)?;
        writeln!(f, "restarts: {} of devices, {} of gateways", self.device_restarts, self.gateway_restarts)?;
        writeln!(f, "gateways: {}, installations begun: {}", self.gateways, self.installations)?;
        for (phase, endings) in PHASES.iter().zip(&self.over) {
            for (ending, count) in endings.iter().enumerate().filter(|(_, count)| **count > 0) {
                match *phase {
                    "Ended" => writeln!(f, "  ended with {}: {}", ending, count)?,
                    _ => writeln!(f, "  stood still in {}: {}", phase, count)?,
                }
            }
        }
        write!(f, "ticks: {}, at most {} (seed {})", self.ticks, self.longest, self.longest_seed)
    }
}

fn main() -> ExitCode {
    let arguments: Option<Vec<u64>> = env::args().skip(1).map(|argument| argument.parse().ok()).collect();
    let (seeds, first) = match arguments.as_deref() {
        Some([]) => (SEEDS, 1),
        Some([seeds]) => (*seeds, 1),
        Some([seeds, first]) => (*seeds, *first),
        _ => {
            eprintln!("usage: soak [SEEDS [FIRST]]");
            return ExitCode::from(2);
        }
    };
    let mut counts = Counts::default();
    let mut failed = 0;
    for seed in first..first + seeds {
        if let Err(Failure(what)) = soak(seed, &mut counts) {
            println!("seed {}: {}", seed, what);
            failed += 1;
        }
    }
    println!("{}", counts);
    println!("soak: {} seeds, each by drivers in Rust, in C and in both by turns: {} failed", seeds, failed);
    if failed == 0 {
        ExitCode::SUCCESS
    } else {
        ExitCode::FAILURE
    }
}
