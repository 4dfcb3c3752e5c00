//! A driver for each end of an upgrade: what a host has to do around the protocol, as a state machine without input or
//! output.
//!
//! When to send again, what to save first, when another gateway has to follow: that is done here. The host hands in the
//! time, the messages that arrived and the installer's end, and does what `poll` tells, one action after the other. The
//! next `poll` says that the action was done. So nothing is sent or installed before it is saved, and a host cannot get
//! that order wrong. If an action cannot be done (the flash fails), it does not poll again, but starts the driver anew
//! from what is saved, as after a power cut.
//!
//! Time is a counter that never goes back while the driver lives, in any unit: that of the [`Config`]'s times. It may
//! begin again at 0 with each start. Polling later than was said is no fault, only slower.
//!
//! There are two slots for saves. Each save goes to the slot that does not hold the last one, and is sealed with its
//! length, a counter and a CRC-32. A start is given what the slots hold, whatever it is: the newest whole save is taken,
//! and if there is none, the end begins anew. A host whose storage replaces a whole file at once may use one file for
//! both.
//!
//! Where a device's host knows the package's MD5, it stands in the [`Config`] with the version that it belongs to. The
//! driver gives it to each download of that version, before the announcement is saved and answered; and at a start in
//! Loading, if another or none is set. A host that learns it later starts the driver anew.
//!
//! What stays with the host: radio, clock, storage, the installer; that messages come whole and from the right end; a
//! signature; version texts; a package that stays as it is.
//!
//! # A device
//!
//! ```no_run
//! use pcp::driver::{device_state, Config, DeviceAction, DeviceDriver};
//! use pcp::{Condition, InstallCode, Refusal, GATEWAY_REPLY};
//! # fn now() -> u64 { 0 }
//! # fn read_flash(_: &str, _: &mut [u8]) {}
//! # fn write_flash(_: &str, _: usize, _: &[u8]) {}
//! # fn radio_send(_: &[u8]) {}
//! # fn radio_receive(_: &mut [u8], _until: u64) -> usize { 0 }
//! # fn install(_: &[u8]) -> InstallCode { InstallCode::Installed }
//!
//! fn run(version: &[u8]) -> Result<(), Refusal> {
//!     let (mut image, state) = ([0; 65_536], [0; device_state(65_536)]);
//!     let mut slots = [[0; device_state(65_536)]; 2];
//!     let mut message = [0; GATEWAY_REPLY];
//!     read_flash("image", &mut image);
//!     read_flash("slot 0", &mut slots[0]);
//!     read_flash("slot 1", &mut slots[1]);
//!     let saved = [&slots[0][..], &slots[1][..]];
//!     let mut driver = DeviceDriver::start(&Config::default(), version, image, state, saved, now())?;
//!     loop {
//!         match driver.poll(now()) {
//!             DeviceAction::Write { at, bytes } => write_flash("image", at, bytes),
//!             DeviceAction::Save { slot: 0, bytes } => write_flash("slot 0", 0, bytes),
//!             DeviceAction::Save { bytes, .. } => write_flash("slot 1", 0, bytes),
//!             DeviceAction::Send(bytes) => radio_send(bytes),
//!             DeviceAction::Install(package) => {
//!                 let code = install(package);
//!                 driver.installed(code);
//!             }
//!             DeviceAction::Wait(until) => {
//!                 let length = radio_receive(&mut message, until);
//!                 // What is refused was of no use: late, repeated, damaged.
//!                 let _ = driver.receive(now(), Condition::Ready, &message[..length]);
//!             }
//!         }
//!     }
//! }
//! ```
//!
//! # A gateway
//!
//! ```no_run
//! use pcp::driver::{Config, GatewayAction, GatewayDriver, Outcome, GATEWAY_STATE};
//! use pcp::{Refusal, DEVICE_REPLY};
//! # fn now() -> u64 { 0 }
//! # fn read_file(_: &str, _: &mut [u8]) {}
//! # fn write_file(_: &str, _: &[u8]) {}
//! # fn radio_send(_: &[u8]) {}
//! # fn radio_receive(_: &mut [u8], _until: u64) -> usize { 0 }
//!
//! fn run(version: &[u8], package: &[u8]) -> Result<Outcome, Refusal> {
//!     let (mut slots, mut message) = ([[0; GATEWAY_STATE]; 2], [0; DEVICE_REPLY]);
//!     read_file("slot 0", &mut slots[0]);
//!     read_file("slot 1", &mut slots[1]);
//!     let saved = [&slots[0][..], &slots[1][..]];
//!     let mut driver = GatewayDriver::start(&Config::default(), version, package, saved, now())?;
//!     loop {
//!         match driver.poll(now()) {
//!             GatewayAction::Save { slot: 0, bytes } => write_file("slot 0", bytes),
//!             GatewayAction::Save { bytes, .. } => write_file("slot 1", bytes),
//!             GatewayAction::Send(bytes) => radio_send(bytes),
//!             GatewayAction::End(outcome) => return Ok(outcome),
//!             GatewayAction::Wait(until) => {
//!                 let length = radio_receive(&mut message, until);
//!                 let _ = driver.receive(now(), &message[..length]);
//!             }
//!         }
//!     }
//! }
//! ```
//!
//! `include/pcp_driver.h` is the same in C: the same calls give the same actions with the same bytes.

use crate::{recognise, word_at, Code, Condition, Device, DevicePhase, Ending, Facts, Gateway, GatewayPhase};
use crate::{InstallCode, Refusal, Version, DEVICE_RECORD, DEVICE_REPLY, DIGEST_LENGTH, GATEWAY_RECORD};
use crate::{GATEWAY_REPLY, SIZE_MAX, SIZE_MIN, SIZE_PUBLIC};
use core::fmt;
use core::ops::Range;

/// A time, or a span of time, in the unit of the host's counter.
pub type Time = u64;

/// A time that does not come.
pub const NEVER: Time = Time::MAX;

/// What a device's save takes, but for the map.
pub const DEVICE_STATE_FIXED: usize = 81;
/// What a gateway's save takes.
pub const GATEWAY_STATE: usize = 72;

/// What a device's save takes, for every fragment size, if its image has this length.
pub const fn device_state(image_length: usize) -> usize {
    DEVICE_STATE_FIXED + (image_length + 255) / 256
}

/// The times and limits of both ends. The default is for a counter of milliseconds.
#[derive(Clone, Debug, PartialEq, Eq)]
pub struct Config {
    /// Without an answer for so long: send again. Longer than the way there and back. 10 seconds.
    pub retry: Time,
    /// Until nothing that was sent can still arrive, in either direction: the longest way there and back. The gateway
    /// waits so long before it starts and in Offer, the device is silent up to three times as long after a query.
    /// 30 seconds.
    pub quiet: Time,
    /// The longest installation, with its restart and some tries of the report. A gateway that saw no progress for so
    /// long stands still; so it has to be longer than `quiet` and some retries. 10 minutes.
    pub installation: Time,
    /// Until the next gateway, where the device was busy or low on power, or its installation failed. 10 minutes.
    pub later: Time,
    /// How long after the end, and after the silence of a device that was asked for its version, reports are still waited
    /// for: some retries. One minute.
    pub linger: Time,
    /// The gateway gives up after so long in all, not counting the time in which its process did not run; 0: never.
    /// 7 days.
    pub time_limit: Time,
    /// After so many gateways; 0: never. 100.
    pub gateway_limit: u32,
    /// After so many downloads or installations that failed; 0: never. 3.
    pub failure_limit: u16,
    /// The fragment size to begin with. [`SIZE_PUBLIC`].
    pub size: u16,
    /// The largest fragment size to be tried if the device has not room enough in its map. [`SIZE_PUBLIC`].
    pub size_most: u16,
    /// In Loading the device saves after so many fragments; after a restart those since then are fetched again. At first
    /// it saves after 1, 2, 4 and so on, so that one that restarts often gets on too. 16.
    pub save_every: u16,
    /// How often an installation is begun at most, that was cut off by restarts. 5.
    pub install_limit: u8,
    /// For the device: the package's MD5, if it is known. None.
    pub digest: Option<PackageDigest>,
}

/// The MD5 of a package, as its platform states it, and the version that the package brings.
#[derive(Clone, Copy, Debug, PartialEq, Eq)]
pub struct PackageDigest {
    /// Of the package. Other downloads are not given the digest.
    pub version: Version,
    /// In the order in which md5sum prints it.
    pub digest: [u8; DIGEST_LENGTH],
}

impl Default for Config {
    fn default() -> Config {
        Config {
            retry: 10_000,
            quiet: 30_000,
            installation: 600_000,
            later: 600_000,
            linger: 60_000,
            time_limit: 604_800_000,
            gateway_limit: 100,
            failure_limit: 3,
            size: SIZE_PUBLIC,
            size_most: SIZE_PUBLIC,
            save_every: 16,
            install_limit: 5,
            digest: None,
        }
    }
}

impl Config {
    /// Without times of 0 that would make a driver ask or start without an end.
    fn sane(&self) -> Config {
        Config { retry: self.retry.max(1), installation: self.installation.max(1), ..self.clone() }
    }

    /// How long a device is silent after a query, at most: its answer and the announcement are on their way, and the
    /// gateway waits in between.
    fn silence(&self, now: Time) -> Time {
        after(after(after(now, self.quiet), self.quiet), self.quiet)
    }

    /// The largest size that is allowed.
    fn size_most(&self) -> u16 {
        self.size_most.max(self.size)
    }
}

/// What a device's host has to do.
#[derive(Clone, Debug, PartialEq, Eq)]
pub enum DeviceAction<'a> {
    /// Nothing before this time, unless a message arrives or the installer ends; [`NEVER`]: only then.
    Wait(Time),
    /// Bytes of the image to storage; if the image lent is storage: nothing.
    Write {
        /// Their place in the image.
        at: usize,
        /// The bytes.
        bytes: &'a [u8],
    },
    /// Bytes to a slot.
    Save {
        /// 0 or 1.
        slot: usize,
        /// The bytes, up to [`device_state`].
        bytes: &'a [u8],
    },
    /// Bytes to the gateway.
    Send(&'a [u8]),
    /// Begin the installer on this package; its end: [`DeviceDriver::installed`].
    Install(&'a [u8]),
}

/// What a gateway's host has to do.
#[derive(Clone, Debug, PartialEq, Eq)]
pub enum GatewayAction<'a> {
    /// Nothing before this time, unless a message arrives.
    Wait(Time),
    /// Bytes to a slot.
    Save {
        /// 0 or 1.
        slot: usize,
        /// The bytes, [`GATEWAY_STATE`].
        bytes: &'a [u8],
    },
    /// Bytes to the device.
    Send(&'a [u8]),
    /// The upgrade is over, and no report has come for [`Config::linger`]. Reports that are still handed in are answered.
    End(Outcome),
}

/// How an upgrade ended at the gateway.
#[derive(Clone, Copy, Debug, PartialEq, Eq)]
#[repr(u8)]
pub enum Outcome {
    /// The device runs the target.
    Success = 1,
    /// The device refuses every fragment size: its image or its map is short, see [`GatewayDriver::said`].
    NoRoom = 2,
    /// The limit of failures: see the gateway's ending and [`GatewayDriver::said`].
    Failed = 3,
    /// The limit of gateways.
    Gateways = 4,
    /// The limit of time.
    Time = 5,
    /// The package is not the one of the start.
    Package = 6,
}

impl Outcome {
    /// The outcome that a save's byte stands for, 0 for none yet.
    fn saved(byte: u8) -> Option<Option<Outcome>> {
        Some(match byte {
            0 => None,
            1 => Some(Outcome::Success),
            2 => Some(Outcome::NoRoom),
            3 => Some(Outcome::Failed),
            4 => Some(Outcome::Gateways),
            5 => Some(Outcome::Time),
            6 => Some(Outcome::Package),
            _ => return None,
        })
    }
}

impl fmt::Display for Outcome {
    fn fmt(&self, f: &mut fmt::Formatter) -> fmt::Result {
        f.write_str(match self {
            Outcome::Success => "the device runs the target",
            Outcome::NoRoom => "the device has no room for the package",
            Outcome::Failed => "too many downloads or installations failed",
            Outcome::Gateways => "too many gateways",
            Outcome::Time => "out of time",
            Outcome::Package => "the package changed",
        })
    }
}

/// Actions that are due, a bit each; the lowest comes first.
mod step {
    pub const WRITE: u8 = 1;
    pub const SAVE: u8 = 2;
    pub const SEND: u8 = 4;
    pub const INSTALL: u8 = 8;
}

fn after(now: Time, wait: Time) -> Time {
    now.saturating_add(wait)
}

fn due(at: Time, now: Time) -> bool {
    at != NEVER && now >= at
}

/// CRC-32, that of IEEE 802.3, by nibbles. Goes on from the CRC of what stood before; 0 at the beginning.
fn crc(before: u32, bytes: &[u8]) -> u32 {
    const TABLE: [u32; 16] = [
        0x0000_0000,
        0x1DB7_1064,
        0x3B6E_20C8,
        0x26D9_30AC,
        0x76DC_4190,
        0x6B6B_51F4,
        0x4DB2_6158,
        0x5005_713C,
        0xEDB8_8320,
        0xF00F_9344,
        0xD6D6_A3E8,
        0xCB61_B38C,
        0x9B64_C2B0,
        0x86D3_D2D4,
        0xA00A_E278,
        0xBDBD_F21C,
    ];
    let nibble = |crc: u32| crc >> 4 ^ TABLE[(crc & 15) as usize];
    !bytes.iter().fold(!before, |crc, byte| nibble(nibble(crc ^ u32::from(*byte))))
}

/// What is saved, of either end, places in bytes; high byte first. Of all: 0, `D` or `G`; 1, version of the layout;
/// 2, length of all (2); 4, CRC-32 of all but these four bytes; 8, counter (4).
mod place {
    pub const LENGTH: usize = 2;
    pub const CRC: usize = 4;
    pub const COUNTER: usize = 8;
    pub const HEADER: usize = 12;

    // The device: 13 to 15 are 0; the image's CRC-32 counts from Loaded on; the map follows at 81 in Loading, Loaded and
    // Acked.
    pub const BEGUN: usize = 12;
    pub const IMAGE_CRC: usize = 16;
    pub const DEVICE: usize = 20;

    // The gateway: how often fragments did not get through (1), failures (2), bounds of the next size (2 each),
    // gateways started (4), time spent (8), the next size (2), the one that was delivered (2), gateways that were asked for
    // nothing (1), a 0, and the record.
    pub const FLAGS: usize = 12;
    pub const OUTCOME: usize = 13;
    pub const SAID: usize = 14;
    pub const STUCK: usize = 15;
    pub const FAILURES: usize = 16;
    pub const LARGEST: usize = 18;
    pub const WASTE: usize = 20;
    pub const MAP: usize = 22;
    pub const GATEWAYS: usize = 24;
    pub const SPENT: usize = 28;
    pub const SIZE: usize = 36;
    pub const DELIVERED: usize = 38;
    pub const UNASKED: usize = 40;
    pub const GATEWAY: usize = 42;
}

/// The first 12 bytes are the same in every version of the layout. A newest save of another version is not taken up, and
/// the end begins anew: the older slot may say what was long past when other software wrote here.
const LAYOUT: u8 = 1;
const DEVICE_KIND: u8 = b'D';
const GATEWAY_KIND: u8 = b'G';

fn put(state: &mut [u8], at: usize, bytes: &[u8]) {
    state[at..at + bytes.len()].copy_from_slice(bytes);
}

fn four_at(state: &[u8], at: usize) -> u32 {
    u32::from_be_bytes([state[at], state[at + 1], state[at + 2], state[at + 3]])
}

fn eight_at(state: &[u8], at: usize) -> u64 {
    u64::from(four_at(state, at)) << 32 | u64::from(four_at(state, at + 4))
}

fn crc_of(state: &[u8]) -> u32 {
    crc(crc(0, &state[..place::CRC]), &state[place::COUNTER..])
}

/// Makes these bytes a save: all of them.
fn seal(state: &mut [u8], kind: u8, counter: u32) {
    let length = state.len() as u16;
    put(state, 0, &[kind, LAYOUT]);
    put(state, place::LENGTH, &length.to_be_bytes());
    put(state, place::COUNTER, &counter.to_be_bytes());
    let crc = crc_of(state);
    put(state, place::CRC, &crc.to_be_bytes());
}

/// The save of this kind that stands at the front of a slot, if it is whole.
fn whole(slot: &[u8], kind: u8) -> Option<&[u8]> {
    if slot.len() < place::HEADER || slot[0] != kind {
        return None;
    }
    let length = usize::from(word_at(slot, place::LENGTH));
    if length < place::HEADER {
        return None;
    }
    slot.get(..length).filter(|save| four_at(save, place::CRC) == crc_of(save))
}

/// The newest whole save of two slots. The counters are compared so that they may pass their end.
fn newest(slots: [&[u8]; 2], kind: u8) -> Option<&[u8]> {
    match (whole(slots[0], kind), whole(slots[1], kind)) {
        (Some(one), Some(other)) => {
            let ahead = four_at(other, place::COUNTER).wrapping_sub(four_at(one, place::COUNTER));
            Some(if ahead < 0x8000_0000 { other } else { one })
        }
        (one, other) => one.or(other),
    }
}

/// A device and its driver, with the image and the state: slices that are lent to it, arrays or vectors.
#[derive(Debug)]
pub struct DeviceDriver<I, S> {
    config: Config,
    device: Device,
    image: I,
    /// Header, record and map, as they are saved; the record only then.
    state: S,
    /// That runs.
    version: Version,
    reply: [u8; DEVICE_REPLY],
    reply_length: usize,
    pending: u8,
    /// The action that poll gave last.
    given: u8,
    /// Install was given since the start.
    installing: bool,
    /// The installer has ended.
    installed: Option<InstallCode>,
    fault: Option<Refusal>,
    /// Fragments since the last save.
    unsaved: u16,
    /// So many: save.
    save_after: u16,
    written: Range<usize>,
    /// Of the last save.
    counter: u32,
    now: Time,
    /// When to ask for the next message.
    ask_at: Time,
    /// Asks nothing before, after a query.
    silent_until: Time,
}

impl<I, S> DeviceDriver<I, S>
where
    I: AsRef<[u8]> + AsMut<[u8]>,
    S: AsRef<[u8]> + AsMut<[u8]>,
{
    /// Starts a device's driver, at every start of the device. The version is the one that runs now (see
    /// [`Device::new`]). The image holds what storage holds of it; the state, of at least [`DEVICE_STATE_FIXED`] bytes,
    /// and [`device_state`] for every fragment size, is overwritten. The slots hold what was saved there, or anything.
    ///
    /// By the save's phase the driver goes on, reports what became of an installation, or begins it again. If what runs
    /// is not what the save says, or there is none, the device is a new one.
    ///
    /// Refusals: ShortRecord for a short state, BadVersionText.
    pub fn start(
        config: &Config,
        version: &[u8],
        image: I,
        state: S,
        slots: [&[u8]; 2],
        now: Time,
    ) -> Result<DeviceDriver<I, S>, Refusal> {
        if state.as_ref().len() < DEVICE_STATE_FIXED {
            return Err(Refusal::ShortRecord);
        }
        let device = Device::new(version)?;
        let saved = newest(slots, DEVICE_KIND);
        let mut driver = DeviceDriver {
            config: config.sane(),
            version: device.running(),
            device,
            image,
            state,
            reply: [0; DEVICE_REPLY],
            reply_length: 0,
            pending: 0,
            given: 0,
            installing: false,
            installed: None,
            fault: None,
            unsaved: 0,
            save_after: 1,
            written: 0..0,
            counter: saved.map_or(0, |saved| four_at(saved, place::COUNTER)),
            now,
            ask_at: NEVER,
            silent_until: 0,
        };
        if saved.map_or(false, |saved| driver.load(saved)) {
            driver.resume();
        } else {
            driver.state.as_mut()[..DEVICE_STATE_FIXED].fill(0);
            driver.renew();
        }
        Ok(driver)
    }

    /// A message arrived from the gateway; the condition is the one now.
    ///
    /// Refusals: those of [`Device::receive`]. NoUse also if an action is still due or was not confirmed by another
    /// poll: the message counts as lost.
    pub fn receive(&mut self, now: Time, condition: Condition, message: &[u8]) -> Result<(), Refusal> {
        if self.pending != 0 {
            return Err(Refusal::NoUse);
        }
        self.now = self.now.max(now);
        let before = self.device.clone();
        let (image, map) = (self.image.as_mut(), &mut self.state.as_mut()[DEVICE_STATE_FIXED..]);
        let answer = self.device.receive(Facts::BOTH, condition, message, image, map, &mut self.reply);
        let (length, mut changed, written) = match answer {
            Ok(answer) => (answer.reply.map_or(0, <[u8]>::len), answer.changed, answer.written),
            Err(refusal) => {
                self.refused(refusal);
                return Err(refusal);
            }
        };
        self.reply_length = length;
        if length > 0 {
            self.pending |= step::SEND;
        }
        // An announcement without a code that comes again clears the digest and begins the download anew; given again, all
        // may be as it was.
        if Code::of(message) == Some(Code::Announce) && self.give_digest() {
            changed = self.device != before;
        }
        if changed {
            self.changed(written);
        }
        self.handled(Code::of(message), changed);
        Ok(())
    }

    /// The installer has ended. Without effect where none was begun. An installer that restarts the device does not
    /// come to this call: the start tells by the version that runs.
    pub fn installed(&mut self, code: InstallCode) {
        if self.installing {
            self.installed = Some(code);
        }
    }

    /// What is to be done now; the action before this one has been done.
    pub fn poll(&mut self, now: Time) -> DeviceAction<'_> {
        self.now = self.now.max(now);
        self.pending &= !self.given;
        self.given = 0;
        if self.pending == 0 {
            if let Some(code) = self.installed.take() {
                self.finish(code);
            }
        }
        if self.pending == 0 && due(self.ask_at, self.now) && due(self.silent_until, self.now) {
            self.ask();
        }
        self.action()
    }

    /// The device: its phase, how many fragments are stored of how many, and by which digest the image is tested.
    pub fn device(&self) -> &Device {
        &self.device
    }

    /// The image that was lent.
    pub fn image(&self) -> &[u8] {
        self.image.as_ref()
    }

    /// The last refusal from UnknownCondition on that a call of the driver's met, for a log.
    pub fn fault(&self) -> Option<Refusal> {
        self.fault
    }

    /// The action that is due first.
    fn action(&mut self) -> DeviceAction<'_> {
        if self.pending & step::WRITE != 0 {
            self.given = step::WRITE;
            DeviceAction::Write { at: self.written.start, bytes: &self.image.as_ref()[self.written.clone()] }
        } else if self.pending & step::SAVE != 0 {
            self.given = step::SAVE;
            self.save()
        } else if self.pending & step::SEND != 0 {
            self.given = step::SEND;
            DeviceAction::Send(&self.reply[..self.reply_length])
        } else if self.pending & step::INSTALL != 0 {
            self.given = step::INSTALL;
            self.installing = true;
            DeviceAction::Install(&self.image.as_ref()[..self.device.image_length()])
        } else {
            DeviceAction::Wait(self.ask_at.max(self.silent_until))
        }
    }

    fn save(&mut self) -> DeviceAction<'_> {
        if self.unsaved >= self.save_after {
            let most = self.config.save_every;
            self.save_after = if self.save_after < most / 2 { self.save_after * 2 } else { most };
        }
        self.unsaved = 0;
        self.counter = self.counter.wrapping_add(1);
        let length = self.save_length();
        let save = &mut self.state.as_mut()[..length];
        put(save, place::DEVICE, self.device.record());
        seal(save, DEVICE_KIND, self.counter);
        DeviceAction::Save { slot: (self.counter % 2) as usize, bytes: save }
    }

    /// A new record, with the version that runs: gives up the download. What was to be sent stays.
    fn renew(&mut self) {
        self.device = Device::new(self.version.as_bytes()).expect("it was made with this text before");
        self.pending = self.pending & step::SEND | step::SAVE;
        self.ask_at = NEVER;
    }

    /// A refusal that only damaged memory gives, or a record that does not go with what is lent: as after the loss of a
    /// save.
    fn broken(&mut self, refusal: Refusal) {
        self.fault = Some(refusal);
        self.renew();
    }

    fn save_length(&self) -> usize {
        match self.device.phase() {
            DevicePhase::Loading | DevicePhase::Loaded | DevicePhase::Acked => {
                DEVICE_STATE_FIXED + self.device.map_length()
            }
            _ => DEVICE_STATE_FIXED,
        }
    }

    /// Gives the digest that the host knows, in Loading, if another or none is set and the download is of the version that
    /// it belongs to: the call itself names none. Whether it was given; with these tests nothing refuses it.
    fn give_digest(&mut self) -> bool {
        match self.config.digest {
            Some(known) if self.device.expected_digest() != Some(known.digest) => {
                self.device.phase() == DevicePhase::Loading
                    && self.device.target() == known.version
                    && self.device.give_digest(&known.digest).is_ok()
            }
            _ => false,
        }
    }

    /// The image's CRC; none where the image is shorter than the record says.
    fn image_crc(&self) -> Option<u32> {
        self.image.as_ref().get(..self.device.image_length()).map(|package| crc(0, package))
    }

    /// Whether the image is the one that was completed.
    fn image_stands(&self) -> bool {
        self.image_crc() == Some(four_at(self.state.as_ref(), place::IMAGE_CRC))
    }

    /// The last fragment was stored, and the image has passed its tests. Its CRC is kept: after a restart nothing else tells
    /// whether the image still stands.
    fn completed(&mut self) {
        if let Some(crc) = self.image_crc() {
            put(self.state.as_mut(), place::IMAGE_CRC, &crc.to_be_bytes());
        }
    }

    /// Installing has just begun.
    fn install(&mut self) {
        if self.device.to_install(self.image.as_ref()).is_none() {
            self.broken(Refusal::BadRecord);
            return;
        }
        self.state.as_mut()[place::BEGUN] = 1;
        self.pending |= step::INSTALL;
    }

    /// The installer has ended: the report follows.
    fn finish(&mut self, code: InstallCode) {
        self.installing = false;
        if self.device.install_finished(code).is_err() {
            return;
        }
        if code == InstallCode::Installed {
            self.version = self.device.running();
        }
        self.pending |= step::SAVE;
        self.ask_at = self.now;
    }

    /// Begins the installation again that a restart cut off, or reports that it failed.
    fn install_again(&mut self) {
        let begun = self.state.as_ref()[place::BEGUN];
        if begun < self.config.install_limit && self.image_stands() {
            self.state.as_mut()[place::BEGUN] = begun + 1;
            self.pending |= step::SAVE | step::INSTALL;
        } else {
            self.finish(InstallCode::Failed);
        }
    }

    /// Takes up a save; false if its record is none, or does not go with what is lent: from Loaded on the image is not
    /// fetched or tested again.
    fn load(&mut self, saved: &[u8]) -> bool {
        let lengths = DEVICE_STATE_FIXED..=self.state.as_ref().len();
        if saved[1] != LAYOUT || !lengths.contains(&saved.len()) {
            return false;
        }
        put(self.state.as_mut(), 0, saved);
        let mut record = [0; DEVICE_RECORD];
        record.copy_from_slice(&saved[place::DEVICE..DEVICE_STATE_FIXED]);
        match Device::from_record(record) {
            Ok(device) => self.device = device,
            Err(_) => return false,
        }
        let (image, map) = (self.image.as_ref(), &self.state.as_ref()[DEVICE_STATE_FIXED..]);
        let fits = self.device.next_message(image, map, &mut self.reply).is_ok();
        let complete = matches!(self.device.phase(), DevicePhase::Loaded | DevicePhase::Acked);
        fits && saved.len() == self.save_length() && (!complete || self.image_stands())
    }

    /// Goes on from a save, by its phase and the version that runs.
    fn resume(&mut self) {
        if self.device.phase() == DevicePhase::Installing {
            if self.device.target() == self.version {
                self.finish(InstallCode::Installed);
            } else {
                self.install_again();
            }
        } else if self.device.running() != self.version {
            self.renew();
        } else {
            if self.give_digest() {
                self.pending |= step::SAVE;
            }
            self.ask_at = after(self.now, self.config.retry);
        }
    }

    /// A message was refused: of the refusals one changes the record, and two show that it cannot be gone on with.
    fn refused(&mut self, refusal: Refusal) {
        if refusal >= Refusal::UnknownCondition {
            self.fault = Some(refusal);
        }
        match refusal {
            Refusal::BadRecord | Refusal::BadMemory => self.broken(refusal),
            Refusal::RepeatDiffers => self.changed(None),
            _ => {}
        }
    }

    /// The record has changed, by a message that was handled or by a repeat that differs.
    fn changed(&mut self, written: Option<Range<usize>>) {
        let phase = self.device.phase();
        let mut saves = phase != DevicePhase::Loading;
        self.ask_at = self.now;
        match written {
            Some(written) => {
                self.written = written;
                self.pending |= step::WRITE;
                self.unsaved += 1;
                saves |= self.unsaved >= self.save_after;
                if phase == DevicePhase::Loaded {
                    self.completed();
                }
            }
            None => saves = true,
        }
        if saves {
            self.pending |= step::SAVE;
        }
        match phase {
            DevicePhase::Installing => self.install(),
            DevicePhase::Idle => self.renew(),
            _ => {}
        }
    }

    /// After the answer to a query the device is silent until the announcement comes, or for longer than the gateway
    /// waits: what it sent meanwhile would be late there. Further queries do not lengthen that. An announcement that
    /// changed nothing, and so was a repeat or is a resume, is answered by itself: a radio that loses the first of two
    /// messages would lose each answer.
    fn handled(&mut self, code: Option<Code>, changed: bool) {
        match code {
            Some(Code::Query) if self.now >= self.silent_until => {
                self.silent_until = self.config.silence(self.now);
            }
            Some(Code::Announce) => {
                self.silent_until = 0;
                if !changed && self.ask_at <= self.now {
                    self.ask_at = after(self.now, self.config.retry);
                }
            }
            Some(Code::Execute) => self.silent_until = 0,
            _ => {}
        }
    }

    fn ask(&mut self) {
        let (image, map) = (self.image.as_ref(), &self.state.as_ref()[DEVICE_STATE_FIXED..]);
        let message = self.device.next_message(image, map, &mut self.reply);
        self.ask_at = NEVER; // nothing to send in this phase
        match message.map(|message| message.map(<[u8]>::len)) {
            Ok(Some(length)) => {
                self.reply_length = length;
                self.pending |= step::SEND;
                self.ask_at = after(self.now, self.config.retry);
            }
            Ok(None) => {}
            Err(refusal) => self.broken(refusal),
        }
    }
}

/// Flags of a gateway's driver.
mod flag {
    /// 23 was answered with `00`.
    pub const EXECUTING: u8 = 1;
    /// This gateway was asked for a fragment,
    pub const ASKED: u8 = 2;
    /// and for another one.
    pub const MOVED: u8 = 4;
    /// It has ended or stands still, or none has started yet: the next one follows,
    pub const OVER: u8 = 8;
    /// after a longer wait.
    pub const LATER: u8 = 16;
}

/// A device that asks so often for one fragment does not get it; and one that asks so many gateways for nothing may be in
/// Acked.
const REPEATS: u8 = 4;
const UNASKED: u8 = 3;

/// No fragment has this index. The one asked for last is not saved: after a start none is known.
const NO_INDEX: u16 = u16::MAX;

/// A gateway and its driver, with the package: a slice that is lent to it, an array or a vector.
#[derive(Debug)]
pub struct GatewayDriver<P> {
    config: Config,
    gateway: Gateway,
    package: P,
    /// As it is saved.
    state: [u8; GATEWAY_STATE],
    /// The target.
    version: Version,
    reply: [u8; GATEWAY_REPLY],
    reply_length: usize,
    pending: u8,
    given: u8,
    flags: u8,
    outcome: Option<Outcome>,
    said: u8,
    /// Of the request for the first fragment asked for.
    repeats: u8,
    /// Gateways in a row that got no further than that.
    stuck: u8,
    /// Gateways in a row that were asked for nothing.
    unasked: u8,
    fault: Option<Refusal>,
    failures: u16,
    /// The size that the device said it has all of.
    delivered: u16,
    /// Of the next gateway's fragments.
    size: u16,
    /// Bounds of it, see `fits`.
    largest: u16,
    waste_below: u16,
    map_below: u16,
    /// The fragment asked for last.
    index: u16,
    /// One more than the highest.
    served: u16,
    /// Started so far.
    gateways: u32,
    counter: u32,
    now: Time,
    /// When counting of the time began, and what was spent before that.
    since: Time,
    spent: Time,
    /// When to ask for the next message.
    ask_at: Time,
    /// When there was progress.
    progress_at: Time,
    /// When the next gateway starts.
    start_at: Time,
    /// When reports are no longer waited for.
    end_at: Time,
}

impl<P: AsRef<[u8]>> GatewayDriver<P> {
    /// Starts a gateway's driver, which brings one device to this version with this package: for a new upgrade, and
    /// after a restart, with what the slots hold. A save of another version or package counts as none. The first
    /// message goes out after the wait in which what was sent before can still arrive.
    ///
    /// Refusals: BadVersionText, BadSize (of the config), BadPackage.
    pub fn start(
        config: &Config,
        version: &[u8],
        package: P,
        slots: [&[u8]; 2],
        now: Time,
    ) -> Result<GatewayDriver<P>, Refusal> {
        let gateway = Gateway::start(version, config.size, package.as_ref(), true)?;
        let saved = newest(slots, GATEWAY_KIND);
        let mut driver = GatewayDriver {
            config: config.sane(),
            version: gateway.target(),
            gateway,
            package,
            state: [0; GATEWAY_STATE],
            reply: [0; GATEWAY_REPLY],
            reply_length: 0,
            pending: 0,
            given: 0,
            flags: 0,
            outcome: None,
            said: 0,
            repeats: 0,
            stuck: 0,
            unasked: 0,
            fault: None,
            failures: 0,
            delivered: 0,
            size: config.size,
            largest: config.size_most(),
            waste_below: SIZE_MAX,
            map_below: 65_535 / 8 + 2,
            index: NO_INDEX,
            served: 0,
            gateways: 0,
            counter: saved.map_or(0, |saved| four_at(saved, place::COUNTER)),
            now,
            since: now,
            spent: 0,
            ask_at: NEVER,
            progress_at: now,
            start_at: NEVER,
            end_at: NEVER,
        };
        if !saved.map_or(false, |saved| driver.load(saved)) {
            driver.flags = flag::OVER;
            driver.pending |= step::SAVE;
        }
        driver.pause();
        driver.linger();
        Ok(driver)
    }

    /// A message arrived from the device.
    ///
    /// Refusals: those of [`Gateway::receive`]. NoUse also if the driver drops the message, or an action is still due
    /// or was not confirmed by another poll: the message counts as lost.
    pub fn receive(&mut self, now: Time, message: &[u8]) -> Result<(), Refusal> {
        recognise(Facts::BOTH, message)?;
        let code = Code::of(message);
        if self.pending != 0 || !self.wants(code) {
            return Err(Refusal::NoUse);
        }
        self.now = self.now.max(now);
        let answer = self.gateway.receive(Facts::BOTH, message, self.package.as_ref(), &mut self.reply);
        let (length, changed) = match answer {
            Ok(answer) => (answer.reply.map_or(0, <[u8]>::len), answer.changed),
            Err(refusal) => {
                if refusal >= Refusal::UnknownCondition {
                    self.fault = Some(refusal);
                }
                return Err(refusal);
            }
        };
        self.reply_length = length;
        if length > 0 {
            self.pending |= step::SEND;
        }
        self.linger();
        if code == Some(Code::Fragment) {
            self.requested(message);
        }
        if changed {
            self.changed(message);
        } else if code == Some(Code::Execute) {
            // 00, or the record had changed.
            self.flags |= flag::EXECUTING;
            self.pending |= step::SAVE;
            self.progress_at = self.now;
        }
        Ok(())
    }

    /// What is to be done now; the action before this one has been done.
    pub fn poll(&mut self, now: Time) -> GatewayAction<'_> {
        self.now = self.now.max(now);
        self.pending &= !self.given;
        self.given = 0;
        self.work();
        if self.pending & step::SAVE != 0 {
            self.given = step::SAVE;
            self.seal();
            GatewayAction::Save { slot: (self.counter % 2) as usize, bytes: &self.state }
        } else if self.pending & step::SEND != 0 {
            self.given = step::SEND;
            GatewayAction::Send(&self.reply[..self.reply_length])
        } else {
            match self.outcome {
                None => GatewayAction::Wait(self.wake()),
                Some(outcome) if due(self.end_at, self.now) => GatewayAction::End(outcome),
                Some(_) => GatewayAction::Wait(self.end_at),
            }
        }
    }

    /// The gateway at work: its phase, or how it ended.
    pub fn gateway(&self) -> &Gateway {
        &self.gateway
    }

    /// How the upgrade ended, once it has; before [`GatewayAction::End`] says that the device is silent.
    pub fn outcome(&self) -> Option<Outcome> {
        self.outcome
    }

    /// Byte 8 of the message that ended the last gateway.
    pub fn said(&self) -> u8 {
        self.said
    }

    /// How many gateways were started.
    pub fn gateways(&self) -> u32 {
        self.gateways
    }

    /// The last refusal from UnknownCondition on, for a log.
    pub fn fault(&self) -> Option<Refusal> {
        self.fault
    }

    /// The progress: how many fragments the device has asked this gateway for, up to the highest.
    pub fn served(&self) -> u16 {
        self.served
    }

    /// Of how many.
    pub fn total(&self) -> u16 {
        self.total_of(self.gateway.size()) as u16
    }

    /// Whether the gateway is to answer, ask and be watched.
    fn at_work(&self) -> bool {
        self.flags & flag::OVER == 0 && self.outcome.is_none()
    }

    fn spent(&self) -> Time {
        after(self.spent, self.now - self.since)
    }

    fn total_of(&self, size: u16) -> u64 {
        (self.package.as_ref().len() as u64 + u64::from(size) - 1) / u64::from(size)
    }

    /// Bytes of the image that a size needs beyond the package.
    fn waste(&self, size: u16) -> u64 {
        u64::from(size) * self.total_of(size) - self.package.as_ref().len() as u64
    }

    fn map(&self, size: u16) -> u64 {
        (self.total_of(size) + 7) / 8
    }

    /// Whether a size may be tried: not larger than what gets through, and with less waste or map than what the device
    /// refused.
    fn fits(&self, size: u16) -> bool {
        (SIZE_MIN..=SIZE_MAX.min(self.largest)).contains(&size)
            && self.total_of(size) <= 65_535
            && self.waste(size) < u64::from(self.waste_below)
            && self.map(size) < u64::from(self.map_below)
    }

    /// The largest size with at most this waste; if there is none, that with the least.
    fn pick_size(&self, waste: u64) -> Option<u16> {
        let fitting = || (SIZE_MIN..=SIZE_MAX).rev().filter(|size| self.fits(*size));
        fitting()
            .find(|size| self.waste(*size) <= waste)
            .or_else(|| fitting().min_by_key(|size| self.waste(*size)))
    }

    /// Another size than this one: the first one again, or the next smaller one, else the next larger, by steps of 16, so
    /// that fragments stay aligned, else of 1; the same if there is none. To a device that has the whole package another is
    /// no resume.
    fn other_size(&self, size: u16) -> u16 {
        if size != self.config.size && self.fits(self.config.size) {
            return self.config.size;
        }
        let by = |step: u16| {
            let smaller = (1..=size / step).map(move |steps| size - step * steps);
            let larger = (1..=SIZE_MAX / step).map(move |steps| size + step * steps);
            smaller.chain(larger).find(|other| self.fits(*other))
        };
        by(16).or_else(|| by(1)).unwrap_or(size)
    }

    /// The size after a gateway in Serve that was asked for nothing. If the device has said that it has all, it is in
    /// Acked, and another size gets it out of there. If not, it may just have been away, and another size would cost it
    /// what it has; but what it said may have been forgotten here.
    fn size_unasked(&mut self, size: u16) -> u16 {
        if size != self.delivered {
            self.unasked = self.unasked.wrapping_add(1);
            if self.unasked < UNASKED {
                return size;
            }
        }
        self.delivered = 0;
        self.unasked = 0;
        self.other_size(size)
    }

    /// The largest size up to this one, and from now on no larger one is tried; the current size if there is none.
    fn size_up_to(&mut self, most: u16, current: u16) -> u16 {
        let before = core::mem::replace(&mut self.largest, most);
        match self.pick_size(u64::from(SIZE_MAX)) {
            Some(size) => size,
            None => {
                self.largest = before;
                current
            }
        }
    }

    /// Reports are waited for from now on: a device that was asked for its version may be silent before it reports.
    fn linger(&mut self) {
        self.end_at = after(self.config.silence(self.now), self.config.linger);
    }

    fn end(&mut self, outcome: Outcome) {
        self.outcome = Some(outcome);
        self.linger();
        self.pending |= step::SAVE;
    }

    /// The wait before a start, from now on.
    fn pause(&mut self) {
        let mut wait = self.config.quiet;
        if self.flags & flag::LATER != 0 {
            wait = wait.max(self.config.later);
        }
        self.start_at = after(self.now, wait);
    }

    /// The next gateway is to follow, with this size; without one, none is left.
    fn over(&mut self, size: Option<u16>, later: u8) {
        match size {
            None => self.end(Outcome::NoRoom),
            Some(size) => {
                self.size = size;
                self.flags |= flag::OVER | later;
                self.pause();
                self.pending |= step::SAVE;
            }
        }
    }

    /// A size for a device that refused the announcement, if it takes any. That larger ones do not get through was a
    /// guess, and is given up before.
    fn refused(&mut self, size: u16) -> Option<u16> {
        let mut waste = u64::from(SIZE_MAX);
        match self.said {
            0x05 => {
                self.waste_below = self.waste(size) as u16; // image too short
                waste = u64::from(self.waste_below / 2);
            }
            0x09 => self.map_below = self.map(size) as u16, // map too short
            _ => return Some(size),
        }
        self.pick_size(waste).or_else(|| {
            self.largest = self.config.size_most();
            self.pick_size(waste)
        })
    }

    fn ended(&mut self, ending: Ending) {
        let mut size = Some(self.gateway.size());
        let mut later = flag::LATER;
        match ending {
            Ending::Success | Ending::AlreadyRunning => return self.end(Outcome::Success),
            Ending::NotAccepted => {
                if matches!(self.said, 0x03 | 0x05 | 0x09) {
                    later = 0;
                }
                size = self.refused(self.gateway.size());
            }
            Ending::DownloadFailed => {
                self.failures = self.failures.wrapping_add(1);
                later = 0;
            }
            Ending::NotExecuted => {}
            Ending::UpgradeFailed => {
                let code = InstallCode::try_from(self.said);
                if !matches!(code, Ok(InstallCode::Busy | InstallCode::LowPower)) {
                    self.failures = self.failures.wrapping_add(1);
                }
            }
        }
        if self.outcome.is_some() {
            self.pending |= step::SAVE; // had given up
        } else if self.config.failure_limit > 0 && self.failures >= self.config.failure_limit {
            self.end(Outcome::Failed);
        } else {
            self.over(size, later);
        }
    }

    /// Nothing new for longer than the longest installation.
    fn stands_still(&mut self) {
        let mut size = self.gateway.size();
        match self.gateway.phase() {
            // Another would ask the same; the time is saved.
            GatewayPhase::Ask => {
                self.progress_at = self.now;
                self.pending |= step::SAVE;
                return;
            }
            // The device may not know larger sizes.
            GatewayPhase::Offer if size > SIZE_PUBLIC => size = self.size_up_to(SIZE_PUBLIC, size),
            GatewayPhase::Offer => {}
            GatewayPhase::Serve if self.flags & flag::ASKED == 0 => size = self.size_unasked(size),
            GatewayPhase::Serve if self.flags & flag::MOVED != 0 || self.repeats < REPEATS => {}
            GatewayPhase::Serve => {
                self.stuck = self.stuck.wrapping_add(1);
                if self.stuck == 2 {
                    // Fragments of this size do not get through.
                    self.stuck = 0;
                    size = self.size_up_to(size / 2, size);
                }
            }
            // Run: a device that has not installed may still be in Loaded.
            GatewayPhase::Run | GatewayPhase::Ended => {}
        }
        self.over(Some(size), 0);
    }

    /// The next gateway starts.
    fn next(&mut self) {
        if self.config.gateway_limit > 0 && self.gateways >= self.config.gateway_limit {
            return self.end(Outcome::Gateways);
        }
        let code = |gateway: &Gateway| word_at(gateway.record(), 28);
        match Gateway::start(self.version.as_bytes(), self.size, self.package.as_ref(), true) {
            Ok(gateway) if code(&gateway) == code(&self.gateway) => self.gateway = gateway,
            _ => {
                self.fault = Some(Refusal::BadPackage);
                return self.end(Outcome::Package);
            }
        }
        self.gateways = self.gateways.wrapping_add(1);
        self.flags = 0;
        self.served = 0;
        self.repeats = 0;
        self.ask_at = self.now;
        self.progress_at = self.now;
        self.pending |= step::SAVE;
    }

    fn ask(&mut self) {
        let message = self.gateway.next_message(self.package.as_ref(), &mut self.reply);
        self.ask_at = NEVER; // nothing to send in this phase
        match message.map(|message| message.map(<[u8]>::len)) {
            Ok(Some(length)) => {
                self.reply_length = length;
                self.pending |= step::SEND;
                self.ask_at = after(self.now, self.config.retry);
            }
            Ok(None) => {}
            Err(refusal) => self.fault = Some(refusal),
        }
    }

    /// Whether the gateway is to get a message of this code. Of the answers to 23 the first `00` counts: a later one is
    /// to a 23 that was sent before.
    fn wants(&self, code: Option<Code>) -> bool {
        let at_work = self.at_work();
        let serves = at_work && matches!(self.gateway.phase(), GatewayPhase::Serve | GatewayPhase::Run);
        match code {
            Some(Code::UpgradeResult) => true,
            Some(Code::Fragment) => serves,
            Some(Code::DownloadResult) => serves || self.gateway.ending() == Some(Ending::DownloadFailed),
            Some(Code::Execute) => at_work && self.flags & flag::EXECUTING == 0,
            _ => at_work,
        }
    }

    /// A request for a fragment was answered: progress if it is another than the last.
    fn requested(&mut self, message: &[u8]) {
        let index = word_at(message, 24);
        let flags = self.flags;
        if self.reply[8] != 0x00 {
            return; // no such upgrade or fragment
        }
        if flags & flag::ASKED != 0 && index != self.index && self.index != NO_INDEX {
            self.flags |= flag::MOVED;
            self.stuck = 0;
        }
        self.flags |= flag::ASKED;
        if flags != self.flags {
            self.pending |= step::SAVE;
        }
        if flags & flag::ASKED == 0 || index != self.index {
            self.progress_at = self.now;
        } else if self.repeats < REPEATS {
            self.repeats += 1;
        }
        self.index = index;
        self.unasked = 0;
        self.served = self.served.max(index + 1);
    }

    fn changed(&mut self, message: &[u8]) {
        self.pending |= step::SAVE;
        self.progress_at = self.now;
        self.ask_at = match self.gateway.phase() {
            GatewayPhase::Offer => after(self.now, self.config.quiet),
            _ => self.now,
        };
        if self.gateway.phase() == GatewayPhase::Run {
            self.delivered = self.gateway.size();
            self.unasked = 0;
            self.stuck = 0;
        }
        if let Some(ending) = self.gateway.ending() {
            self.said = message[8];
            self.ended(ending);
        }
    }

    /// What time brings about: nothing while an action is due.
    fn work(&mut self) {
        if self.pending != 0 || self.outcome.is_some() {
            return;
        }
        if self.config.time_limit > 0 && self.spent() >= self.config.time_limit {
            self.end(Outcome::Time);
        } else if self.flags & flag::OVER != 0 {
            if due(self.start_at, self.now) {
                self.next();
            }
        } else if due(after(self.progress_at, self.config.installation), self.now) {
            self.stands_still();
        } else if due(self.ask_at, self.now) && self.flags & flag::EXECUTING == 0 {
            self.ask();
        }
    }

    /// When work has something to do next.
    fn wake(&self) -> Time {
        let limit = match self.config.time_limit {
            0 => NEVER,
            limit => after(self.since, limit - self.spent),
        };
        if self.flags & flag::OVER != 0 {
            return limit.min(self.start_at);
        }
        let asks = if self.flags & flag::EXECUTING == 0 { self.ask_at } else { NEVER };
        limit.min(asks).min(after(self.progress_at, self.config.installation))
    }

    fn seal(&mut self) {
        let spent = self.spent();
        let state = &mut self.state;
        state[place::FLAGS] = self.flags;
        state[place::OUTCOME] = self.outcome.map_or(0, |outcome| outcome as u8);
        state[place::SAID] = self.said;
        state[place::STUCK] = self.stuck;
        put(state, place::FAILURES, &self.failures.to_be_bytes());
        put(state, place::LARGEST, &self.largest.to_be_bytes());
        put(state, place::WASTE, &self.waste_below.to_be_bytes());
        put(state, place::MAP, &self.map_below.to_be_bytes());
        put(state, place::GATEWAYS, &self.gateways.to_be_bytes());
        put(state, place::SPENT, &spent.to_be_bytes());
        put(state, place::SIZE, &self.size.to_be_bytes());
        put(state, place::DELIVERED, &self.delivered.to_be_bytes());
        put(state, place::UNASKED, &[self.unasked, 0]);
        put(state, place::GATEWAY, self.gateway.record());
        self.counter = self.counter.wrapping_add(1);
        seal(state, GATEWAY_KIND, self.counter);
    }

    /// Takes up a save; false if it is not of this package and version. Waits begin anew.
    fn load(&mut self, saved: &[u8]) -> bool {
        if saved[1] != LAYOUT || saved.len() != GATEWAY_STATE {
            return false;
        }
        let mut record = [0; GATEWAY_RECORD];
        record.copy_from_slice(&saved[place::GATEWAY..GATEWAY_STATE]);
        let gateway = match Gateway::from_record(record) {
            Ok(gateway) => gateway,
            Err(_) => return false,
        };
        let outcome = match Outcome::saved(saved[place::OUTCOME]) {
            Some(outcome) => outcome,
            None => return false,
        };
        match Gateway::start(self.version.as_bytes(), gateway.size(), self.package.as_ref(), true) {
            Ok(fresh) if fresh.record()[2..] == gateway.record()[2..] => {}
            _ => return false,
        }
        self.state.copy_from_slice(saved);
        let wait = match gateway.phase() {
            GatewayPhase::Offer => self.config.quiet,
            _ => self.config.retry,
        };
        self.gateway = gateway;
        self.flags = saved[place::FLAGS];
        self.outcome = outcome;
        self.said = saved[place::SAID];
        self.stuck = saved[place::STUCK];
        self.failures = word_at(saved, place::FAILURES);
        self.largest = word_at(saved, place::LARGEST);
        self.waste_below = word_at(saved, place::WASTE);
        self.map_below = word_at(saved, place::MAP);
        self.gateways = four_at(saved, place::GATEWAYS);
        self.spent = eight_at(saved, place::SPENT);
        self.size = word_at(saved, place::SIZE);
        self.delivered = word_at(saved, place::DELIVERED);
        self.unasked = saved[place::UNASKED];
        self.ask_at = after(self.now, wait);
        true
    }
}
