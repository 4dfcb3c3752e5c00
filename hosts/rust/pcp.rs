//! Both ends of a PCP software upgrade, for hosts in Rust.
//!
//! PCP is the protocol by which a platform, the gateway, upgrades the software of a device over a narrow link. This
//! crate is the protocol at both ends: it reads what arrives, keeps the upgrade's state, and writes what is to be sent.
//! It sends and receives nothing itself, knows no clock, and needs neither heap nor `std`. Its caller, the *host*, owns
//! radio, timers and storage. The work is done by an archive of proved functions, which the crate links; all calls here
//! are safe.
//!
//! - [`Device`] is the device's end: [`receive`](Device::receive) when a message arrived,
//!   [`next_message`](Device::next_message) to ask what it has to send, [`install_finished`](Device::install_finished),
//!   [`give_digest`](Device::give_digest) where the package's MD5 is known
//! - [`Gateway`] is the gateway's: [`start`](Gateway::start), [`receive`](Gateway::receive),
//!   [`next_message`](Gateway::next_message)
//! - [`driver`] does for either end what a host has to do around these calls, but for radio, clock and storage: begin there
//! - [`capture`] writes, reads and mends captures of exchanges
//! - [`md5`] gives MD5 digests, whole or in pieces
//! - a call gives an answer, or a [`Refusal`], and then it has changed nothing, but for
//!   [`RepeatDiffers`](Refusal::RepeatDiffers)
//!
//! # An upgrade
//!
//! | code | gateway to device | device to gateway |
//! |---|---|---|
//! | 19 [`Query`](Code::Query) | asks for the version | its running version |
//! | 20 [`Announce`](Code::Announce) | version, fragment size, number of fragments, check code | accepted (`00`), or why not |
//! | 21 [`Fragment`](Code::Fragment) | the fragment | asks for a fragment |
//! | 22 [`DownloadResult`](Code::DownloadResult) | answer to it | the download's result |
//! | 23 [`Execute`](Code::Execute) | orders the installation | accepted (`00`), or why not |
//! | 24 [`UpgradeResult`](Code::UpgradeResult) | answer to it | the installer's code, and the running version |
//!
//! The gateway begins 19, 20 and 23, the device 21, 22 and 24; the other end's message of the same code is the reply. A
//! message is `FF FE 01`, its code, a check of two bytes, the length of its data in two bytes, and the data. Fields of
//! two bytes have the high byte first. The upper four bits of the third byte are reserved: any are taken, 0 is sent.
//! The first byte of most data is a result, `00` for yes.
//!
//! # What a host must do
//!
//! Both ends:
//!
//! 1. Lend the same buffers to each call on an end: image and map at the device, the package at the gateway. Nobody
//!    else writes them from the first call to the last.
//! 2. Hand over whole messages, one in each call, and send each reply whole.
//! 3. Ask for the next message: at once when an answer says `changed` (a gateway in [`Offer`](GatewayPhase::Offer):
//!    after the wait of duty 12), otherwise by a timer that is longer than the way there and back. Nothing moves on by
//!    itself. Asking changes nothing and gives the same bytes again. Do not ask after every arrival: a repeated message
//!    would double all that follow.
//! 4. Give a device only what its gateway sent, a gateway only what its device sent, and let one gateway at a time work
//!    on a device. Messages carry no address and no direction: an end that hears itself, or a stranger, moves on.
//! 5. If an end is to outlive a restart, save it when an answer says `changed`, and when the installer's end or a digest
//!    was taken, **before** the reply is sent, the end asked or the installer begun (see "Restarts"). A device that has answered 23, and comes back as it was before,
//!    would install twice. Bring back the last save, never an older one.
//!
//! Device:
//!
//! 6. State the [`Condition`] as it is at the time of the call.
//! 7. When an answer has come and [`to_install`](Device::to_install) gives the package: install it, **once**, however
//!    often 23 arrives; then call [`install_finished`](Device::install_finished), and ask, so that the report is sent.
//!    If it matters who made the package, test that first (a signature): the protocol does not.
//! 8. See that the software in a package calls itself by the version announced: the record will say that this is
//!    running.
//! 9. In Loading, Loaded and Acked record, image and map belong together; in the other phases the record alone counts.
//!    If they are not for certain as the last call left them, make a [`new`](Device::new) device: that gives up the
//!    download, and the gateway at work, which stands still or ends, has to be followed by a new one.
//!
//! Gateway:
//!
//! 10. One gateway for each device and package. Keep the package byte for byte the same until the gateway is done with:
//!     only its length is tested.
//! 11. Give every build a version text of its own: packages with the same version, fragment size, number of fragments
//!     and check code count as one, and a device that holds half of one goes on with the other.
//! 12. Before a new gateway starts for a device, wait until nothing that was sent earlier, in either direction, can
//!     still arrive. Once it is in Offer, wait as long again before you ask it: what the device sent meanwhile would
//!     count for the new upgrade.
//! 13. Do not ask in [`Run`](GatewayPhase::Run) once the device's answer to 23 was handled: a device that has installed
//!     refuses a further 23, which ends the gateway with [`NotExecuted`](Ending::NotExecuted).
//! 14. While the gateway is in Ask, Offer or Ended, drop 21 and 22 ([`Code::of`]) before they reach it: answered, they
//!     get `80`, no such upgrade, and the device gives up what it has. Unanswered, it asks again. But let 22 through
//!     after [`DownloadFailed`](Ending::DownloadFailed): a device in Failed repeats it until it is answered. Never drop
//!     24, after the end neither: any answer lets the device rest.
//! 15. Count a gateway as over when nothing was handled for longer than the longest installation. It, and one that
//!     ended without [success](Ending::is_success), is followed by a new one, after the wait of duty 12, on the same
//!     package with the same size and `checked`, so that the device resumes its download. If that stands still in
//!     [`Serve`](GatewayPhase::Serve), asked for nothing, the device may be in Acked: it has all, and has said so to an
//!     earlier gateway. Then start with another fragment size: that is no resume, and the device fetches and tests all
//!     again.
//!
//! # Restarts
//!
//! At the device, storage holds the image, and two slots for record and map, each with a counter and a check of the
//! host's own over all of it (a CRC-32, say). When an answer says `changed`: bring the `written` bytes of the image to
//! storage; when they are there, write the counter plus 1, the record, the map's first
//! [`map_length`](Device::map_length) bytes and the check to the slot that does not hold the last save; when that is
//! there, send, ask, install. So after [`install_finished`](Device::install_finished) and
//! [`give_digest`](Device::give_digest) too. In Loading the slot may be left out after a fragment, not after an
//! announcement: what came since the last save is fetched again.
//!
//! An earlier version of this library had records of 44 bytes: with 17 bytes `00` behind them they are records of
//! today. Look for slots of today's form first, only where none is right for one of the earlier form, and do not write the
//! first save over that one.
//!
//! After a restart take the slot whose check is right, of two the one with the higher counter
//! ([`from_record`](Device::from_record)); without one, make a [`new`](Device::new) device. Then, by the phase:
//!
//! - [`Installing`](DevicePhase::Installing), and the [`target`](Device::target) runs: report
//!   [`Installed`](InstallCode::Installed). If another version runs, the installer was not begun, was cut off or
//!   failed: begin it again, if the image is still whole (by a hash, or [`check_code`](Device::check_code) and
//!   [`expected_digest`](Device::expected_digest)) and it has not been tried too often; else report
//!   [`Failed`](InstallCode::Failed).
//! - any other, and the [`running`](Device::running) version runs: go on, in Loading, Loaded and Acked with image and
//!   map. If another version runs: a new device.
//!
//! So an installation that restarts the device has to keep the record alone; if image and map are not kept, make a new
//! device when the report was answered (Idle). At the gateway save the record, and whether 23 was answered, in the same
//! way. If that is not certain, a new gateway follows.
//!
//! # What can be relied on
//!
//! Any bytes may arrive: a call answers, or refuses and has changed nothing, or the phase alone
//! ([`RepeatDiffers`](Refusal::RepeatDiffers), which does not occur under what follows). Let both ends use this
//! library, and the hosts keep to these duties, so that nothing reaches either end but what the other sent after the
//! gateway came to Offer, undamaged. Then, whatever is lost, repeated, delayed or reordered: when the device answers 23
//! with `00`, its image begins with the gateway's package; and when the gateway ends with [`Success`](Ending::Success),
//! the device's installer had ended with [`Installed`](InstallCode::Installed) after that. Both are proved of the
//! archive, for true pointers and lengths, which this crate sees to; of what it had stored before, see duty 11.
//!
//! Not covered: damage that a check of 16 bits does not see (the package's code is the same check: give the device the
//! package's MD5, or put a hash of your own into the package); forgery (sign packages); power cuts inside a call; that
//! every upgrade comes to an end.
//!
//! # A device
//!
//! ```
//! use pcp::{Condition, Device, Facts, InstallCode, Refusal, DEVICE_REPLY};
//!
//! struct Host {
//!     device: Device,
//!     image: [u8; 65_536],
//!     map: [u8; 65_536 / 32 / 8], // enough for the smallest fragments
//!     installs: bool,
//! }
//!
//! impl Host {
//!     fn on_receive(&mut self, message: &[u8]) -> Result<(), Refusal> {
//!         let mut reply = [0; DEVICE_REPLY];
//!         let (image, map) = (&mut self.image, &mut self.map);
//!         let answer =
//!             self.device.receive(Facts::BOTH, Condition::Ready, message, image, map, &mut reply);
//!         if answer == Err(Refusal::RepeatDiffers) {
//!             store_record(self.device.record(), &self.map); // the one refusal that changes it
//!             ask_soon();
//!         }
//!         let answer = answer?;
//!         if let Some(place) = answer.written {
//!             store_image(place.start, &self.image[place]);
//!         }
//!         if answer.changed {
//!             store_record(self.device.record(), &self.map);
//!             ask_soon();
//!         }
//!         if let Some(reply) = answer.reply {
//!             radio_send(reply);
//!         }
//!         if let Some(package) = self.device.to_install(&self.image) {
//!             if !self.installs {
//!                 self.installs = true;
//!                 begin_installation(package);
//!             }
//!         }
//!         Ok(())
//!     }
//!
//!     fn on_timer(&self) -> Result<(), Refusal> {
//!         let mut reply = [0; DEVICE_REPLY];
//!         if let Some(message) = self.device.next_message(&self.image, &self.map, &mut reply)? {
//!             radio_send(message);
//!         }
//!         Ok(())
//!     }
//!
//!     fn on_installed(&mut self, code: InstallCode) -> Result<(), Refusal> {
//!         self.installs = false;
//!         self.device.install_finished(code)?;
//!         store_record(self.device.record(), &self.map);
//!         ask_soon(); // the report
//!         Ok(())
//!     }
//! }
//! # fn store_image(_: usize, _: &[u8]) {}
//! # fn store_record(_: &[u8], _: &[u8]) {}
//! # fn ask_soon() {}
//! # fn begin_installation(_: &[u8]) {}
//! # fn radio_send(reply: &[u8]) {
//! #     assert_eq!(reply, b"\xFF\xFE\x01\x13\x8D\xE3\x00\x11\x00V0.9\0\0\0\0\0\0\0\0\0\0\0\0");
//! # }
//! # let device = Device::new(b"V0.9")?;
//! # let mut host = Host { device, image: [0xFF; 65_536], map: [0xFF; 256], installs: false };
//! # host.on_receive(b"\xFF\xFE\x01\x13\x4C\x9A\0\0")?;
//! # host.on_timer()?;
//! # assert_eq!(host.on_installed(InstallCode::Installed), Err(Refusal::NoUse));
//! # Ok::<(), Refusal>(())
//! ```
//!
//! # A gateway
//!
//! ```
//! use pcp::{Code, Ending, Facts, Gateway, GatewayPhase, Refusal, GATEWAY_REPLY, SIZE_PUBLIC};
//!
//! struct Host {
//!     gateway: Gateway,
//!     package: Vec<u8>,
//!     executing: bool, // the device has answered 23
//! }
//!
//! impl Host {
//!     fn new(package: Vec<u8>) -> Result<Host, Refusal> {
//!         let gateway = Gateway::start(b"V2.0", SIZE_PUBLIC, &package, true)?;
//!         Ok(Host { gateway, package, executing: false })
//!     }
//!
//!     fn wants(&self, message: &[u8]) -> bool {
//!         let serves = matches!(self.gateway.phase(), GatewayPhase::Serve | GatewayPhase::Run);
//!         match Code::of(message) {
//!             Some(Code::Fragment) => serves,
//!             Some(Code::DownloadResult) => {
//!                 serves || self.gateway.ending() == Some(Ending::DownloadFailed)
//!             }
//!             _ => true,
//!         }
//!     }
//!
//!     fn on_receive(&mut self, message: &[u8]) -> Result<(), Refusal> {
//!         if !self.wants(message) {
//!             return Ok(());
//!         }
//!         let mut reply = [0; GATEWAY_REPLY];
//!         let answer = self.gateway.receive(Facts::BOTH, message, &self.package, &mut reply)?;
//!         self.executing |= Code::of(message) == Some(Code::Execute);
//!         save(self.gateway.record(), self.executing);
//!         if let Some(reply) = answer.reply {
//!             radio_send(reply);
//!         }
//!         if answer.changed {
//!             restart_timer(); // longer than the way there and back
//!         }
//!         if let Some(ending) = self.gateway.ending() {
//!             println!("{}", ending);
//!         }
//!         Ok(())
//!     }
//!
//!     fn on_timer(&self) -> Result<(), Refusal> {
//!         let mut reply = [0; GATEWAY_REPLY];
//!         if self.executing {
//!             return Ok(());
//!         }
//!         if let Some(message) = self.gateway.next_message(&self.package, &mut reply)? {
//!             radio_send(message);
//!         }
//!         Ok(())
//!     }
//! }
//! # fn save(_: &[u8], _: bool) {}
//! # fn restart_timer() {}
//! # fn radio_send(message: &[u8]) {
//! #     assert_eq!(message, b"\xFF\xFE\x01\x13\x4C\x9A\0\0");
//! # }
//! # let mut host = Host::new(b"a package".to_vec())?;
//! # host.on_timer()?;
//! # host.on_receive(b"\xFF\xFE\x01\x13\x8D\xE3\x00\x11\x00V0.9\0\0\0\0\0\0\0\0\0\0\0\0")?;
//! # assert_eq!(host.gateway.phase(), GatewayPhase::Offer);
//! # Ok::<(), Refusal>(())
//! ```
//!
//! # Building
//!
//! `scripts/build archive`, at the repository's root, proves and writes the archive, for x86-64 Linux on processors of
//! the level x86-64-v2 or above. A program names this folder as the path of its dependency `pcp`; cargo then finds the
//! archive, or where `PCP_ARCHIVE_FOLDER` says (see `build.rs`). `upgrade.rs` is a whole program of both hosts:
//!
//! ```text
//! cargo run --manifest-path hosts/rust/Cargo.toml --example upgrade -- PACKAGE [SEED]
//! ```
//!
//! Without cargo:
//!
//! ```text
//! rustc --edition 2021 --crate-type rlib -L native=target/staticlib -l static=pcp hosts/rust/pcp.rs --out-dir target
//! rustc --edition 2021 --extern pcp=target/libpcp.rlib -o target/upgrade hosts/rust/upgrade.rs
//! ```

#![no_std]
#![deny(missing_docs)]

use core::fmt;
use core::ops::Range;

pub mod capture;
pub mod driver;
pub mod md5;
#[allow(missing_docs)] // the calls' names are those of the methods here
pub mod raw;

/// The version of this library: that of `include/pcp.h`, and of this crate.
pub const VERSION: &str = "0.1.0";
/// The smallest fragment size.
pub const SIZE_MIN: u16 = 32;
/// The largest fragment size.
pub const SIZE_MAX: u16 = 1024;
/// The most in public platforms' packages: take no more where a device may also meet one of those.
pub const SIZE_PUBLIC: u16 = 500;
/// A device's record, in bytes.
pub const DEVICE_RECORD: usize = 61;
/// A gateway's record, in bytes.
pub const GATEWAY_RECORD: usize = 30;
/// The shortest reply buffer of a device.
pub const DEVICE_REPLY: usize = 26;
/// The shortest reply buffer of a gateway. No message is longer.
pub const GATEWAY_REPLY: usize = SIZE_MAX as usize + 11;
/// An MD5 digest, in bytes.
pub const DIGEST_LENGTH: usize = 16;
/// A version in records and messages, in bytes.
pub const VERSION_LENGTH: usize = 16;

/// A byte that stands for none of a type's values.
#[derive(Clone, Copy, Debug, PartialEq, Eq)]
pub struct UnknownByte(pub u8);

impl fmt::Display for UnknownByte {
    fn fmt(&self, f: &mut fmt::Formatter) -> fmt::Result {
        write!(f, "unknown byte {:02X}", self.0)
    }
}

/// An enum whose values stand for bytes. `Debug` shows a value's name, `Display` what it means.
macro_rules! bytes_named {
    ($(#[$meta:meta])* $name:ident { $($value:ident = $byte:literal: $meaning:literal,)* }) => {
        $(#[$meta])*
        #[derive(Clone, Copy, Debug, PartialEq, Eq, PartialOrd, Ord, Hash)]
        #[repr(u8)]
        pub enum $name {
            $(#[doc = $meaning] $value = $byte,)*
        }

        impl From<$name> for u8 {
            fn from(value: $name) -> u8 {
                value as u8
            }
        }

        impl TryFrom<u8> for $name {
            type Error = UnknownByte;

            fn try_from(byte: u8) -> Result<$name, UnknownByte> {
                match byte {
                    $($byte => Ok($name::$value),)*
                    _ => Err(UnknownByte(byte)),
                }
            }
        }

        impl fmt::Display for $name {
            fn fmt(&self, f: &mut fmt::Formatter) -> fmt::Result {
                f.write_str(match self {
                    $($name::$value => $meaning,)*
                })
            }
        }
    };
}

bytes_named! {
    /// The messages' codes, byte 3.
    Code {
        Query = 19: "which version runs",
        Announce = 20: "a package is offered",
        Fragment = 21: "a fragment of it",
        DownloadResult = 22: "how the download ended",
        Execute = 23: "the order to install",
        UpgradeResult = 24: "how the installation ended",
    }
}

impl Code {
    /// The code of a message, if it has one. The rest of the message is not looked at.
    pub fn of(message: &[u8]) -> Option<Code> {
        message.get(3).and_then(|byte| Code::try_from(*byte).ok())
    }
}

bytes_named! {
    /// The phases of a device. In Idle to Failed an announcement that is accepted begins a download, whatever was held;
    /// but the one held in Loading to Acked is resumed, if version, size, number of fragments and check code are the
    /// same, and that code is not 0. A query is answered in every phase.
    DevicePhase {
        Idle = 0: "waits for an announcement",
        Loading = 1: "fetches fragments: asked, it sends 21 for the lowest that is missing",
        Loaded = 2: "has all: asked, it sends 22 with 00, until that is answered",
        Acked = 3: "has all, and waits for the order to install",
        Failed = 4: "has all, but not with the check announced or the digest given, or a fragment came twice and not the same: asked, it sends 22 with 07, until that is answered",
        Installing = 5: "its host installs, and reports the end",
        Reporting = 6: "the installer has ended: asked, it sends 24, until that is answered",
    }
}

bytes_named! {
    /// The conditions of a device, as its host states them. All but Ready are the answer to an announcement. Busy and
    /// low power are also the answer to the order to install; an internal error is answered as busy there, and a weak
    /// signal is no obstacle.
    Condition {
        Ready = 0: "ready",
        Busy = 1: "busy",
        WeakSignal = 2: "the signal is weak",
        LowPower = 4: "the battery is low",
        InternalError = 127: "an internal error",
    }
}

bytes_named! {
    /// How an installer can end.
    InstallCode {
        Installed = 0x00: "the new version runs",
        Busy = 0x01: "the device was busy",
        LowPower = 0x04: "the battery is too low",
        NoSpace = 0x05: "no room for the software",
        NoMemory = 0x09: "not enough working memory",
        Failed = 0x0A: "the installation failed, or the package was not genuine",
        InternalError = 0x7F: "anything else",
    }
}

bytes_named! {
    /// The phases of a gateway. It answers requests (21, 22, 24) in every phase: outside Serve and Run with `80`, no
    /// such upgrade; 24 so outside Run.
    GatewayPhase {
        Ask = 0: "asked, it sends 19",
        Offer = 1: "asked, it sends 20, the announcement",
        Serve = 2: "gives fragments, and has nothing to send itself",
        Run = 3: "asked, it sends 23; waits for the device's report",
        Ended = 4: "over",
    }
}

bytes_named! {
    /// How a gateway can end. What its host does then:
    ///
    /// - Success, AlreadyRunning: nothing but answering 24.
    /// - NotAccepted: looks at byte 8 of the device's answer. `01` busy, `02` weak signal, `04` low power, `7F`
    ///   internal error: a new gateway later. `03`, the version runs already: a new one ends with AlreadyRunning. `05`,
    ///   image too short: another size, so that size times number of fragments is smaller, or a smaller package. `09`,
    ///   map too short: a larger size.
    /// - DownloadFailed: sees that the package did not change, and that the device's host gave no other package's digest, and
    ///   starts a new gateway; the device fetches all again.
    /// - NotExecuted: an order to install was refused: the device was busy or low in power; or it had taken another
    ///   order, whose answer was lost or comes later, and installs or has installed. A new gateway later, which asks for
    ///   the version that runs.
    /// - UpgradeFailed: byte 8 of the report is the [`InstallCode`], and the running version follows it: again later,
    ///   or another package.
    Ending {
        Success = 0: "success",
        AlreadyRunning = 1: "the version is running already",
        NotAccepted = 2: "offer refused",
        DownloadFailed = 3: "download failed",
        NotExecuted = 4: "execution refused",
        UpgradeFailed = 5: "installation failed",
    }
}

impl Ending {
    /// The device runs the target: no other gateway has to follow.
    pub fn is_success(self) -> bool {
        matches!(self, Ending::Success | Ending::AlreadyRunning)
    }
}

bytes_named! {
    /// Why a call was refused. It has then changed nothing, and there is nothing to send; but RepeatDiffers has brought
    /// the device to Failed. The tests are made in the order that the call names, and the first that fails gives the
    /// refusal.
    ///
    /// Up to AlreadyStored they are daily work: the message is dropped. Unsupported and OtherProtocol repeat the facts
    /// that the host stated; BadStart may be other traffic on the port; BadCheck is damage, and the message will come
    /// again; NoUse and AlreadyStored are late or repeated messages. On RepeatDiffers a fragment came that is stored
    /// with other bytes, so that two builds have met: save, and ask, so that the gateway is told by a 22 with `07`.
    /// Those of captures, BadMark and CutShort, are a file's. The others are faults of the host or its memory, see
    /// [`is_hosts_fault`](Refusal::is_hosts_fault): on BadMemory it lends what it lent before, and if it cannot, or on
    /// BadRecord, begins anew with [`Device::new`] or [`Gateway::start`]. UnknownCondition, BadInstallCode and
    /// ShortRecord come from [`raw`] calls only; BadMark, CutShort and DoesNotFit from those of [`capture`].
    #[non_exhaustive]
    Refusal {
        Unsupported = 1: "the device does not support software upgrade",
        OtherProtocol = 2: "the device is upgraded by another protocol",
        BadStart = 3: "not the start of a PCP message",
        BadVersion = 4: "unknown protocol version",
        BadCode = 5: "unknown message code",
        BadCheck = 6: "wrong check, or cut short before the data",
        BadLength = 7: "wrong data length",
        BadData = 8: "the data is not what this code carries toward this end",
        NoUse = 9: "this phase has no use for it",
        BadIndex = 10: "no such fragment",
        BadFragmentLength = 11: "wrong fragment length",
        AlreadyStored = 12: "fragment already stored",
        UnknownCondition = 13: "unknown condition",
        BadMemory = 14: "image or map too short for the download, or package of another length than at the start",
        ShortReply = 15: "reply buffer too short",
        BadInstallCode = 16: "unknown installer code",
        BadVersionText = 17: "bad version text",
        BadSize = 18: "fragment size not from 32 to 1024",
        BadPackage = 19: "package empty, or longer than 65,535 fragments",
        BadMark = 20: "no record of a capture begins here",
        CutShort = 21: "a record of a capture is not whole",
        DoesNotFit = 22: "no room for a record, or its message is longer than 65,535 bytes",
        RepeatDiffers = 23: "fragment already stored with other bytes: the download has failed",
        BadRecord = 29: "not a record, or not this map's",
        ShortRecord = 64: "buffer too short for a record or for MD5's state, or a digest's of another length",
    }
}

impl Refusal {
    /// Not part of the daily work: the host lends or states something wrong, or the package or its memory is at fault.
    /// To be told to a person or a log: the same call again gets the same refusal.
    pub fn is_hosts_fault(self) -> bool {
        self >= Refusal::UnknownCondition
            && !matches!(self, Refusal::BadMark | Refusal::CutShort | Refusal::RepeatDiffers)
    }
}

/// A version text: 1 to 16 letters, digits, underscores, hyphens and dots.
#[derive(Clone, Copy, PartialEq, Eq)]
pub struct Version([u8; VERSION_LENGTH]);

impl Version {
    /// The version with this text.
    ///
    /// Refusals: BadVersionText.
    pub fn new(text: &[u8]) -> Result<Version, Refusal> {
        Device::new(text).map(|device| device.running())
    }

    fn at(record: &[u8], place: usize) -> Version {
        let mut version = [0; VERSION_LENGTH];
        version.copy_from_slice(&record[place..place + VERSION_LENGTH]);
        Version(version)
    }

    /// The text, filled up with `00`.
    pub fn as_bytes(&self) -> &[u8; VERSION_LENGTH] {
        &self.0
    }

    /// The text.
    pub fn as_str(&self) -> &str {
        let text = self.0.split(|byte| *byte == 0).next().unwrap_or_default();
        core::str::from_utf8(text).unwrap_or_default()
    }
}

impl fmt::Display for Version {
    fn fmt(&self, f: &mut fmt::Formatter) -> fmt::Result {
        f.write_str(self.as_str())
    }
}

impl fmt::Debug for Version {
    fn fmt(&self, f: &mut fmt::Formatter) -> fmt::Result {
        fmt::Debug::fmt(self.as_str(), f)
    }
}

/// What the host knows of the device that a message comes from or goes to.
#[derive(Clone, Copy, Debug, PartialEq, Eq)]
pub struct Facts {
    /// Its software can be upgraded.
    pub supported: bool,
    /// This is done by PCP.
    pub pcp: bool,
}

impl Facts {
    /// A device that is upgraded by PCP.
    pub const BOTH: Facts = Facts { supported: true, pcp: true };

    fn bytes(self) -> [u8; 2] {
        [self.supported.into(), self.pcp.into()]
    }
}

/// The check of these bytes, as they stand; 0 if there are none. It is PCP's own, and not that of any usual CRC-16.
#[inline]
pub fn check_of_bytes(bytes: &[u8]) -> u16 {
    raw::check(bytes)
}

/// The check that this message ought to carry: that of its bytes with the check field, bytes 4 and 5, taken as `00 00`.
#[inline]
pub fn check_of_message(message: &[u8]) -> u16 {
    raw::message_check(message)
}

/// Whether this is a PCP message; if not, why not. The data is not looked into. Messages may share a port with other
/// traffic; the calls that receive do this test themselves.
///
/// Refusals: Unsupported, OtherProtocol, BadStart, BadVersion, BadCode, BadCheck, BadLength.
pub fn recognise(facts: Facts, message: &[u8]) -> Result<(), Refusal> {
    done(raw::recognise(facts.bytes(), message))
}

/// A device. Its host lends it image and map, the same ones in each call.
///
/// The image takes the fragments, each at its place: it needs size times number of fragments, which may be more than
/// the package has. The map has a bit for each fragment, so their number / 8, rounded up, in bytes; image length / 256
/// is enough for every size. Longer ones are welcome: bytes behind are not touched. Neither needs to be cleared. The
/// image must take byte writes at any place; where flash cannot, lend RAM, and bring over what an answer says was
/// written.
#[derive(Clone, Debug, PartialEq, Eq)]
pub struct Device {
    record: [u8; DEVICE_RECORD],
}

/// What a device's [`receive`](Device::receive) gives.
#[derive(Clone, Debug, PartialEq, Eq)]
pub struct DeviceAnswer<'r> {
    /// The message to send to the gateway, at the front of the reply buffer.
    pub reply: Option<&'r [u8]>,
    /// The record is not as it was: if it is kept over a restart, save it (duty 5), then ask (duty 3).
    pub changed: bool,
    /// Which bytes of the image were written: those of a fragment. In the map its bit was set. No other message writes
    /// the image; an announcement that begins a download zeroes its part of the map.
    pub written: Option<Range<usize>>,
}

impl Device {
    /// A device that runs this version and holds no download: a text of 1 to 16 letters, digits, underscores,
    /// hyphens and dots. Bytes `00` behind it are filling, as far as there are at most 16 in all.
    ///
    /// Refusals: BadVersionText.
    pub fn new(version: &[u8]) -> Result<Device, Refusal> {
        let mut record = [0; DEVICE_RECORD];
        done(raw::device_new(&mut record, version))?;
        Ok(Device { record })
    }

    /// A device from a record that was put away, as the last call left it. One of an earlier version of this library has 44
    /// bytes: 17 bytes `00` go behind them.
    ///
    /// Refusals: BadRecord for bytes that break a record's rules. That they keep them does not show that they are the
    /// last call's: a host must be able to tell a torn save.
    pub fn from_record(record: [u8; DEVICE_RECORD]) -> Result<Device, Refusal> {
        // The installer's end tests the record first, and is refused in any case: there is no such code.
        const NO_CODE: u8 = 0xFF;
        match done(raw::device_install_finished(&mut record.clone(), NO_CODE)) {
            Err(Refusal::BadRecord) => Err(Refusal::BadRecord),
            _ => Ok(Device { record }),
        }
    }

    /// The record, to be put away. It holds no pointers.
    pub fn record(&self) -> &[u8; DEVICE_RECORD] {
        &self.record
    }

    /// The phase.
    pub fn phase(&self) -> DevicePhase {
        DevicePhase::try_from(self.record[0]).expect("a record has a phase")
    }

    /// The version that runs.
    pub fn running(&self) -> Version {
        Version::at(&self.record, 1)
    }

    /// The version of the download held, or that was installed; before any, the version that runs.
    pub fn target(&self) -> Version {
        Version::at(&self.record, 17)
    }

    /// The size of a fragment of the download held.
    pub fn size(&self) -> u16 {
        word_at(&self.record, 33)
    }

    /// The number of fragments of the download held.
    pub fn total(&self) -> u16 {
        word_at(&self.record, 35)
    }

    /// The package's check, if it was announced as its code.
    pub fn check_code(&self) -> Option<u16> {
        Some(word_at(&self.record, 37)).filter(|code| *code != 0)
    }

    /// How many of the map's first bytes the download held uses.
    pub fn map_length(&self) -> usize {
        (usize::from(self.total()) + 7) / 8
    }

    /// How many fragments of it are stored.
    pub fn stored(&self) -> u16 {
        word_at(&self.record, 39)
    }

    /// How many of the image's first bytes are the package, once all fragments are stored.
    pub fn image_length(&self) -> usize {
        let last = usize::from(word_at(&self.record, 41));
        match usize::from(self.total()) {
            0 => 0,
            total => usize::from(self.size()) * (total - 1) + last,
        }
    }

    /// What is to be installed, in Installing: the image's first [`image_length`](Device::image_length) bytes. Nothing
    /// in another phase; nor where the image has fewer, which only a record can say that somebody else wrote.
    pub fn to_install<'i>(&self, image: &'i [u8]) -> Option<&'i [u8]> {
        match self.phase() {
            DevicePhase::Installing => image.get(..self.image_length()),
            _ => None,
        }
    }

    /// A message arrived from the gateway. There is a reply to 19, 20 and 23.
    ///
    /// - 20 begins a download, or resumes the one held, if the device is ready, not Installing or Reporting, the
    ///   version is not the running one, and image and map are long enough; if not, the reply says why, and nothing has
    ///   changed.
    /// - 21 stores a fragment; with the last that was missing, the image is tested, over its whole length.
    /// - 22 and 24 are the gateway's answers.
    /// - 23 brings Loaded or Acked to Installing, see [`to_install`](Device::to_install).
    ///
    /// Refusals: ShortReply below [`DEVICE_REPLY`]; BadMemory in Loading, Loaded and Acked; those of [`recognise`];
    /// BadData, NoUse, BadIndex, BadFragmentLength, AlreadyStored. RepeatDiffers, in the place of AlreadyStored, for a
    /// fragment that is stored with other bytes or another length: the device is then in Failed.
    pub fn receive<'r>(
        &mut self,
        facts: Facts,
        condition: Condition,
        message: &[u8],
        image: &mut [u8],
        map: &mut [u8],
        reply: &'r mut [u8],
    ) -> Result<DeviceAnswer<'r>, Refusal> {
        let before = self.record;
        let condition = condition.into();
        let answer =
            raw::device_receive(&mut self.record, facts.bytes(), condition, message, image, map, reply);
        let reply = reply_in(reply, answer)?;
        Ok(DeviceAnswer { reply, changed: self.record != before, written: self.place_of(message) })
    }

    /// Where a message that was handled has its fragment; only a fragment's result `00` has one.
    fn place_of(&self, message: &[u8]) -> Option<Range<usize>> {
        const FRAGMENT: u8 = Code::Fragment as u8;
        match message {
            [_, _, _, FRAGMENT, _, _, _, _, 0x00, high, low, fragment @ ..] => {
                let start = usize::from(self.size()) * usize::from(u16::from_be_bytes([*high, *low]));
                Some(start..start + fragment.len())
            }
            _ => None,
        }
    }

    /// What the device has to send, if anything: 21 in Loading, 22 in Loaded and Failed, 24 in Reporting.
    ///
    /// Refusals: ShortReply below [`DEVICE_REPLY`]; BadMemory in Loading, Loaded and Acked; BadRecord in Loading, where
    /// the map has no fragment missing and so is not this record's.
    pub fn next_message<'r>(
        &self,
        image: &[u8],
        map: &[u8],
        reply: &'r mut [u8],
    ) -> Result<Option<&'r [u8]>, Refusal> {
        let answer = raw::device_next_message(&self.record, image, map, reply);
        asked(reply_in(reply, answer))
    }

    /// The digest that the completed package must have, if one was given for the last download. In Loaded, Acked, Installing
    /// and Reporting the image was tested by it; in Failed it need not have been, and in Idle it is left over.
    pub fn expected_digest(&self) -> Option<[u8; DIGEST_LENGTH]> {
        let mut digest = [0; DIGEST_LENGTH];
        digest.copy_from_slice(&self.record[45..]);
        Some(digest).filter(|_| self.record[44] == 1)
    }

    /// Gives the MD5 of the package that is being downloaded, in Loading: when all fragments are there, the image must have
    /// this digest beside the check code announced, or the download has failed. One that was given before is replaced; an
    /// announcement that begins a download clears it, and a resume keeps it: so give it after each announcement that was
    /// handled, if the phase is then Loading and another or none is set; then save (duty 5). It names no package: give it
    /// when the download is the one that it belongs to. The call that stores the last fragment then takes much longer. MD5
    /// helps against accidents, and not against someone who means harm.
    ///
    /// Refusals: NoUse outside Loading. From Loaded on it is too late: unless it is the one that is set, compare it with the
    /// image's digest ([`md5::digest`]) before the installation.
    pub fn give_digest(&mut self, digest: &[u8; DIGEST_LENGTH]) -> Result<(), Refusal> {
        done(raw::device_give_digest(&mut self.record, digest))
    }

    /// The installer has ended, in Installing. The device goes to Reporting; if it installed, the target is now the
    /// version that runs.
    ///
    /// Refusals: NoUse where no installation is under way.
    pub fn install_finished(&mut self, code: InstallCode) -> Result<(), Refusal> {
        done(raw::device_install_finished(&mut self.record, code.into()))
    }
}

/// A gateway for one package and one device. Its host lends it the package, the same one in each call.
#[derive(Clone, Debug, PartialEq, Eq)]
pub struct Gateway {
    record: [u8; GATEWAY_RECORD],
}

/// What a gateway's [`receive`](Gateway::receive) gives.
#[derive(Clone, Debug, PartialEq, Eq)]
pub struct GatewayAnswer<'r> {
    /// The message to send to the device, at the front of the reply buffer.
    pub reply: Option<&'r [u8]>,
    /// The record is not as it was: if it is kept over a restart, save it (duty 5), then ask (duty 3).
    pub changed: bool,
}

impl Gateway {
    /// A gateway that is to bring a device to this version, with this package in fragments of `size` bytes,
    /// [`SIZE_MIN`] to [`SIZE_MAX`].
    /// The version text is as for [`Device::new`]. With `checked` the package's check is announced as its code: the
    /// device then tests the whole image, and can resume. Otherwise, or if that check happens to be 0: no test, unless the
    /// device is given a digest, and no resume.
    ///
    /// Refusals: BadVersionText, BadSize, BadPackage.
    pub fn start(version: &[u8], size: u16, package: &[u8], checked: bool) -> Result<Gateway, Refusal> {
        let mut record = [0; GATEWAY_RECORD];
        done(raw::gateway_start(&mut record, version, size, package, checked.into()))?;
        Ok(Gateway { record })
    }

    /// A gateway from a record that was put away, as the last call left it. Its host also has to know whether the
    /// device had answered 23 (duty 13).
    ///
    /// Refusals: BadRecord for bytes that break a record's rules.
    pub fn from_record(record: [u8; GATEWAY_RECORD]) -> Result<Gateway, Refusal> {
        // Asking tests the record, then the package, and is refused in any case: no package is empty.
        let answer = raw::gateway_next_message(&record, &[], &mut [0; GATEWAY_REPLY]);
        match done(answer.number) {
            Err(Refusal::BadRecord) => Err(Refusal::BadRecord),
            _ => Ok(Gateway { record }),
        }
    }

    /// The record, to be put away. It holds no pointers.
    pub fn record(&self) -> &[u8; GATEWAY_RECORD] {
        &self.record
    }

    /// The phase.
    pub fn phase(&self) -> GatewayPhase {
        GatewayPhase::try_from(self.record[0]).expect("a record has a phase")
    }

    /// How the gateway ended, in Ended.
    pub fn ending(&self) -> Option<Ending> {
        match self.phase() {
            GatewayPhase::Ended => Ending::try_from(self.record[1]).ok(),
            _ => None,
        }
    }

    /// The version that the device is to be brought to.
    pub fn target(&self) -> Version {
        Version::at(&self.record, 2)
    }

    /// The size of a fragment.
    pub fn size(&self) -> u16 {
        word_at(&self.record, 18)
    }

    /// A message arrived from the device. There is a reply to 21, 22 and 24, in every phase.
    ///
    /// Refusals: ShortReply below [`GATEWAY_REPLY`]; BadMemory for a package of another length than at the start; those
    /// of [`recognise`]; BadData; NoUse for an answer (19, 20, 23) that the phase does not wait for.
    pub fn receive<'r>(
        &mut self,
        facts: Facts,
        message: &[u8],
        package: &[u8],
        reply: &'r mut [u8],
    ) -> Result<GatewayAnswer<'r>, Refusal> {
        let before = self.record;
        let answer = raw::gateway_receive(&mut self.record, facts.bytes(), message, package, reply);
        let reply = reply_in(reply, answer)?;
        Ok(GatewayAnswer { reply, changed: self.record != before })
    }

    /// What the gateway has to send, if anything: 19 in Ask, 20 in Offer, 23 in Run.
    ///
    /// Refusals: ShortReply below [`GATEWAY_REPLY`]; BadMemory for a package of another length than at the start.
    pub fn next_message<'r>(&self, package: &[u8], reply: &'r mut [u8]) -> Result<Option<&'r [u8]>, Refusal> {
        let answer = raw::gateway_next_message(&self.record, package, reply);
        asked(reply_in(reply, answer))
    }
}

/// A number as a result.
fn done(number: u8) -> Result<(), Refusal> {
    match number {
        0 => Ok(()),
        number => Err(Refusal::try_from(number).expect("the archive gives no other number")),
    }
}

/// The reply, at the front of the buffer that was lent for it.
fn reply_in(buffer: &[u8], answer: raw::Answer) -> Result<Option<&[u8]>, Refusal> {
    done(answer.number)?;
    Ok(Some(&buffer[..answer.length]).filter(|reply| !reply.is_empty()))
}

/// Where an end was asked, no use means that it has nothing to send.
fn asked(message: Result<Option<&[u8]>, Refusal>) -> Result<Option<&[u8]>, Refusal> {
    match message {
        Err(Refusal::NoUse) => Ok(None),
        message => message,
    }
}

/// The WORD at a place, high byte first.
fn word_at(record: &[u8], place: usize) -> u16 {
    u16::from_be_bytes([record[place], record[place + 1]])
}
