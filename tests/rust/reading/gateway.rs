//! The gateway (01, "The gateway") for one package and one device. A call changes the record only if its number is 0.

use super::check::check;
use super::message::{
    is_version, rounded_up, Announcement, Facts, ToDevice, ToGateway, Version, GATEWAY_ROOM, SIZES,
};
use super::{number, require, Answer};

/// The phases.
pub const ASK: u8 = 0;
pub const OFFER: u8 = 1;
pub const SERVE: u8 = 2;
pub const RUN: u8 = 3;
pub const ENDED: u8 = 4;

/// The ending numbers.
pub const SUCCESS: u8 = 0;
pub const ALREADY_RUNNING: u8 = 1;
pub const NOT_ACCEPTED: u8 = 2;
pub const DOWNLOAD_FAILED: u8 = 3;
pub const NOT_EXECUTED: u8 = 4;
pub const UPGRADE_FAILED: u8 = 5;

/// The record that the caller keeps between calls.
#[derive(Clone, Debug, Default, PartialEq, Eq)]
pub struct Gateway {
    pub phase: u8,
    /// The ending number; stays 0 before the end.
    pub ending: u8,
    /// The target.
    pub version: Version,
    pub size: u16,
    /// The package's length.
    pub length: usize,
    /// The package's check code, or 0.
    pub code: u16,
}

impl Gateway {
    /// Starts on a package, with its check as the code or with code 0. Order of refusals: 17, 18, 19.
    /// A refused record is all zero.
    pub fn start(version: Version, size: u16, package: &[u8], with_code: bool) -> (u8, Gateway) {
        let allowed = require(is_version(&version), number::VERSION_TEXT)
            .and_then(|()| require(SIZES.contains(&size), number::FRAGMENT_SIZE))
            .and_then(|()| require(is_length(package.len(), size), number::PACKAGE));
        if let Err(number) = allowed {
            return (number, Gateway::default());
        }
        let code = if with_code { check(package) } else { 0 };
        (number::HANDLED, Gateway { phase: ASK, ending: 0, version, size, length: package.len(), code })
    }

    /// A message arrives. Order of refusals: 15, 29, 14, 1 to 8, 9.
    pub fn receive(&mut self, message: &[u8], facts: Facts, package: &[u8], room: usize) -> Answer {
        let read = self.lent(package, room).and_then(|()| ToGateway::read(facts, message));
        Answer::from(read.and_then(|message| self.handle(message, package, room)))
    }

    /// The gateway is asked for its next message. Order of refusals: 15, 29, 14, 9.
    pub fn next_message(&self, package: &[u8], room: usize) -> Answer {
        let message = self.lent(package, room).and_then(|()| self.pending());
        Answer::from(message.and_then(|message| message.write(room)))
    }

    /// The tests of what the caller lends: 15, 29, 14.
    fn lent(&self, package: &[u8], room: usize) -> Result<(), u8> {
        require(room >= GATEWAY_ROOM, number::REPLY_BUFFER)?;
        require(self.is_sound(), number::RECORD)?;
        require(package.len() == self.length, number::LENT_MEMORY)
    }

    /// Whether the record keeps the rules (number 29).
    fn is_sound(&self) -> bool {
        self.phase <= ENDED
            && self.ending <= UPGRADE_FAILED
            && is_version(&self.version)
            && SIZES.contains(&self.size)
            && is_length(self.length, self.size)
    }

    /// What the gateway has to send in its phase.
    fn pending(&self) -> Result<ToDevice<'static>, u8> {
        match self.phase {
            ASK => Ok(ToDevice::Query),
            OFFER => Ok(ToDevice::Announce(self.announcement())),
            RUN => Ok(ToDevice::Execute),
            _ => Err(number::NO_USE),
        }
    }

    /// What 20 announces.
    pub fn announcement(&self) -> Announcement {
        let total = fragments(self.length, self.size) as u16;
        Announcement { version: self.version, size: self.size, total, code: self.code }
    }

    /// Answers out of phase are 9; requests out of phase are answered.
    fn handle(&mut self, message: ToGateway, package: &[u8], room: usize) -> Result<Vec<u8>, u8> {
        let reply = match message {
            ToGateway::Query { version } => {
                self.query_answered(&version)?;
                None
            }
            ToGateway::Announce { result } => {
                self.announce_answered(result)?;
                None
            }
            ToGateway::Execute { result } => {
                self.execute_answered(result)?;
                None
            }
            ToGateway::Fragment { version, index } => Some(self.fragment(&version, index, package)),
            ToGateway::DownloadResult { result } => {
                Some(ToDevice::DownloadResult { result: self.download_reported(result) })
            }
            ToGateway::UpgradeResult { result, version } => {
                Some(ToDevice::UpgradeResult { result: self.upgrade_reported(result, &version) })
            }
        };
        reply.map_or(Ok(Vec::new()), |reply| reply.write(room))
    }

    fn end(&mut self, ending: u8) {
        self.phase = ENDED;
        self.ending = ending;
    }

    /// 19, the device's answer.
    fn query_answered(&mut self, running: &Version) -> Result<(), u8> {
        require(self.phase == ASK, number::NO_USE)?;
        if *running == self.version {
            self.end(ALREADY_RUNNING);
        } else {
            self.phase = OFFER;
        }
        Ok(())
    }

    /// 20, the device's answer.
    fn announce_answered(&mut self, result: u8) -> Result<(), u8> {
        require(self.phase == OFFER, number::NO_USE)?;
        if result == 0x00 {
            self.phase = SERVE;
        } else {
            self.end(NOT_ACCEPTED);
        }
        Ok(())
    }

    /// 21, the device's request. The reply carries the index that was asked for.
    fn fragment<'a>(&self, version: &Version, index: u16, package: &'a [u8]) -> ToDevice<'a> {
        let serves = self.phase == SERVE || self.phase == RUN;
        if !serves || *version != self.version {
            ToDevice::Fragment { result: 0x80, index, data: &[] }
        } else if usize::from(index) >= fragments(self.length, self.size) {
            ToDevice::Fragment { result: 0x81, index, data: &[] }
        } else {
            ToDevice::Fragment { result: 0x00, index, data: cut(package, self.size, index) }
        }
    }

    /// 22, the device's report; returns the reply's result.
    fn download_reported(&mut self, result: u8) -> u8 {
        match (self.phase, result) {
            (SERVE, 0x00) => self.phase = RUN,
            (SERVE, _) => self.end(DOWNLOAD_FAILED),
            (RUN, _) => {}
            _ => return 0x80,
        }
        0x00
    }

    /// 23, the device's answer.
    fn execute_answered(&mut self, result: u8) -> Result<(), u8> {
        require(self.phase == RUN, number::NO_USE)?;
        if result != 0x00 {
            self.end(NOT_EXECUTED);
        }
        Ok(())
    }

    /// 24, the device's report; returns the reply's result.
    fn upgrade_reported(&mut self, result: u8, running: &Version) -> u8 {
        if self.phase != RUN {
            return 0x80;
        }
        let success = result == 0x00 && *running == self.version;
        self.end(if success { SUCCESS } else { UPGRADE_FAILED });
        0x00
    }
}

/// How many fragments a package of this length has.
pub fn fragments(length: usize, size: u16) -> usize {
    rounded_up(length, size.into())
}

/// A package has 1 to 65,535 fragments (number 19).
fn is_length(length: usize, size: u16) -> bool {
    (1..=65_535).contains(&fragments(length, size))
}

/// The package's stretch for an index that it has.
pub fn cut(package: &[u8], size: u16, index: u16) -> &[u8] {
    let size = usize::from(size);
    let start = usize::from(index) * size;
    let end = package.len().min(start + size);
    &package[start..end]
}
