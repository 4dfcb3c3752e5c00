//! The device (01, "The head"). A call changes record, image and map only if its number is 0; but 23 makes the phase Failed
//! (02, 2026-06). A digest may be given, which the completed bytes must have (02, 2026-05).

use super::check::check;
use super::md5::md5;
use super::message::{
    is_version, Announcement, Facts, ToDevice, ToGateway, Version, DEVICE_ROOM, SIZES, UPGRADE_RESULTS,
};
use super::{number, number_of, require, Answer};

/// The phases.
pub const IDLE: u8 = 0;
pub const LOADING: u8 = 1;
pub const LOADED: u8 = 2;
pub const ACKED: u8 = 3;
pub const FAILED: u8 = 4;
pub const INSTALLING: u8 = 5;
pub const REPORTING: u8 = 6;

/// The conditions that a caller may state.
pub const READY: u8 = 0;
pub const BUSY: u8 = 1;
pub const WEAK_SIGNAL: u8 = 2;
pub const LOW_POWER: u8 = 4;
pub const INTERNAL: u8 = 127;
pub const CONDITIONS: [u8; 5] = [READY, BUSY, WEAK_SIGNAL, LOW_POWER, INTERNAL];

/// The record that the caller keeps between calls.
#[derive(Clone, Debug, Default, PartialEq, Eq)]
pub struct Device {
    pub phase: u8,
    pub running: Version,
    /// The target.
    pub version: Version,
    pub size: u16,
    pub total: u16,
    pub code: u16,
    /// How many fragments are stored.
    pub stored: u16,
    /// The last fragment's length, 0 until it is stored.
    pub last: u16,
    /// The code kept at the installer's end.
    pub outcome: u8,
    /// Whether a digest is set: 0 or 1.
    pub digest_set: u8,
    /// The digest expected, 0 where none is set.
    pub digest: [u8; 16],
}

impl Device {
    /// A fresh record. A refused one is all zero.
    pub fn make(running: Version) -> (u8, Device) {
        if is_version(&running) {
            (number::HANDLED, Device { running, version: running, ..Device::default() })
        } else {
            (number::VERSION_TEXT, Device::default())
        }
    }

    /// A message arrives. Order of refusals: 15, 13, 29, 14, 1 to 8, then those of the message.
    pub fn receive(
        &mut self,
        message: &[u8],
        facts: Facts,
        condition: u8,
        image: &mut [u8],
        map: &mut [u8],
        room: usize,
    ) -> Answer {
        let read = require(room >= DEVICE_ROOM, number::REPLY_BUFFER)
            .and_then(|()| require(CONDITIONS.contains(&condition), number::CONDITION))
            .and_then(|()| require(self.is_sound(), number::RECORD))
            .and_then(|()| require(self.has_memory(image, map), number::LENT_MEMORY))
            .and_then(|()| ToDevice::read(facts, message));
        Answer::from(read.and_then(|message| self.handle(message, condition, image, map, room)))
    }

    /// The device is asked for its next message. Order of refusals: 15, 29, 14, 9, then 29 for a full map.
    pub fn next_message(&self, image: &[u8], map: &[u8], room: usize) -> Answer {
        let message = require(room >= DEVICE_ROOM, number::REPLY_BUFFER)
            .and_then(|()| require(self.is_sound(), number::RECORD))
            .and_then(|()| require(self.has_memory(image, map), number::LENT_MEMORY))
            .and_then(|()| self.pending(map));
        Answer::from(message.and_then(|message| message.write(room)))
    }

    /// The installer has ended with a code. Order of refusals: 29, 9, 16.
    pub fn install_finished(&mut self, code: u8) -> u8 {
        let allowed = require(self.is_sound(), number::RECORD)
            .and_then(|()| require(self.phase == INSTALLING, number::NO_USE))
            .and_then(|()| require(UPGRADE_RESULTS.contains(&code), number::INSTALLER_CODE));
        if allowed.is_ok() {
            self.outcome = code;
            self.phase = REPORTING;
            if code == 0x00 {
                self.running = self.version;
            }
        }
        number_of(&allowed)
    }

    /// A digest is given for the download held. Order of refusals: 29, 9.
    pub fn give_digest(&mut self, digest: [u8; 16]) -> u8 {
        let allowed = require(self.is_sound(), number::RECORD)
            .and_then(|()| require(self.phase == LOADING, number::NO_USE));
        if allowed.is_ok() {
            self.digest_set = 1;
            self.digest = digest;
        }
        number_of(&allowed)
    }

    /// Whether the record keeps the rules (number 29). Kept code, the digest's flag and both versions count in every phase.
    fn is_sound(&self) -> bool {
        self.phase <= REPORTING
            && UPGRADE_RESULTS.contains(&self.outcome)
            && self.digest_set <= 1
            && is_version(&self.running)
            && is_version(&self.version)
            && (self.phase == IDLE || self.download_is_sound())
    }

    /// The part of number 29 for phases 1 to 6.
    fn download_is_sound(&self) -> bool {
        SIZES.contains(&self.size)
            && self.total >= 1
            && self.stored <= self.total
            && !(self.phase == LOADING && self.stored == self.total)
            && self.last <= self.size
    }

    /// Whether image and map are long enough for the download held (number 14, phases 1 to 3).
    fn has_memory(&self, image: &[u8], map: &[u8]) -> bool {
        let held = self.held();
        let in_use = (LOADING..=ACKED).contains(&self.phase);
        !in_use || (image.len() >= held.image_length() && map.len() >= held.map_length())
    }

    /// The four fields that were taken from an announcement.
    pub fn held(&self) -> Announcement {
        Announcement { version: self.version, size: self.size, total: self.total, code: self.code }
    }

    fn handle(
        &mut self,
        message: ToDevice,
        condition: u8,
        image: &mut [u8],
        map: &mut [u8],
        room: usize,
    ) -> Result<Vec<u8>, u8> {
        let reply = match message {
            ToDevice::Query => Some(ToGateway::Query { version: self.running }),
            ToDevice::Announce(offer) => {
                Some(ToGateway::Announce { result: self.announced(&offer, condition, image, map) })
            }
            ToDevice::Execute => Some(ToGateway::Execute { result: self.execute(condition) }),
            ToDevice::Fragment { result, index, data } => {
                self.fragment(result, index, data, image, map)?;
                None
            }
            ToDevice::DownloadResult { result } => {
                self.download_answered(result)?;
                None
            }
            ToDevice::UpgradeResult { .. } => {
                self.upgrade_answered()?;
                None
            }
        };
        reply.map_or(Ok(Vec::new()), |reply| reply.write(room))
    }

    /// 20: answers, and on 00 either resumes or starts afresh.
    fn announced(&mut self, offer: &Announcement, condition: u8, image: &[u8], map: &mut [u8]) -> u8 {
        let answer = self.announce_answer(offer, condition, image, map);
        if answer == 0x00 && !self.resumes(offer) {
            self.start_download(offer, map);
        }
        answer
    }

    /// The tests of 20, in order.
    fn announce_answer(&self, offer: &Announcement, condition: u8, image: &[u8], map: &[u8]) -> u8 {
        if self.phase == INSTALLING || self.phase == REPORTING {
            0x01
        } else if condition != READY {
            condition
        } else if offer.version == self.running {
            0x03
        } else if offer.image_length() > image.len() {
            0x05
        } else if map.len() < offer.map_length() {
            0x09
        } else {
            0x00
        }
    }

    /// Only a code other than 0 tells that the package is the same one.
    fn resumes(&self, offer: &Announcement) -> bool {
        (LOADING..=ACKED).contains(&self.phase) && offer.code != 0 && *offer == self.held()
    }

    /// The map is cleared in whole bytes; the bytes after them stay.
    fn start_download(&mut self, offer: &Announcement, map: &mut [u8]) {
        map[..offer.map_length()].fill(0);
        self.phase = LOADING;
        self.version = offer.version;
        self.size = offer.size;
        self.total = offer.total;
        self.code = offer.code;
        self.stored = 0;
        self.last = 0;
        self.digest_set = 0;
        self.digest = [0; 16];
    }

    /// 21: only Loading has a use for it.
    fn fragment(
        &mut self,
        result: u8,
        index: u16,
        data: &[u8],
        image: &mut [u8],
        map: &mut [u8],
    ) -> Result<(), u8> {
        require(self.phase == LOADING, number::NO_USE)?;
        match result {
            0x80 => self.phase = IDLE,
            0x81 => {}
            _ => self.store(index, data, image, map)?,
        }
        Ok(())
    }

    /// 21 with result 00: the refusals 10, 11, and 12 or 23, then the fragment is stored.
    fn store(&mut self, index: u16, data: &[u8], image: &mut [u8], map: &mut [u8]) -> Result<(), u8> {
        require(index < self.total, number::INDEX)?;
        require(self.length_fits(index, data.len()), number::FRAGMENT_LENGTH)?;
        let place = usize::from(index) * usize::from(self.size);
        if is_stored(map, index) {
            return Err(self.repeated(data, &image[place..][..self.stored_length(index)]));
        }
        image[place..place + data.len()].copy_from_slice(data);
        map[usize::from(index) / 8] |= 1 << (index % 8);
        self.stored += 1;
        if self.is_last(index) {
            self.last = data.len() as u16;
        }
        if self.stored == self.total {
            self.phase = if self.image_is_good(image) { LOADED } else { FAILED };
        }
        Ok(())
    }

    /// The same bytes and length again, or others: then the download has failed.
    fn repeated(&mut self, data: &[u8], stored: &[u8]) -> u8 {
        if data == stored {
            return number::ALREADY_STORED;
        }
        self.phase = FAILED;
        number::REPEAT_DIFFERS
    }

    /// How long the fragment of an index is once it is stored.
    fn stored_length(&self, index: u16) -> usize {
        usize::from(if self.is_last(index) { self.last } else { self.size })
    }

    fn is_last(&self, index: u16) -> bool {
        index == self.total - 1
    }

    /// Every fragment is size long; the last may be shorter. Reading has refused an empty one.
    fn length_fits(&self, index: u16, length: usize) -> bool {
        let size = usize::from(self.size);
        length == size || (self.is_last(index) && length < size)
    }

    /// Check and digest run over the true length, so only as far as the last fragment reaches.
    fn image_is_good(&self, image: &[u8]) -> bool {
        let length = usize::from(self.size) * usize::from(self.total - 1) + usize::from(self.last);
        let bytes = &image[..length];
        let check_passes = self.code == 0 || self.code == check(bytes);
        let digest_passes = self.digest_set == 0 || self.digest == md5(bytes);
        check_passes && digest_passes
    }

    /// 22, the gateway's answer to the download result.
    fn download_answered(&mut self, result: u8) -> Result<(), u8> {
        self.phase = match (self.phase, result) {
            (LOADED, 0x00) => ACKED,
            (LOADED, _) | (FAILED, _) => IDLE,
            _ => return Err(number::NO_USE),
        };
        Ok(())
    }

    /// 23: a weak signal does not stop it, and Installing answers 00 whatever the condition.
    fn execute(&mut self, condition: u8) -> u8 {
        match (self.phase, condition) {
            (LOADED | ACKED, BUSY | LOW_POWER) => condition,
            (LOADED | ACKED, INTERNAL) => 0x01,
            (LOADED | ACKED, _) => {
                self.phase = INSTALLING;
                0x00
            }
            (INSTALLING, _) => 0x00,
            _ => 0x01,
        }
    }

    /// 24, the gateway's answer to the upgrade result.
    fn upgrade_answered(&mut self) -> Result<(), u8> {
        require(self.phase == REPORTING, number::NO_USE)?;
        self.phase = IDLE;
        Ok(())
    }

    /// What the device has to send in its phase.
    fn pending(&self, map: &[u8]) -> Result<ToGateway, u8> {
        match self.phase {
            LOADING => {
                let index = self.lowest_missing(map).ok_or(number::RECORD)?;
                Ok(ToGateway::Fragment { version: self.version, index })
            }
            LOADED => Ok(ToGateway::DownloadResult { result: 0x00 }),
            FAILED => Ok(ToGateway::DownloadResult { result: 0x07 }),
            REPORTING => Ok(ToGateway::UpgradeResult { result: self.outcome, version: self.running }),
            _ => Err(number::NO_USE),
        }
    }

    fn lowest_missing(&self, map: &[u8]) -> Option<u16> {
        (0..self.total).find(|index| !is_stored(map, *index))
    }
}

/// The map's bit for a fragment: eight to a byte, from the lowest bit up.
pub fn is_stored(map: &[u8], index: u16) -> bool {
    map[usize::from(index) / 8] >> (index % 8) & 1 == 1
}
