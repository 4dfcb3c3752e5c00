//! The device. Its caller lends record, image, map and reply buffer to each call.

use crate::check::check;
use crate::message::{self, is_outcome, is_size, is_version, Announcement, Facts, ToDevice, Version};
use crate::search::{by_eights, map_length};
use crate::{number, require, Answer};

const IDLE: u8 = 0;
const LOADING: u8 = 1;
const LOADED: u8 = 2;
const ACKED: u8 = 3;
const FAILED: u8 = 4;
const INSTALLING: u8 = 5;
const REPORTING: u8 = 6;

const READY: u8 = 0;
const BUSY: u8 = 1;
const WEAK_SIGNAL: u8 = 2;
const LOW_POWER: u8 = 4;
const INTERNAL_ERROR: u8 = 127;

const ACCEPTED: u8 = 0x00;
const SAME_VERSION: u8 = 0x03;
const NO_SPACE: u8 = 0x05;
const NO_MEMORY: u8 = 0x09;
const CHECK_FAILED: u8 = 0x07;
const NO_UPGRADE: u8 = 0x80;

const REPLY: usize = 26;

/// The record. A caller may have kept it anywhere, so each call tests it.
#[derive(Clone)]
pub struct Device {
    phase: u8,
    running: Version,
    target: Version,
    size: u16,
    total: u16,
    code: u16,
    stored: u16,
    last: u16,
    outcome: u8,
}

impl Device {
    pub fn new(running: Version) -> Result<Device, u8> {
        require(is_version(&running), number::BAD_VERSION)?;
        let target = running;
        Ok(Device {
            phase: IDLE,
            running,
            target,
            size: 0,
            total: 0,
            code: 0,
            stored: 0,
            last: 0,
            outcome: 0,
        })
    }

    #[inline(never)]
    pub fn receive<'a>(
        &mut self,
        facts: Facts,
        condition: u8,
        message: &[u8],
        image: &mut [u8],
        map: &mut [u8],
        reply: &'a mut [u8],
    ) -> Answer<'a> {
        require(reply.len() >= REPLY, number::SHORT_REPLY)?;
        require(is_condition(condition), number::UNKNOWN_CONDITION)?;
        self.test(image, map)?;
        match ToDevice::read(facts, message)? {
            ToDevice::Query => Ok(message::write(reply, message::QUERY, &[&[0x00], &self.running])),
            ToDevice::Announce(announced) => {
                let result = self.on_announce(&announced, condition, image, map);
                Ok(message::write(reply, message::ANNOUNCE, &[&[result]]))
            }
            ToDevice::Fragment { index, data } => self.on_fragment(index, data, image, map),
            ToDevice::NoFragment { result } => self.on_no_fragment(result),
            ToDevice::DownloadReply(result) => self.on_download_reply(result),
            ToDevice::Execute => {
                let result = self.on_execute(condition);
                Ok(message::write(reply, message::EXECUTE, &[&[result]]))
            }
            ToDevice::ResultReply => self.on_result_reply(),
        }
    }

    #[inline(never)]
    pub fn next_message<'a>(&self, image: &[u8], map: &[u8], reply: &'a mut [u8]) -> Answer<'a> {
        require(reply.len() >= REPLY, number::SHORT_REPLY)?;
        self.test(image, map)?;
        match self.phase {
            LOADING => {
                let index = by_eights(map, self.total).ok_or(number::BAD_RECORD)?;
                Ok(message::write(reply, message::FRAGMENT, &[&self.target, &index.to_be_bytes()]))
            }
            LOADED => Ok(message::write(reply, message::DOWNLOAD, &[&[ACCEPTED]])),
            FAILED => Ok(message::write(reply, message::DOWNLOAD, &[&[CHECK_FAILED]])),
            REPORTING => Ok(message::write(reply, message::RESULT, &[&[self.outcome], &self.running])),
            _ => Err(number::NO_USE),
        }
    }

    #[inline(never)]
    pub fn install_finished(&mut self, code: u8) -> Result<(), u8> {
        self.test_record()?;
        require(self.phase == INSTALLING, number::NO_USE)?;
        require(is_outcome(code), number::BAD_INSTALL_CODE)?;
        self.outcome = code;
        self.phase = REPORTING;
        if code == 0x00 {
            self.running = self.target;
        }
        Ok(())
    }

    fn test(&self, image: &[u8], map: &[u8]) -> Result<(), u8> {
        self.test_record()?;
        let fits = image.len() >= room(self.size, self.total) && map.len() >= map_length(self.total);
        require(fits || !self.is_held(), number::BAD_MEMORY)
    }

    fn test_record(&self) -> Result<(), u8> {
        let texts = is_version(&self.running) && is_version(&self.target);
        let holds = self.phase <= REPORTING && is_outcome(self.outcome) && texts;
        require(holds && (self.phase == IDLE || self.is_download()), number::BAD_RECORD)
    }

    fn is_download(&self) -> bool {
        let count = if self.phase == LOADING { self.stored < self.total } else { self.stored <= self.total };
        is_size(self.size) && self.total >= 1 && count && self.last <= self.size
    }

    /// The record's image and map are in use.
    fn is_held(&self) -> bool {
        (LOADING..=ACKED).contains(&self.phase)
    }

    fn on_announce(&mut self, announced: &Announcement, condition: u8, image: &[u8], map: &mut [u8]) -> u8 {
        let result = self.announce_result(announced, condition, image, map);
        if result == ACCEPTED && !self.resumes(announced) {
            self.begin(announced, map);
        }
        result
    }

    fn announce_result(&self, announced: &Announcement, condition: u8, image: &[u8], map: &[u8]) -> u8 {
        if matches!(self.phase, INSTALLING | REPORTING) {
            BUSY
        } else if condition != READY {
            condition
        } else if announced.version == self.running {
            SAME_VERSION
        } else if room(announced.size, announced.total) > image.len() {
            NO_SPACE
        } else if map_length(announced.total) > map.len() {
            NO_MEMORY
        } else {
            ACCEPTED
        }
    }

    fn resumes(&self, announced: &Announcement) -> bool {
        self.is_held()
            && announced.code != 0
            && announced.version == self.target
            && (announced.size, announced.total, announced.code) == (self.size, self.total, self.code)
    }

    fn begin(&mut self, announced: &Announcement, map: &mut [u8]) {
        map[..map_length(announced.total)].fill(0);
        self.phase = LOADING;
        self.target = announced.version;
        self.size = announced.size;
        self.total = announced.total;
        self.code = announced.code;
        self.stored = 0;
        self.last = 0;
    }

    fn on_fragment(&mut self, index: u16, data: &[u8], image: &mut [u8], map: &mut [u8]) -> Answer<'static> {
        require(self.phase == LOADING, number::NO_USE)?;
        require(index < self.total, number::BAD_INDEX)?;
        let is_last = index == self.total - 1;
        let size = usize::from(self.size);
        require(data.len() == size || (is_last && data.len() < size), number::BAD_FRAGMENT_LENGTH)?;
        let (byte, bit) = (usize::from(index / 8), 1 << (index % 8));
        let at = usize::from(index) * size;
        if map[byte] & bit != 0 {
            let length = if is_last { self.last.into() } else { size };
            return Err(self.repeated(data == &image[at..at + length]));
        }
        image[at..at + data.len()].copy_from_slice(data);
        map[byte] |= bit;
        self.stored += 1;
        if is_last {
            self.last = data.len() as u16;
        }
        if self.stored == self.total {
            self.complete(image);
        }
        Ok(&[])
    }

    fn repeated(&mut self, is_same: bool) -> u8 {
        if is_same {
            return number::ALREADY_STORED;
        }
        self.phase = FAILED;
        number::REPEAT_DIFFERS
    }

    fn complete(&mut self, image: &[u8]) {
        let length = room(self.size, self.total - 1) + usize::from(self.last);
        let holds = self.code == 0 || self.code == check(&image[..length]);
        self.phase = if holds { LOADED } else { FAILED };
    }

    fn on_no_fragment(&mut self, result: u8) -> Answer<'static> {
        require(self.phase == LOADING, number::NO_USE)?;
        if result == NO_UPGRADE {
            self.phase = IDLE;
        }
        Ok(&[])
    }

    fn on_download_reply(&mut self, result: u8) -> Answer<'static> {
        self.phase = match self.phase {
            LOADED if result == ACCEPTED => ACKED,
            LOADED | FAILED => IDLE,
            _ => return Err(number::NO_USE),
        };
        Ok(&[])
    }

    fn on_execute(&mut self, condition: u8) -> u8 {
        match self.phase {
            LOADED | ACKED if matches!(condition, BUSY | LOW_POWER) => condition,
            LOADED | ACKED if condition == INTERNAL_ERROR => BUSY,
            LOADED | ACKED | INSTALLING => {
                self.phase = INSTALLING;
                ACCEPTED
            }
            _ => BUSY,
        }
    }

    fn on_result_reply(&mut self) -> Answer<'static> {
        require(self.phase == REPORTING, number::NO_USE)?;
        self.phase = IDLE;
        Ok(&[])
    }
}

fn is_condition(condition: u8) -> bool {
    matches!(condition, READY | BUSY | WEAK_SIGNAL | LOW_POWER | INTERNAL_ERROR)
}

/// What fragments of this size take in the image.
fn room(size: u16, total: u16) -> usize {
    usize::from(size) * usize::from(total)
}
