//! The gateway. Its caller lends record, package and reply buffer to each call.

use crate::check::check;
use crate::message::{self, is_size, is_version, Facts, ToGateway, Version, MOST_SIZE};
use crate::{number, require, Answer};

const ASK: u8 = 0;
const OFFER: u8 = 1;
const SERVE: u8 = 2;
const RUN: u8 = 3;
const ENDED: u8 = 4;

const SUCCESS: u8 = 0;
const ALREADY_RUNNING: u8 = 1;
const NOT_ACCEPTED: u8 = 2;
const DOWNLOAD_FAILED: u8 = 3;
const NOT_EXECUTED: u8 = 4;
const UPGRADE_FAILED: u8 = 5;

const ACCEPTED: u8 = 0x00;
const NO_UPGRADE: u8 = 0x80;
const NO_FRAGMENT: u8 = 0x81;

const REPLY: usize = 11 + MOST_SIZE as usize;
const MOST_FRAGMENTS: usize = 65_535;

/// The record. A caller may have kept it anywhere, so each call tests it.
#[derive(Clone)]
pub struct Gateway {
    phase: u8,
    ending: u8,
    version: Version,
    size: u16,
    length: usize,
    code: u16,
}

impl Gateway {
    #[inline(never)]
    pub fn start(version: Version, size: u16, package: &[u8], checked: bool) -> Result<Gateway, u8> {
        require(is_version(&version), number::BAD_VERSION)?;
        require(is_size(size), number::BAD_SIZE)?;
        require(is_length(package.len(), size), number::BAD_PACKAGE)?;
        let code = if checked { check(package) } else { 0 };
        Ok(Gateway { phase: ASK, ending: 0, version, size, length: package.len(), code })
    }

    #[inline(never)]
    pub fn receive<'a>(
        &mut self,
        facts: Facts,
        message: &[u8],
        package: &[u8],
        reply: &'a mut [u8],
    ) -> Answer<'a> {
        self.test(package, reply)?;
        match ToGateway::read(facts, message)? {
            ToGateway::QueryReply(version) => self.on_query_reply(&version),
            ToGateway::AnnounceReply(result) => self.on_announce_reply(result),
            ToGateway::FragmentRequest { version, index } => {
                Ok(self.on_fragment_request(&version, index, package, reply))
            }
            ToGateway::DownloadReport(result) => {
                let result = self.on_download_report(result);
                Ok(message::write(reply, message::DOWNLOAD, &[&[result]]))
            }
            ToGateway::ExecuteReply(result) => self.on_execute_reply(result),
            ToGateway::ResultReport { result, version } => {
                let result = self.on_result_report(result, &version);
                Ok(message::write(reply, message::RESULT, &[&[result]]))
            }
        }
    }

    #[inline(never)]
    pub fn next_message<'a>(&self, package: &[u8], reply: &'a mut [u8]) -> Answer<'a> {
        self.test(package, reply)?;
        match self.phase {
            ASK => Ok(message::write(reply, message::QUERY, &[])),
            OFFER => {
                let words = [self.size, self.total(), self.code].map(u16::to_be_bytes);
                let data = [&self.version[..], &words[0], &words[1], &words[2]];
                Ok(message::write(reply, message::ANNOUNCE, &data))
            }
            RUN => Ok(message::write(reply, message::EXECUTE, &[])),
            _ => Err(number::NO_USE),
        }
    }

    fn test(&self, package: &[u8], reply: &[u8]) -> Result<(), u8> {
        require(reply.len() >= REPLY, number::SHORT_REPLY)?;
        let state = self.phase <= ENDED && self.ending <= UPGRADE_FAILED;
        let holds =
            state && is_version(&self.version) && is_size(self.size) && is_length(self.length, self.size);
        require(holds, number::BAD_RECORD)?;
        require(package.len() == self.length, number::BAD_MEMORY)
    }

    fn total(&self) -> u16 {
        fragments(self.length, self.size) as u16
    }

    fn end(&mut self, ending: u8) {
        self.phase = ENDED;
        self.ending = ending;
    }

    fn on_query_reply(&mut self, running: &Version) -> Answer<'static> {
        require(self.phase == ASK, number::NO_USE)?;
        if *running == self.version {
            self.end(ALREADY_RUNNING);
        } else {
            self.phase = OFFER;
        }
        Ok(&[])
    }

    fn on_announce_reply(&mut self, result: u8) -> Answer<'static> {
        require(self.phase == OFFER, number::NO_USE)?;
        if result == ACCEPTED {
            self.phase = SERVE;
        } else {
            self.end(NOT_ACCEPTED);
        }
        Ok(&[])
    }

    fn on_fragment_request<'a>(
        &self,
        version: &Version,
        index: u16,
        package: &[u8],
        reply: &'a mut [u8],
    ) -> &'a [u8] {
        let (result, data) = self.fragment(version, index, package);
        message::write(reply, message::FRAGMENT, &[&[result], &index.to_be_bytes(), data])
    }

    fn fragment<'a>(&self, version: &Version, index: u16, package: &'a [u8]) -> (u8, &'a [u8]) {
        if !matches!(self.phase, SERVE | RUN) || *version != self.version {
            return (NO_UPGRADE, &[]);
        }
        let size = usize::from(self.size);
        match package.chunks(size).nth(index.into()) {
            Some(data) => (ACCEPTED, data),
            None => (NO_FRAGMENT, &[]),
        }
    }

    fn on_download_report(&mut self, result: u8) -> u8 {
        match self.phase {
            SERVE if result == ACCEPTED => self.phase = RUN,
            SERVE => self.end(DOWNLOAD_FAILED),
            RUN => {}
            _ => return NO_UPGRADE,
        }
        ACCEPTED
    }

    fn on_execute_reply(&mut self, result: u8) -> Answer<'static> {
        require(self.phase == RUN, number::NO_USE)?;
        if result != ACCEPTED {
            self.end(NOT_EXECUTED);
        }
        Ok(&[])
    }

    fn on_result_report(&mut self, result: u8, version: &Version) -> u8 {
        if self.phase != RUN {
            return NO_UPGRADE;
        }
        let succeeded = result == ACCEPTED && *version == self.version;
        self.end(if succeeded { SUCCESS } else { UPGRADE_FAILED });
        ACCEPTED
    }
}

fn fragments(length: usize, size: u16) -> usize {
    let size = usize::from(size);
    length / size + usize::from(length % size != 0)
}

fn is_length(length: usize, size: u16) -> bool {
    length > 0 && fragments(length, size) <= MOST_FRAGMENTS
}
