//! The library's exports, by the wrapper for Rust. Linked with tests/c/boundary.c, every call passes through that.

use crate::reading::boundary::Boundary;
use pcp::raw::{self, Answer};

/// The boundary as the archive has it.
pub struct Library;

/// An answer as the archive gives it.
fn packed(answer: Answer) -> u32 {
    u32::from(answer.number) + 256 * answer.length as u32
}

impl Boundary for Library {
    fn check(&self, bytes: &[u8]) -> u16 {
        raw::check(bytes)
    }

    fn message_check(&self, message: &[u8]) -> u16 {
        raw::message_check(message)
    }

    fn recognise(&self, facts: [u8; 2], message: &[u8]) -> u8 {
        raw::recognise(facts, message)
    }

    fn device_new(&self, record: &mut [u8], version: &[u8]) -> u8 {
        raw::device_new(record, version)
    }

    fn device_receive(
        &self,
        record: &mut [u8],
        facts: [u8; 2],
        condition: u8,
        message: &[u8],
        image: &mut [u8],
        map: &mut [u8],
        reply: &mut [u8],
    ) -> u32 {
        packed(raw::device_receive(record, facts, condition, message, image, map, reply))
    }

    fn device_next_message(&self, record: &[u8], image: &[u8], map: &[u8], reply: &mut [u8]) -> u32 {
        packed(raw::device_next_message(record, image, map, reply))
    }

    fn device_install_finished(&self, record: &mut [u8], code: u8) -> u8 {
        raw::device_install_finished(record, code)
    }

    fn device_give_digest(&self, record: &mut [u8], digest: &[u8]) -> u8 {
        raw::device_give_digest(record, digest)
    }

    fn gateway_start(&self, record: &mut [u8], version: &[u8], size: u16, package: &[u8], checked: u8) -> u8 {
        raw::gateway_start(record, version, size, package, checked)
    }

    fn gateway_receive(
        &self,
        record: &mut [u8],
        facts: [u8; 2],
        message: &[u8],
        package: &[u8],
        reply: &mut [u8],
    ) -> u32 {
        packed(raw::gateway_receive(record, facts, message, package, reply))
    }

    fn gateway_next_message(&self, record: &[u8], package: &[u8], reply: &mut [u8]) -> u32 {
        packed(raw::gateway_next_message(record, package, reply))
    }

    fn md5(&self, bytes: &[u8], digest: &mut [u8]) -> u8 {
        raw::md5(bytes, digest)
    }

    fn md5_new(&self, state: &mut [u8]) -> u8 {
        raw::md5_new(state)
    }

    fn md5_feed(&self, state: &mut [u8], piece: &[u8]) -> u8 {
        raw::md5_feed(state, piece)
    }

    fn md5_finish(&self, state: &[u8], digest: &mut [u8]) -> u8 {
        raw::md5_finish(state, digest)
    }
}
