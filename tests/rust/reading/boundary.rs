//! The functions that a host calls, over the bytes that it lends: the layouts of records and of MD5's state before and
//! after 01's calls. A refused call writes nothing, but for the phase with 23.

use super::capture::{write, Item, Reader};
use super::check::{check, message_check};
use super::device::Device;
use super::gateway::Gateway;
use super::layout::{
    put, read_device, read_gateway, read_state, write_device, write_gateway, write_state, DEVICE_RECORD,
    GATEWAY_RECORD, MD5_STATE, SHORT_RECORD,
};
use super::md5::{md5, State};
use super::message::{recognise, Facts, Version};
use super::{number, number_of, require, Answer};

/// The exported functions. The facts are bytes, 0 for no. A u32 is the number plus 256 times the reply's length.
#[allow(clippy::too_many_arguments)]
pub trait Boundary {
    fn check(&self, bytes: &[u8]) -> u16;
    fn message_check(&self, message: &[u8]) -> u16;
    fn recognise(&self, facts: [u8; 2], message: &[u8]) -> u8;
    fn device_new(&self, record: &mut [u8], version: &[u8]) -> u8;
    fn device_receive(
        &self,
        record: &mut [u8],
        facts: [u8; 2],
        condition: u8,
        message: &[u8],
        image: &mut [u8],
        map: &mut [u8],
        reply: &mut [u8],
    ) -> u32;
    fn device_next_message(&self, record: &[u8], image: &[u8], map: &[u8], reply: &mut [u8]) -> u32;
    fn device_install_finished(&self, record: &mut [u8], code: u8) -> u8;
    fn device_give_digest(&self, record: &mut [u8], digest: &[u8]) -> u8;
    fn gateway_start(&self, record: &mut [u8], version: &[u8], size: u16, package: &[u8], checked: u8) -> u8;
    fn gateway_receive(
        &self,
        record: &mut [u8],
        facts: [u8; 2],
        message: &[u8],
        package: &[u8],
        reply: &mut [u8],
    ) -> u32;
    fn gateway_next_message(&self, record: &[u8], package: &[u8], reply: &mut [u8]) -> u32;
    fn md5(&self, bytes: &[u8], digest: &mut [u8]) -> u8;
    fn md5_new(&self, state: &mut [u8]) -> u8;
    fn md5_feed(&self, state: &mut [u8], piece: &[u8]) -> u8;
    fn md5_finish(&self, state: &[u8], digest: &mut [u8]) -> u8;
}

/// The boundary as the reading has it.
pub struct Reading;

impl Boundary for Reading {
    fn check(&self, bytes: &[u8]) -> u16 {
        check(bytes)
    }

    fn message_check(&self, message: &[u8]) -> u16 {
        message_check(message)
    }

    fn recognise(&self, facts: [u8; 2], message: &[u8]) -> u8 {
        number_of(&recognise(stated(facts), message))
    }

    fn device_new(&self, record: &mut [u8], version: &[u8]) -> u8 {
        made(record, DEVICE_RECORD, || Device::make(version_of(version)), write_device)
    }

    fn device_receive(
        &self,
        record: &mut [u8],
        facts: [u8; 2],
        condition: u8,
        message: &[u8],
        image: &mut [u8],
        map: &mut [u8],
        reply: &mut [u8],
    ) -> u32 {
        let room = reply.len();
        let answer = updated(record, read_device, write_device, |device| {
            device.receive(message, stated(facts), condition, image, map, room)
        });
        given(answer, reply)
    }

    fn device_next_message(&self, record: &[u8], image: &[u8], map: &[u8], reply: &mut [u8]) -> u32 {
        let answer = read_device(record).map(|device| device.next_message(image, map, reply.len()));
        given(answer.unwrap_or_else(refused), reply)
    }

    fn device_install_finished(&self, record: &mut [u8], code: u8) -> u8 {
        let ended = |device: &mut Device| Answer { number: device.install_finished(code), reply: Vec::new() };
        updated(record, read_device, write_device, ended).number
    }

    fn device_give_digest(&self, record: &mut [u8], digest: &[u8]) -> u8 {
        let given =
            |device: &mut Device, digest| Answer { number: device.give_digest(digest), reply: Vec::new() };
        match digest.try_into() {
            Ok(digest) => updated(record, read_device, write_device, |device| given(device, digest)).number,
            Err(_) => SHORT_RECORD,
        }
    }

    fn gateway_start(&self, record: &mut [u8], version: &[u8], size: u16, package: &[u8], checked: u8) -> u8 {
        let start = || Gateway::start(version_of(version), size, package, checked != 0);
        made(record, GATEWAY_RECORD, start, write_gateway)
    }

    fn gateway_receive(
        &self,
        record: &mut [u8],
        facts: [u8; 2],
        message: &[u8],
        package: &[u8],
        reply: &mut [u8],
    ) -> u32 {
        let room = reply.len();
        let answer = updated(record, read_gateway, write_gateway, |gateway| {
            gateway.receive(message, stated(facts), package, room)
        });
        given(answer, reply)
    }

    fn gateway_next_message(&self, record: &[u8], package: &[u8], reply: &mut [u8]) -> u32 {
        let answer = read_gateway(record).map(|gateway| gateway.next_message(package, reply.len()));
        given(answer.unwrap_or_else(refused), reply)
    }

    fn md5(&self, bytes: &[u8], digest: &mut [u8]) -> u8 {
        number_of(&give_digest(md5(bytes), digest))
    }

    fn md5_new(&self, state: &mut [u8]) -> u8 {
        made(state, MD5_STATE, || (number::HANDLED, State::new()), write_state)
    }

    fn md5_feed(&self, state: &mut [u8], piece: &[u8]) -> u8 {
        let fed = |state: &mut State| {
            state.feed(piece);
            Answer::from(Ok(Vec::new()))
        };
        updated(state, read_state, write_state, fed).number
    }

    fn md5_finish(&self, state: &[u8], digest: &mut [u8]) -> u8 {
        number_of(&read_state(state).and_then(|state| give_digest(state.finish(), digest)))
    }
}

/// The exported functions for captures.
impl Reading {
    /// What stands at a place: 0 the end, 1 a record toward the device, 2 one from it; or 20, 21.
    pub fn capture_kind(&self, capture: &[u8], at: usize) -> u8 {
        match Reader::at(capture, at).next_record() {
            Item::End => 0,
            Item::Record { toward_device: true, .. } => 1,
            Item::Record { toward_device: false, .. } => 2,
            Item::Fault(number) => number,
        }
    }

    /// The reader's next place.
    pub fn capture_next(&self, capture: &[u8], at: usize) -> usize {
        let mut reader = Reader::at(capture, at);
        reader.next_record();
        reader.place
    }

    /// The mending reader's next place.
    pub fn capture_mended(&self, capture: &[u8], at: usize) -> usize {
        let mut reader = Reader::at(capture, at);
        reader.next_mended();
        reader.place
    }

    /// Toward the device unless the byte is 0.
    pub fn capture_write(&self, toward: u8, message: &[u8], buffer: &mut [u8], at: usize) -> u8 {
        let (number, _) = write(toward != 0, message, buffer, at);
        number
    }
}

fn stated(facts: [u8; 2]) -> Facts {
    let [supported, is_pcp] = facts.map(|fact| fact != 0);
    Facts { supported, is_pcp }
}

/// The text with 00 behind it. One that is too long becomes a text that 01 refuses.
fn version_of(text: &[u8]) -> Version {
    let mut version = [0; 16];
    if text.len() <= version.len() {
        put(text, &mut version);
    }
    version
}

/// A digest is put into its buffer, which has its length.
fn give_digest(digest: [u8; 16], buffer: &mut [u8]) -> Result<(), u8> {
    require(buffer.len() == digest.len(), SHORT_RECORD)?;
    put(&digest, buffer);
    Ok(())
}

/// A record is made, and written where its making is not refused.
fn made<T>(
    buffer: &mut [u8],
    length: usize,
    make: impl FnOnce() -> (u8, T),
    write: impl Fn(&T, &mut [u8]),
) -> u8 {
    if let Err(number) = require(buffer.len() >= length, SHORT_RECORD) {
        return number;
    }
    let (number, record) = make();
    if number == number::HANDLED {
        write(&record, buffer);
    }
    number
}

/// A call is made on a record, which is written back where the call is handled, and with 23.
fn updated<T>(
    buffer: &mut [u8],
    read: impl FnOnce(&[u8]) -> Result<T, u8>,
    write: impl Fn(&T, &mut [u8]),
    call: impl FnOnce(&mut T) -> Answer,
) -> Answer {
    let answer = read(buffer).map(|mut record| {
        let answer = call(&mut record);
        if matches!(answer.number, number::HANDLED | number::REPEAT_DIFFERS) {
            write(&record, buffer);
        }
        answer
    });
    answer.unwrap_or_else(refused)
}

fn refused(number: u8) -> Answer {
    Answer::from(Err(number))
}

/// The reply is put at the front of its buffer; the rest stays.
fn given(answer: Answer, buffer: &mut [u8]) -> u32 {
    put(&answer.reply, buffer);
    u32::from(answer.number) + 256 * answer.reply.len() as u32
}
