//! The same calls by the types for Rust hosts, `pcp::Device`, `pcp::Gateway` and `pcp::md5::Md5`. What these cannot be
//! given is left to the exports: a short record buffer, bytes that are no record, a digest of another length, a condition
//! or an installer's code that has no name.

use super::library::Library;
use crate::reading::boundary::Boundary;
use pcp::md5::{self, Md5, STATE_LENGTH};
use pcp::{
    Condition, Device, DeviceAnswer, Facts, Gateway, InstallCode, Refusal, DEVICE_RECORD, DIGEST_LENGTH,
    GATEWAY_RECORD,
};

/// The boundary as those types have it.
pub struct Wrapper;

/// The result of a call that says something else of its changes than there is; no call has it.
const FALSE_CLAIM: u32 = u32::MAX;

fn facts_of([supported, pcp]: [u8; 2]) -> Facts {
    Facts { supported: supported != 0, pcp: pcp != 0 }
}

fn number_of(result: Result<(), Refusal>) -> u8 {
    result.err().map_or(0, u8::from)
}

/// As the archive gives it.
fn packed(reply: Result<Option<&[u8]>, Refusal>) -> u32 {
    match reply {
        Ok(reply) => 256 * reply.unwrap_or_default().len() as u32,
        Err(refusal) => u8::from(refusal).into(),
    }
}

/// Nothing to send is a number at the exports.
fn packed_message(message: Result<Option<&[u8]>, Refusal>) -> u32 {
    packed(message.and_then(|message| message.ok_or(Refusal::NoUse).map(Some)))
}

fn device_in(record: &[u8]) -> Option<Device> {
    let record: [u8; DEVICE_RECORD] = record.get(..DEVICE_RECORD)?.try_into().ok()?;
    Device::from_record(record).ok()
}

fn gateway_in(record: &[u8]) -> Option<Gateway> {
    let record: [u8; GATEWAY_RECORD] = record.get(..GATEWAY_RECORD)?.try_into().ok()?;
    Gateway::from_record(record).ok()
}

fn state_in(state: &[u8]) -> Option<Md5> {
    let state: [u8; STATE_LENGTH] = state.get(..STATE_LENGTH)?.try_into().ok()?;
    Some(Md5::from_state(state))
}

fn keep(record: &[u8], buffer: &mut [u8]) {
    buffer[..record.len()].copy_from_slice(record);
}

/// The image has changed nowhere but where the answer says, and has the message's fragment there.
fn is_written(answer: &DeviceAnswer, message: &[u8], before: &[u8], image: &[u8]) -> bool {
    match &answer.written {
        Some(place) => {
            image.get(place.clone()) == Some(&message[11..])
                && image[..place.start] == before[..place.start]
                && image[place.end..] == before[place.end..]
        }
        None => image == before,
    }
}

impl Boundary for Wrapper {
    fn check(&self, bytes: &[u8]) -> u16 {
        pcp::check_of_bytes(bytes)
    }

    fn message_check(&self, message: &[u8]) -> u16 {
        pcp::check_of_message(message)
    }

    fn recognise(&self, facts: [u8; 2], message: &[u8]) -> u8 {
        number_of(pcp::recognise(facts_of(facts), message))
    }

    fn device_new(&self, record: &mut [u8], version: &[u8]) -> u8 {
        if record.len() < DEVICE_RECORD {
            return Library.device_new(record, version);
        }
        number_of(Device::new(version).map(|device| keep(device.record(), record)))
    }

    fn device_receive(
        &self,
        record: &mut [u8],
        facts: [u8; 2],
        condition: u8,
        message: &[u8],
        image: &mut [u8],
        map: &mut [u8],
        reply: &mut [u8],
    ) -> u32 {
        let (mut device, named) = match (device_in(record), Condition::try_from(condition)) {
            (Some(device), Ok(named)) => (device, named),
            _ => return Library.device_receive(record, facts, condition, message, image, map, reply),
        };
        let before = image.to_vec();
        let answer = device.receive(facts_of(facts), named, message, image, map, reply);
        if let Ok(answer) = &answer {
            let has_changed = !record.starts_with(device.record());
            if answer.changed != has_changed || !is_written(answer, message, &before, image) {
                return FALSE_CLAIM;
            }
        }
        keep(device.record(), record);
        packed(answer.map(|answer| answer.reply))
    }

    fn device_next_message(&self, record: &[u8], image: &[u8], map: &[u8], reply: &mut [u8]) -> u32 {
        match device_in(record) {
            Some(device) => packed_message(device.next_message(image, map, reply)),
            None => Library.device_next_message(record, image, map, reply),
        }
    }

    fn device_install_finished(&self, record: &mut [u8], code: u8) -> u8 {
        match (device_in(record), InstallCode::try_from(code)) {
            (Some(mut device), Ok(code)) => {
                let result = device.install_finished(code);
                keep(device.record(), record);
                number_of(result)
            }
            _ => Library.device_install_finished(record, code),
        }
    }

    fn device_give_digest(&self, record: &mut [u8], digest: &[u8]) -> u8 {
        match (device_in(record), digest.try_into()) {
            (Some(mut device), Ok(digest)) => {
                let result = device.give_digest(digest);
                keep(device.record(), record);
                number_of(result)
            }
            _ => Library.device_give_digest(record, digest),
        }
    }

    fn gateway_start(&self, record: &mut [u8], version: &[u8], size: u16, package: &[u8], checked: u8) -> u8 {
        if record.len() < GATEWAY_RECORD {
            return Library.gateway_start(record, version, size, package, checked);
        }
        let started = Gateway::start(version, size, package, checked != 0);
        number_of(started.map(|gateway| keep(gateway.record(), record)))
    }

    fn gateway_receive(
        &self,
        record: &mut [u8],
        facts: [u8; 2],
        message: &[u8],
        package: &[u8],
        reply: &mut [u8],
    ) -> u32 {
        let mut gateway = match gateway_in(record) {
            Some(gateway) => gateway,
            None => return Library.gateway_receive(record, facts, message, package, reply),
        };
        let answer = gateway.receive(facts_of(facts), message, package, reply);
        let has_changed = !record.starts_with(gateway.record());
        if answer.as_ref().map_or(false, |answer| answer.changed != has_changed) {
            return FALSE_CLAIM;
        }
        keep(gateway.record(), record);
        packed(answer.map(|answer| answer.reply))
    }

    fn gateway_next_message(&self, record: &[u8], package: &[u8], reply: &mut [u8]) -> u32 {
        match gateway_in(record) {
            Some(gateway) => packed_message(gateway.next_message(package, reply)),
            None => Library.gateway_next_message(record, package, reply),
        }
    }

    fn md5(&self, bytes: &[u8], digest: &mut [u8]) -> u8 {
        if digest.len() != DIGEST_LENGTH {
            return Library.md5(bytes, digest);
        }
        keep(&md5::digest(bytes), digest);
        0
    }

    fn md5_new(&self, state: &mut [u8]) -> u8 {
        if state.len() < STATE_LENGTH {
            return Library.md5_new(state);
        }
        keep(Md5::new().state(), state);
        0
    }

    fn md5_feed(&self, state: &mut [u8], piece: &[u8]) -> u8 {
        let mut md5 = match state_in(state) {
            Some(md5) => md5,
            None => return Library.md5_feed(state, piece),
        };
        md5.feed(piece);
        keep(md5.state(), state);
        0
    }

    fn md5_finish(&self, state: &[u8], digest: &mut [u8]) -> u8 {
        match state_in(state) {
            Some(md5) if digest.len() == DIGEST_LENGTH => {
                keep(&md5.finish(), digest);
                0
            }
            _ => Library.md5_finish(state, digest),
        }
    }
}
