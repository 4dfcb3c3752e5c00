//! The records, and MD5's state, as a host keeps them between calls: bytes in the order of their fields, numbers high byte
//! first.

use super::device::Device;
use super::gateway::Gateway;
use super::md5::State;

/// The number for a buffer that is shorter than its record's layout. It is the boundary's own, not one of 01's.
pub const SHORT_RECORD: u8 = 64;

/// The widths of the device's fields: phase, running version, target, size, total, check code, stored count, last
/// length, kept installer code, whether a digest is set, the digest.
pub const DEVICE_FIELDS: [usize; 11] = [1, 16, 16, 2, 2, 2, 2, 2, 1, 1, 16];
pub const DEVICE_RECORD: usize = 61;
/// The widths of the gateway's fields: phase, ending number, version, size, package length, check code.
pub const GATEWAY_FIELDS: [usize; 6] = [1, 1, 16, 2, 8, 2];
pub const GATEWAY_RECORD: usize = 30;
/// MD5's state: four words of four bytes, the number of bytes so far of eight, the block.
pub const MD5_STATE: usize = 88;

/// Bytes that are taken field by field.
struct Fields<'a>(&'a [u8]);

impl Fields<'_> {
    fn take<const WIDTH: usize>(&mut self) -> [u8; WIDTH] {
        let mut field = [0; WIDTH];
        let (front, rest) = self.0.split_at(WIDTH);
        field.copy_from_slice(front);
        self.0 = rest;
        field
    }

    fn byte(&mut self) -> u8 {
        let [byte] = self.take();
        byte
    }

    fn word(&mut self) -> u16 {
        u16::from_be_bytes(self.take())
    }
}

/// The device's record at the front of a buffer.
pub fn read_device(buffer: &[u8]) -> Result<Device, u8> {
    let mut fields = Fields(buffer.get(..DEVICE_RECORD).ok_or(SHORT_RECORD)?);
    Ok(Device {
        phase: fields.byte(),
        running: fields.take(),
        version: fields.take(),
        size: fields.word(),
        total: fields.word(),
        code: fields.word(),
        stored: fields.word(),
        last: fields.word(),
        outcome: fields.byte(),
        digest_set: fields.byte(),
        digest: fields.take(),
    })
}

/// Bytes behind the layout stay.
pub fn write_device(device: &Device, buffer: &mut [u8]) {
    let Device { phase, running, version, size, total, code, stored, last, outcome, digest_set, digest } =
        device;
    let words = [size, total, code, stored, last].map(|word| word.to_be_bytes()).concat();
    put(&[&[*phase], &running[..], &version[..], &words, &[*outcome, *digest_set], digest].concat(), buffer);
}

/// The gateway's record at the front of a buffer.
pub fn read_gateway(buffer: &[u8]) -> Result<Gateway, u8> {
    let mut fields = Fields(buffer.get(..GATEWAY_RECORD).ok_or(SHORT_RECORD)?);
    Ok(Gateway {
        phase: fields.byte(),
        ending: fields.byte(),
        version: fields.take(),
        size: fields.word(),
        length: u64::from_be_bytes(fields.take()) as usize,
        code: fields.word(),
    })
}

/// Bytes behind the layout stay.
pub fn write_gateway(gateway: &Gateway, buffer: &mut [u8]) {
    let Gateway { phase, ending, version, size, length, code } = gateway;
    let length = (*length as u64).to_be_bytes();
    let bytes =
        [&[*phase, *ending], &version[..], &size.to_be_bytes(), &length, &code.to_be_bytes()].concat();
    put(&bytes, buffer);
}

/// MD5's state at the front of a buffer. Any bytes are one.
pub fn read_state(buffer: &[u8]) -> Result<State, u8> {
    let mut fields = Fields(buffer.get(..MD5_STATE).ok_or(SHORT_RECORD)?);
    Ok(State {
        words: [(); 4].map(|()| u32::from_be_bytes(fields.take())),
        count: u64::from_be_bytes(fields.take()),
        block: fields.take(),
    })
}

/// Bytes behind the layout stay.
pub fn write_state(state: &State, buffer: &mut [u8]) {
    let State { words, count, block } = state;
    put(&[&words.map(u32::to_be_bytes).concat()[..], &count.to_be_bytes(), block].concat(), buffer);
}

/// Writes the front of a buffer; the rest stays.
pub fn put(bytes: &[u8], buffer: &mut [u8]) {
    buffer[..bytes.len()].copy_from_slice(bytes);
}
