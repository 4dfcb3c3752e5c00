//! Calls through the library's boundary, made at the library and at the reading, and compared whole.

// Each program uses a part of it.
#![allow(dead_code)]

pub mod comparison;
pub mod coverage;
pub mod library;
pub mod messages;
pub mod run;
pub mod texts;
pub mod wrapper;

use crate::reading::boundary::Boundary;

/// Every byte that a host lends, at both ends.
#[derive(Clone, Debug, Default, PartialEq, Eq)]
pub struct Memory {
    /// What the call is given: a message, a version text, a digest, or bytes to be checked or digested.
    pub input: Vec<u8>,
    pub device: Vec<u8>,
    pub image: Vec<u8>,
    pub map: Vec<u8>,
    pub gateway: Vec<u8>,
    pub package: Vec<u8>,
    /// MD5's.
    pub state: Vec<u8>,
    /// Also for a digest.
    pub reply: Vec<u8>,
}

impl Memory {
    pub fn buffers(&self) -> [(&'static str, &[u8]); 8] {
        [
            ("input", &self.input),
            ("device", &self.device),
            ("image", &self.image),
            ("map", &self.map),
            ("gateway", &self.gateway),
            ("package", &self.package),
            ("state", &self.state),
            ("reply", &self.reply),
        ]
    }

    /// As `clone_from`, but into the buffers that are there.
    pub fn copy_from(&mut self, other: &Memory) {
        self.input.clone_from(&other.input);
        self.device.clone_from(&other.device);
        self.image.clone_from(&other.image);
        self.map.clone_from(&other.map);
        self.gateway.clone_from(&other.gateway);
        self.package.clone_from(&other.package);
        self.state.clone_from(&other.state);
        self.reply.clone_from(&other.reply);
    }
}

/// How many bytes of each buffer are lent. The input is always lent whole.
#[derive(Clone, Copy, Debug, PartialEq, Eq)]
pub struct Lent {
    /// Of the end's record, or of MD5's state.
    pub record: usize,
    pub image: usize,
    pub map: usize,
    pub package: usize,
    pub reply: usize,
}

/// A function with its arguments that are no buffers.
#[derive(Clone, Copy, Debug, PartialEq, Eq)]
pub enum Call {
    Check,
    MessageCheck,
    Recognise { facts: [u8; 2] },
    DeviceNew,
    DeviceReceive { facts: [u8; 2], condition: u8 },
    DeviceNextMessage,
    DeviceInstallFinished { code: u8 },
    DeviceGiveDigest,
    GatewayStart { size: u16, checked: u8 },
    GatewayReceive { facts: [u8; 2] },
    GatewayNextMessage,
    Md5,
    Md5New,
    Md5Feed,
    Md5Finish,
}

impl Call {
    pub fn is_at_gateway(&self) -> bool {
        matches!(self, Call::GatewayStart { .. } | Call::GatewayReceive { .. } | Call::GatewayNextMessage)
    }

    pub fn is_of_md5(&self) -> bool {
        matches!(self, Call::Md5 | Call::Md5New | Call::Md5Feed | Call::Md5Finish)
    }

    pub fn has_reply(&self) -> bool {
        matches!(
            self,
            Call::DeviceReceive { .. }
                | Call::DeviceNextMessage
                | Call::GatewayReceive { .. }
                | Call::GatewayNextMessage
        )
    }

    /// Makes the call. A result of fewer bits is widened.
    pub fn make(&self, boundary: &impl Boundary, lent: &Lent, memory: &mut Memory) -> u32 {
        let record = if self.is_at_gateway() {
            &mut memory.gateway
        } else if self.is_of_md5() {
            &mut memory.state
        } else {
            &mut memory.device
        };
        let record = &mut record[..lent.record];
        let input = &memory.input[..];
        let image = &mut memory.image[..lent.image];
        let map = &mut memory.map[..lent.map];
        let package = &memory.package[..lent.package];
        let reply = &mut memory.reply[..lent.reply];
        match *self {
            Call::Check => boundary.check(input).into(),
            Call::MessageCheck => boundary.message_check(input).into(),
            Call::Recognise { facts } => boundary.recognise(facts, input).into(),
            Call::DeviceNew => boundary.device_new(record, input).into(),
            Call::DeviceReceive { facts, condition } => {
                boundary.device_receive(record, facts, condition, input, image, map, reply)
            }
            Call::DeviceNextMessage => boundary.device_next_message(record, image, map, reply),
            Call::DeviceInstallFinished { code } => boundary.device_install_finished(record, code).into(),
            Call::DeviceGiveDigest => boundary.device_give_digest(record, input).into(),
            Call::GatewayStart { size, checked } => {
                boundary.gateway_start(record, input, size, package, checked).into()
            }
            Call::GatewayReceive { facts } => boundary.gateway_receive(record, facts, input, package, reply),
            Call::GatewayNextMessage => boundary.gateway_next_message(record, package, reply),
            Call::Md5 => boundary.md5(input, reply).into(),
            Call::Md5New => boundary.md5_new(record).into(),
            Call::Md5Feed => boundary.md5_feed(record, input).into(),
            Call::Md5Finish => boundary.md5_finish(record, reply).into(),
        }
    }
}
