//! Version texts with one byte at the edges of what they may hold, at every place, wherever a version is read.

use super::{Call, Lent, Memory};
use crate::reading::device::{Device, LOADED, READY};
use crate::reading::gateway::{Gateway, SERVE};
use crate::reading::layout::{write_device, write_gateway, DEVICE_RECORD, GATEWAY_RECORD};
use crate::reading::message::{encode, Version, FRAGMENT, GATEWAY_ROOM, QUERY, UPGRADE_RESULT};
use crate::reading::number;
use crate::support::messages::any_announce;
use crate::support::version;

/// The bytes next to those that a text may hold, and some further ones.
pub const OUTSIDE: [u8; 12] = [0x20, 0x2C, 0x2F, 0x3A, 0x40, 0x5B, 0x5E, 0x60, 0x7B, 0x7F, 0x80, 0xFF];
/// The first and the last of each kind that it may hold.
pub const INSIDE: [u8; 9] = [0x2D, 0x2E, 0x30, 0x39, 0x41, 0x5A, 0x5F, 0x61, 0x7A];

const PACKAGE: usize = 33;
const SIZE: u16 = 32;
const FACTS: [u8; 2] = [1, 1];

/// Where a version is read, and the number that refuses a bad one there.
#[derive(Clone, Copy, Debug, PartialEq, Eq)]
pub enum Carrier {
    Announcement,
    QueryReply,
    FragmentRequest,
    UpgradeResult,
    Making,
    Start,
    Running,
    Target,
    Package,
}

impl Carrier {
    pub const ALL: [Carrier; 9] = [
        Carrier::Announcement,
        Carrier::QueryReply,
        Carrier::FragmentRequest,
        Carrier::UpgradeResult,
        Carrier::Making,
        Carrier::Start,
        Carrier::Running,
        Carrier::Target,
        Carrier::Package,
    ];

    pub fn name(self) -> &'static str {
        match self {
            Carrier::Announcement => "text in an announcement",
            Carrier::QueryReply => "text in a query reply",
            Carrier::FragmentRequest => "text in a fragment request",
            Carrier::UpgradeResult => "text in an upgrade result",
            Carrier::Making => "text at the making",
            Carrier::Start => "text at the start",
            Carrier::Running => "running version in a record",
            Carrier::Target => "target in a record",
            Carrier::Package => "version in the gateway's record",
        }
    }

    fn refusal(self) -> u8 {
        match self {
            Carrier::Announcement
            | Carrier::QueryReply
            | Carrier::FragmentRequest
            | Carrier::UpgradeResult => number::DATA,
            Carrier::Making | Carrier::Start => number::VERSION_TEXT,
            Carrier::Running | Carrier::Target | Carrier::Package => number::RECORD,
        }
    }

    /// A call in which this text is the only fault, if it is one.
    fn call(self, text: Version) -> (Call, Memory) {
        let mut device = Device {
            phase: LOADED,
            running: version("V0.9"),
            version: version("V1.0"),
            size: SIZE,
            total: 2,
            stored: 2,
            last: 1,
            ..Device::default()
        };
        let mut gateway = Gateway {
            phase: SERVE,
            version: version("V1.0"),
            size: SIZE,
            length: PACKAGE,
            ..Gateway::default()
        };
        let to_device = Call::DeviceReceive { facts: FACTS, condition: READY };
        let to_gateway = Call::GatewayReceive { facts: FACTS };
        let (call, input) = match self {
            Carrier::Announcement => (to_device, any_announce(text, SIZE, 1, 0)),
            Carrier::QueryReply => (to_gateway, encode(QUERY, &[&[0x00], &text[..]].concat())),
            Carrier::FragmentRequest => (to_gateway, encode(FRAGMENT, &[&text[..], &[0, 0]].concat())),
            Carrier::UpgradeResult => (to_gateway, encode(UPGRADE_RESULT, &[&[0x00], &text[..]].concat())),
            Carrier::Making => (Call::DeviceNew, text.to_vec()),
            Carrier::Start => (Call::GatewayStart { size: SIZE, checked: 1 }, text.to_vec()),
            Carrier::Running => {
                device.running = text;
                (Call::DeviceNextMessage, Vec::new())
            }
            Carrier::Target => {
                device.version = text;
                (Call::DeviceNextMessage, Vec::new())
            }
            Carrier::Package => {
                gateway.version = text;
                (Call::GatewayNextMessage, Vec::new())
            }
        };
        let mut memory = Memory {
            input,
            device: vec![0; DEVICE_RECORD],
            image: vec![0x5A; usize::from(SIZE) * 2],
            map: vec![0xFF; 1],
            gateway: vec![0; GATEWAY_RECORD],
            package: vec![0x5A; PACKAGE],
            state: Vec::new(),
            reply: vec![0x55; GATEWAY_ROOM],
        };
        write_device(&device, &mut memory.device);
        write_gateway(&gateway, &mut memory.gateway);
        (call, memory)
    }
}

/// One call of the sweep.
pub struct Text {
    pub carrier: Carrier,
    pub byte: u8,
    pub place: u8,
    pub call: Call,
    pub lent: Lent,
    pub memory: Memory,
}

impl Text {
    fn new(carrier: Carrier, byte: u8, place: u8) -> Text {
        let mut text = [b'x'; 16];
        text[usize::from(place)] = byte;
        let (call, memory) = carrier.call(text);
        let record = if call.is_at_gateway() { GATEWAY_RECORD } else { DEVICE_RECORD };
        let lent = Lent {
            record,
            image: memory.image.len(),
            map: memory.map.len(),
            package: memory.package.len(),
            reply: memory.reply.len(),
        };
        Text { carrier, byte, place, call, lent, memory }
    }

    /// Whether this number tells what the byte is.
    pub fn is_told(&self, number: u8) -> bool {
        (number == self.carrier.refusal()) == OUTSIDE.contains(&self.byte)
    }
}

/// Each byte at each place of a text of 16, for each that carries one.
pub fn all() -> impl Iterator<Item = Text> {
    let bytes = || OUTSIDE.into_iter().chain(INSIDE);
    Carrier::ALL.into_iter().flat_map(move |carrier| {
        bytes().flat_map(move |byte| (0..16).map(move |place| Text::new(carrier, byte, place)))
    })
}
