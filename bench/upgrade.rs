//! A whole upgrade without losses: both ends, and the link between them.

use crate::ends::{
    fragments, Answers, DeviceEnd, GatewayEnd, Library, Memory, Plain, Recording, Replay, Side,
};
use crate::measure::{compare, timed, Times};
use pcp::{InstallCode, Refusal, DEVICE_REPLY, GATEWAY_REPLY};
use std::time::Duration;

struct Link<'a, D, G> {
    device: &'a mut D,
    gateway: &'a mut G,
    package: &'a [u8],
    memory: &'a mut Memory,
    from_device: [u8; DEVICE_REPLY],
    from_gateway: [u8; GATEWAY_REPLY],
}

impl<'a, D: DeviceEnd, G: GatewayEnd> Link<'a, D, G> {
    fn new(
        device: &'a mut D,
        gateway: &'a mut G,
        package: &'a [u8],
        memory: &'a mut Memory,
    ) -> Link<'a, D, G> {
        let (from_device, from_gateway) = ([0; DEVICE_REPLY], [0; GATEWAY_REPLY]);
        Link { device, gateway, package, memory, from_device, from_gateway }
    }

    /// Query and announcement.
    fn offer(&mut self) {
        self.gateway_speaks();
        self.gateway_speaks();
    }

    /// The gateway is asked; its message and the reply arrive.
    fn gateway_speaks(&mut self) {
        let message = self.gateway.next_message(self.package, &mut self.from_gateway);
        let message = message.expect("the gateway has something to send");
        let reply = self.device.receive(message, self.memory, &mut self.from_device);
        let reply = reply.expect("the device takes it");
        self.gateway
            .receive(reply, self.package, &mut self.from_gateway)
            .expect("the gateway takes the reply");
    }

    /// The device is asked; its message and the reply arrive. No if it has nothing to send.
    fn device_speaks(&mut self) -> bool {
        let message = match self.device.next_message(self.memory, &mut self.from_device) {
            Err(number) if number == Refusal::NoUse.into() => return false,
            message => message.expect("the device can be asked"),
        };
        let reply = self.gateway.receive(message, self.package, &mut self.from_gateway);
        let reply = reply.expect("the gateway takes it");
        self.device.receive(reply, self.memory, &mut self.from_device).expect("the device takes the reply");
        true
    }
}

/// Both ends after the announcement: the device loads, and the gateway serves.
pub fn offered<S: Side>(size: u16, package: &[u8], memory: &mut Memory) -> (S::Device, S::Gateway) {
    let (mut device, mut gateway) = (S::device(), S::gateway(size, package));
    Link::new(&mut device, &mut gateway, package, memory).offer();
    (device, gateway)
}

/// Query, announcement, all fragments, the report that they are there, and the installation.
fn upgrade(device: &mut impl DeviceEnd, gateway: &mut impl GatewayEnd, package: &[u8], memory: &mut Memory) {
    let mut link = Link::new(device, gateway, package, memory);
    link.offer();
    while link.device_speaks() {}
    link.gateway_speaks();
    link.device.install_finished(InstallCode::Installed).expect("the device installs");
    assert!(link.device_speaks(), "the device reports");
}

/// What one side does in an upgrade.
#[derive(PartialEq)]
struct Record {
    device: Answers,
    gateway: Answers,
    image: Vec<u8>,
    map: Vec<u8>,
}

fn record<S: Side>(size: u16, package: &[u8]) -> Record {
    let mut memory = Memory::new(size, package);
    let mut device = Recording::new(S::device());
    let mut gateway = Recording::new(S::gateway(size, package));
    upgrade(&mut device, &mut gateway, package, &mut memory);
    Record { device: device.answers, gateway: gateway.answers, image: memory.image, map: memory.map }
}

/// Upgrades with this package: both ends, and each end alone while the other answers as recorded.
struct Upgrades<'a> {
    size: u16,
    package: &'a [u8],
    memory: Memory,
    seen: &'a Record,
}

impl Upgrades<'_> {
    fn both<S: Side>(&mut self) -> Duration {
        let (size, package) = (self.size, self.package);
        timed(|| upgrade(&mut S::device(), &mut S::gateway(size, package), package, &mut self.memory))
    }

    fn device<S: Side>(&mut self) -> Duration {
        let mut gateway = Replay::new(&self.seen.gateway);
        timed(|| upgrade(&mut S::device(), &mut gateway, self.package, &mut self.memory))
    }

    fn gateway<S: Side>(&mut self) -> Duration {
        let mut device = Replay::new(&self.seen.device);
        let (size, package) = (self.size, self.package);
        timed(|| upgrade(&mut device, &mut S::gateway(size, package), package, &mut self.memory))
    }
}

/// The comparison with both ends of a side; the others time one end.
pub const BOTH: &str = "both ends";

/// The times for each fragment.
pub fn compared(size: u16, package: &[u8], rounds: usize) -> [(&'static str, Times); 3] {
    let seen = &record::<Library>(size, package);
    assert!(*seen == record::<Plain>(size, package), "both give the same answers, image and map");
    assert!(seen.image.starts_with(package), "the package is on the device");

    let total = fragments(size, package);
    let start = || Upgrades { size, package, memory: Memory::new(size, package), seen };
    let (mut library, mut plain) = (start(), start());
    [
        (BOTH, compare(rounds, total, || library.both::<Library>(), || plain.both::<Plain>())),
        ("device alone", compare(rounds, total, || library.device::<Library>(), || plain.device::<Plain>())),
        (
            "gateway alone",
            compare(rounds, total, || library.gateway::<Library>(), || plain.gateway::<Plain>()),
        ),
    ]
}
