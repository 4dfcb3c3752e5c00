//! The two sides that are compared, behind the same calls; and ends that record what a side answers, or replay it.

use pcp::{Condition, Facts, InstallCode, Refusal};

/// The version on the device, and that of the package.
const RUNNING: &[u8] = b"V1.0";
const TARGET: &[u8] = b"V2.0";

/// A reply, empty if there is none, or the number of why the call was refused.
pub type Answer<'a> = Result<&'a [u8], u8>;

/// What a device's host lends to each call.
pub struct Memory {
    pub image: Vec<u8>,
    pub map: Vec<u8>,
}

impl Memory {
    /// For a package. All bytes are written, so that the system has no pages to bring while timing.
    pub fn new(size: u16, package: &[u8]) -> Memory {
        let total = fragments(size, package);
        Memory { image: vec![0xEE; usize::from(size) * total], map: vec![0xEE; (total + 7) / 8] }
    }
}

/// How many fragments a package has.
pub fn fragments(size: u16, package: &[u8]) -> usize {
    package.chunks(size.into()).len()
}

pub trait DeviceEnd {
    fn receive<'a>(&'a mut self, message: &[u8], memory: &mut Memory, reply: &'a mut [u8]) -> Answer<'a>;
    fn next_message<'a>(&'a mut self, memory: &Memory, reply: &'a mut [u8]) -> Answer<'a>;
    fn install_finished(&mut self, code: InstallCode) -> Result<(), u8>;
}

pub trait GatewayEnd {
    fn receive<'a>(&'a mut self, message: &[u8], package: &[u8], reply: &'a mut [u8]) -> Answer<'a>;
    fn next_message<'a>(&'a mut self, package: &[u8], reply: &'a mut [u8]) -> Answer<'a>;
}

pub trait Side {
    type Device: DeviceEnd + Clone;
    type Gateway: GatewayEnd + Clone;
    fn check(bytes: &[u8]) -> u16;
    fn device() -> Self::Device;
    fn gateway(size: u16, package: &[u8]) -> Self::Gateway;
}

/// The proved library, through its safe wrapper.
pub struct Library;

impl Side for Library {
    type Device = pcp::Device;
    type Gateway = pcp::Gateway;

    fn check(bytes: &[u8]) -> u16 {
        pcp::check_of_bytes(bytes)
    }

    fn device() -> pcp::Device {
        pcp::Device::new(RUNNING).expect("a version text")
    }

    fn gateway(size: u16, package: &[u8]) -> pcp::Gateway {
        pcp::Gateway::start(TARGET, size, package, true).expect("a package")
    }
}

/// Nothing to send is a number here, as plain Rust has it.
fn asked(message: Result<Option<&[u8]>, Refusal>) -> Answer<'_> {
    message.and_then(|message| message.ok_or(Refusal::NoUse)).map_err(u8::from)
}

impl DeviceEnd for pcp::Device {
    fn receive<'a>(&'a mut self, message: &[u8], memory: &mut Memory, reply: &'a mut [u8]) -> Answer<'a> {
        let (image, map) = (&mut memory.image, &mut memory.map);
        let answer = self.receive(Facts::BOTH, Condition::Ready, message, image, map, reply);
        answer.map(|answer| answer.reply.unwrap_or_default()).map_err(u8::from)
    }

    fn next_message<'a>(&'a mut self, memory: &Memory, reply: &'a mut [u8]) -> Answer<'a> {
        asked(pcp::Device::next_message(self, &memory.image, &memory.map, reply))
    }

    fn install_finished(&mut self, code: InstallCode) -> Result<(), u8> {
        self.install_finished(code).map_err(u8::from)
    }
}

impl GatewayEnd for pcp::Gateway {
    fn receive<'a>(&'a mut self, message: &[u8], package: &[u8], reply: &'a mut [u8]) -> Answer<'a> {
        let answer = self.receive(Facts::BOTH, message, package, reply);
        answer.map(|answer| answer.reply.unwrap_or_default()).map_err(u8::from)
    }

    fn next_message<'a>(&'a mut self, package: &[u8], reply: &'a mut [u8]) -> Answer<'a> {
        asked(pcp::Gateway::next_message(self, package, reply))
    }
}

/// Plain Rust.
pub struct Plain;

const BOTH_FACTS: plain::message::Facts = plain::message::Facts { supported: true, pcp: true };

impl Side for Plain {
    type Device = plain::Device;
    type Gateway = plain::Gateway;

    fn check(bytes: &[u8]) -> u16 {
        plain::check::check(bytes)
    }

    fn device() -> plain::Device {
        plain::Device::new(filled_up(RUNNING)).expect("a version text")
    }

    fn gateway(size: u16, package: &[u8]) -> plain::Gateway {
        plain::Gateway::start(filled_up(TARGET), size, package, true).expect("a package")
    }
}

fn filled_up(text: &[u8]) -> plain::message::Version {
    let mut version = [0; 16];
    version[..text.len()].copy_from_slice(text);
    version
}

impl DeviceEnd for plain::Device {
    fn receive<'a>(&'a mut self, message: &[u8], memory: &mut Memory, reply: &'a mut [u8]) -> Answer<'a> {
        let condition = Condition::Ready.into();
        self.receive(BOTH_FACTS, condition, message, &mut memory.image, &mut memory.map, reply)
    }

    fn next_message<'a>(&'a mut self, memory: &Memory, reply: &'a mut [u8]) -> Answer<'a> {
        plain::Device::next_message(self, &memory.image, &memory.map, reply)
    }

    fn install_finished(&mut self, code: InstallCode) -> Result<(), u8> {
        self.install_finished(code.into())
    }
}

impl GatewayEnd for plain::Gateway {
    fn receive<'a>(&'a mut self, message: &[u8], package: &[u8], reply: &'a mut [u8]) -> Answer<'a> {
        self.receive(BOTH_FACTS, message, package, reply)
    }

    fn next_message<'a>(&'a mut self, package: &[u8], reply: &'a mut [u8]) -> Answer<'a> {
        plain::Gateway::next_message(self, package, reply)
    }
}

/// All that an end answered, in order.
pub type Answers = Vec<Result<Vec<u8>, u8>>;

/// An end that keeps what it answers.
pub struct Recording<E> {
    end: E,
    pub answers: Answers,
}

impl<E> Recording<E> {
    pub fn new(end: E) -> Recording<E> {
        Recording { end, answers: Vec::new() }
    }
}

fn kept<'a>(answers: &mut Answers, answer: Answer<'a>) -> Answer<'a> {
    answers.push(answer.map(<[u8]>::to_vec));
    answer
}

impl<E: DeviceEnd> DeviceEnd for Recording<E> {
    fn receive<'a>(&'a mut self, message: &[u8], memory: &mut Memory, reply: &'a mut [u8]) -> Answer<'a> {
        kept(&mut self.answers, self.end.receive(message, memory, reply))
    }

    fn next_message<'a>(&'a mut self, memory: &Memory, reply: &'a mut [u8]) -> Answer<'a> {
        kept(&mut self.answers, self.end.next_message(memory, reply))
    }

    fn install_finished(&mut self, code: InstallCode) -> Result<(), u8> {
        self.end.install_finished(code)
    }
}

impl<E: GatewayEnd> GatewayEnd for Recording<E> {
    fn receive<'a>(&'a mut self, message: &[u8], package: &[u8], reply: &'a mut [u8]) -> Answer<'a> {
        kept(&mut self.answers, self.end.receive(message, package, reply))
    }

    fn next_message<'a>(&'a mut self, package: &[u8], reply: &'a mut [u8]) -> Answer<'a> {
        kept(&mut self.answers, self.end.next_message(package, reply))
    }
}

/// An end that answers as recorded, at next to no cost, so that the other end is timed alone.
pub struct Replay<'r> {
    answers: std::slice::Iter<'r, Result<Vec<u8>, u8>>,
}

impl<'r> Replay<'r> {
    pub fn new(answers: &'r Answers) -> Replay<'r> {
        Replay { answers: answers.iter() }
    }

    fn next(&mut self) -> Answer<'r> {
        let answer = self.answers.next().expect("an answer for each call");
        answer.as_deref().map_err(|number| *number)
    }
}

impl DeviceEnd for Replay<'_> {
    fn receive<'a>(&'a mut self, _: &[u8], _: &mut Memory, _: &'a mut [u8]) -> Answer<'a> {
        self.next()
    }

    fn next_message<'a>(&'a mut self, _: &Memory, _: &'a mut [u8]) -> Answer<'a> {
        self.next()
    }

    fn install_finished(&mut self, _: InstallCode) -> Result<(), u8> {
        Ok(())
    }
}

impl GatewayEnd for Replay<'_> {
    fn receive<'a>(&'a mut self, _: &[u8], _: &[u8], _: &'a mut [u8]) -> Answer<'a> {
        self.next()
    }

    fn next_message<'a>(&'a mut self, _: &[u8], _: &'a mut [u8]) -> Answer<'a> {
        self.next()
    }
}
