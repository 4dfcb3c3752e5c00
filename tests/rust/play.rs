//! `play CAPTURE [DIGEST]` plays a capture to a device of the library, through the crate for hosts, and prints what the
//! replay program prints. With a digest, 32 hex digits as md5sum prints them, its host knows the MD5 of the package and gives it
//! when an announcement has begun a download: replay knows no digests.

mod reading;
mod support;

use pcp::capture::{Direction, Reader, Record};
use pcp::{Code, Condition, Device, Facts, DEVICE_REPLY, DIGEST_LENGTH};
use reading::replay::{hex, IMAGE_LENGTH, INPUT_LIMIT, MAP_LENGTH};
use std::process::ExitCode;
use std::{env, fs};
use support::bytes;

type Digest = [u8; DIGEST_LENGTH];

struct Host {
    device: Device,
    image: Vec<u8>,
    map: Vec<u8>,
    digest: Option<Digest>,
}

impl Host {
    fn new(digest: Option<Digest>) -> Host {
        let device = Device::new(b"V0.9").expect("a version text");
        Host { device, image: vec![0; IMAGE_LENGTH], map: vec![0; MAP_LENGTH], digest }
    }

    /// A message arrives: number, phase and reply.
    fn receive(&mut self, message: &[u8]) -> String {
        let mut buffer = [0; DEVICE_REPLY];
        let (image, map) = (&mut self.image, &mut self.map);
        let answer = self.device.receive(Facts::BOTH, Condition::Ready, message, image, map, &mut buffer);
        let (number, reply, changed) = match answer {
            Ok(answer) => (0, answer.reply.map_or("-".to_string(), hex), answer.changed),
            Err(refusal) => (u8::from(refusal), "-".to_string(), false),
        };
        if let (Some(digest), Some(Code::Announce), true) = (&self.digest, Code::of(message), changed) {
            self.device.give_digest(digest).expect("a download has begun");
        }
        format!("{number} {} {reply}", u8::from(self.device.phase()))
    }
}

fn played(capture: &[u8], digest: Option<Digest>) -> String {
    if capture.len() > INPUT_LIMIT {
        return "21\n".to_string();
    }
    let (mut host, mut reader) = (Host::new(digest), Reader::new(capture));
    let mut lines = String::new();
    for place in 0.. {
        match reader.next_record() {
            Ok(Some(Record { direction: Direction::ToDevice, message })) => {
                lines += &format!("{place} {}\n", host.receive(message));
            }
            Ok(Some(_)) => {}
            Ok(None) => break,
            Err(refusal) => {
                lines += &format!("{}\n", u8::from(refusal));
                break;
            }
        }
    }
    lines
}

fn arguments() -> Option<(String, Option<Digest>)> {
    let arguments: Vec<String> = env::args().skip(1).collect();
    match &arguments[..] {
        [capture] => Some((capture.clone(), None)),
        [capture, digest] if digest.bytes().all(|figure| figure.is_ascii_hexdigit()) => {
            Some((capture.clone(), Some(bytes(digest).try_into().ok()?)))
        }
        _ => None,
    }
}

fn main() -> ExitCode {
    let (path, digest) = match arguments() {
        Some(arguments) => arguments,
        None => {
            eprintln!("usage: play CAPTURE [DIGEST]");
            return ExitCode::from(2);
        }
    };
    match fs::read(&path) {
        Ok(capture) => {
            print!("{}", played(&capture, digest));
            ExitCode::SUCCESS
        }
        Err(error) => {
            eprintln!("play: {path}: {error}");
            ExitCode::FAILURE
        }
    }
}
