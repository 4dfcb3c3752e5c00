//! Writes the sample captures and what the programs replay and decode print for them into a folder; of one that is damaged in several
//! places also what the mend program writes, and tells; of one whose download is damaged also the package, its MD5 as md5sum
//! prints it, and what a device answers to which that digest was given.

mod reading;
mod support;

use reading::capture::{mend, Item, Reader};
use reading::decode::decode;
use reading::device::READY;
use reading::md5::md5;
use reading::message::{ANNOUNCE, BOTH_FACTS, DEVICE_ROOM};
use reading::replay::{hex, replay, run, Replay};
use std::path::Path;
use std::{env, fs, io, process};
use support::captures::{self, SAMPLE_SEED};

fn samples() -> [(&'static str, Vec<u8>); 8] {
    [
        ("four-records", captures::four_records()),
        ("full-download", captures::full_download(SAMPLE_SEED)),
        ("large-fragments", captures::large_fragments()),
        ("recut", captures::recut(SAMPLE_SEED)),
        ("recut-repeated", captures::recut_repeated(SAMPLE_SEED)),
        ("reserved-bits", captures::reserved_bits()),
        ("damaged", captures::damaged()),
        ("cut", captures::cut()),
    ]
}

fn write_samples(folder: &Path) -> io::Result<()> {
    fs::create_dir_all(folder)?;
    let write =
        |name: &str, kind: &str, bytes: &[u8]| fs::write(folder.join(format!("{name}.{kind}")), bytes);
    let write_capture = |name: &str, capture: &[u8]| {
        write(name, "capture", capture)?;
        write(name, "expected", replay(capture).as_bytes())?;
        write(name, "decoded", decode(capture).as_bytes())
    };
    for (name, capture) in samples() {
        write_capture(name, &capture)?;
    }
    let (name, capture) = ("three-damages", captures::damaged_in_three_places());
    let (mended, told) = mend(&capture);
    write_capture(name, &capture)?;
    write(name, "mended", &mended)?;
    write(name, "told", told.as_bytes())?;
    let (name, (package, capture)) = ("unseen-damage", captures::unseen_damage());
    let digest = md5(&package);
    write(name, "package", &package)?;
    write(name, "md5", format!("{}  {name}.package\n", hex(&digest).to_lowercase()).as_bytes())?;
    write_capture(name, &capture)?;
    write(name, "failed", replay_with(digest, &capture).as_bytes())
}

/// What replay would print if its host knew the package's digest, and gave it when a download has begun.
fn replay_with(digest: [u8; 16], capture: &[u8]) -> String {
    let Replay { mut device, mut image, mut map, mut text } = run(&[]);
    let mut reader = Reader::new(capture);
    for place in 0.. {
        let message = match reader.next_record() {
            Item::Record { toward_device: true, message } => message,
            Item::Record { .. } => continue,
            _ => break,
        };
        let before = device.clone();
        let answer = device.receive(message, BOTH_FACTS, READY, &mut image, &mut map, DEVICE_ROOM);
        let reply = if answer.reply.is_empty() { "-".to_string() } else { hex(&answer.reply) };
        text += &format!("{place} {} {} {reply}\n", answer.number, device.phase);
        if message[3] == ANNOUNCE && device != before {
            assert_eq!(device.give_digest(digest), 0, "a download has begun");
        }
    }
    text
}

fn main() {
    let folder = env::args_os().nth(1).unwrap_or_else(|| {
        eprintln!("usage: samples FOLDER");
        process::exit(2);
    });
    if let Err(error) = write_samples(Path::new(&folder)) {
        eprintln!("samples: {}", error);
        process::exit(1);
    }
}
