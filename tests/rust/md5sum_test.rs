//! `md5sum_test FOLDER` holds MD5 against md5sum, Debian's (coreutils), on files of many lengths, which it writes into the
//! folder and removes again. What md5sum prints for a file must be the digest of it by the reading and by the library, whole
//! and in pieces; and given to a device that downloads the file through the library it must end the download in Loaded, and
//! in Failed with one bit changed.

mod reading;
mod support;

use pcp::md5 as library_md5;
use pcp::{Condition, Device, DevicePhase, Facts, DEVICE_REPLY, DIGEST_LENGTH};
use reading::md5::md5;
use std::collections::BTreeSet;
use std::path::{Path, PathBuf};
use std::process::{Command, ExitCode};
use std::{env, fs};
use support::messages::{announce, fragment};
use support::random::Random;
use support::{bytes, version};

type Digest = [u8; DIGEST_LENGTH];

const MIB: usize = 1 << 20;

/// Files of up to this length are downloaded in every size, and with each bit of the digest changed.
const SHORT: usize = 300;

/// Every length up to 200; then about multiples of 64, the length of a block: from 56 bytes behind one on, the padding
/// needs a block more.
fn lengths() -> BTreeSet<usize> {
    let short = 0..=200;
    let multiples = [4, 7, 8, 15, 16, 17, 31, 32, 33, 64, 100, 1_000].map(|blocks| 64 * blocks);
    let long = [MIB, 8 * MIB];
    let about = |at: usize| [at - 9, at - 8, at - 1, at, at + 1, at + 55, at + 56];
    short.chain(multiples.into_iter().chain(long).flat_map(about)).collect()
}

/// What md5sum prints for these files.
fn md5sums(files: &[PathBuf]) -> Result<Vec<Digest>, String> {
    let output = Command::new("md5sum").args(files).output().map_err(|error| format!("md5sum: {error}"))?;
    let printed = String::from_utf8_lossy(&output.stdout);
    let digest = |line: &str| bytes(line.get(..2 * DIGEST_LENGTH)?).try_into().ok();
    let digests: Option<Vec<Digest>> = printed.lines().map(digest).collect();
    match digests {
        Some(digests) if output.status.success() && digests.len() == files.len() => Ok(digests),
        _ => Err(format!("md5sum: {} and {printed}", output.status)),
    }
}

/// A device that has all of a package but one fragment.
struct Download {
    device: Device,
    image: Vec<u8>,
    map: Vec<u8>,
    missing: Vec<u8>,
}

/// A message arrives.
fn receive(device: &mut Device, message: &[u8], image: &mut [u8], map: &mut [u8]) {
    let mut reply = [0; DEVICE_REPLY];
    let answer = device.receive(Facts::BOTH, Condition::Ready, message, image, map, &mut reply);
    answer.expect("the device takes the message");
}

impl Download {
    /// With an odd length the first fragment is missing, else the last.
    fn new(package: &[u8], size: u16, code: u16) -> Download {
        let mut fragments: Vec<Vec<u8>> = package
            .chunks(size.into())
            .enumerate()
            .map(|(index, data)| fragment(index as u16, data))
            .collect();
        let total = fragments.len();
        let missing = fragments.remove(if package.len() % 2 == 1 { 0 } else { total - 1 });
        let mut device = Device::new(b"V0.9").expect("a version text");
        let mut image = vec![0xEE; usize::from(size) * total];
        let mut map = vec![0xEE; (total + 7) / 8];
        receive(&mut device, &announce(version("V1.0"), size, total as u16, code), &mut image, &mut map);
        for message in fragments {
            receive(&mut device, &message, &mut image, &mut map);
        }
        assert_eq!(device.phase(), DevicePhase::Loading, "a fragment is missing");
        Download { device, image, map, missing }
    }

    /// The phase in which the download ends with this digest. Record and map are set back.
    fn ending(&mut self, digest: &Digest) -> DevicePhase {
        let (mut device, mut map) = (self.device.clone(), self.map.clone());
        device.give_digest(digest).expect("a digest is taken in Loading");
        receive(&mut device, &self.missing, &mut self.image, &mut map);
        device.phase()
    }
}

#[derive(Default)]
struct Tally {
    given: usize,
    different: usize,
}

impl Tally {
    fn same(&mut self, what: &str, length: usize, is_same: bool) {
        if !is_same {
            self.different += 1;
            println!("{what}, of {length} bytes");
        }
    }

    /// Downloads the file, with its check as the code and without one: md5sum's digest is the image's, and no other.
    fn download(&mut self, package: &[u8], digest: Digest) {
        let (short, long) = ([32, 33, 64, 100, 500, 1_024], [1_024]);
        let is_short = package.len() <= SHORT;
        for &size in if is_short { &short[..] } else { &long } {
            for code in [pcp::check_of_bytes(package), 0] {
                let mut download = Download::new(package, size, code);
                self.given += 1;
                self.same(
                    "md5sum's digest fails",
                    package.len(),
                    download.ending(&digest) == DevicePhase::Loaded,
                );
                for bit in (0..8 * DIGEST_LENGTH).step_by(if is_short { 1 } else { 63 }) {
                    let mut other = digest;
                    other[bit / 8] ^= 1 << (bit % 8);
                    self.given += 1;
                    self.same(
                        "another digest passes",
                        package.len(),
                        download.ending(&other) == DevicePhase::Failed,
                    );
                }
            }
        }
    }
}

/// The library's digest of the content, fed in pieces of up to 200 bytes, and of half of what is left now and then.
fn in_pieces(content: &[u8]) -> Digest {
    let mut random = Random::new(content.len() as u64);
    let mut state = library_md5::Md5::new();
    let mut rest = content;
    while !rest.is_empty() {
        let most = if random.once_in(10) { rest.len() / 2 } else { 200 };
        let (piece, behind) = rest.split_at(random.between(0..=most).min(rest.len()));
        state.feed(piece);
        rest = behind;
    }
    state.finish()
}

fn run(folder: &Path) -> Result<(usize, Tally), String> {
    let contents: Vec<Vec<u8>> =
        lengths().into_iter().map(|length| Random::new(length as u64).bytes(length)).collect();
    let files: Vec<PathBuf> =
        contents.iter().map(|content| folder.join(format!("{}-bytes", content.len()))).collect();
    fs::create_dir_all(folder).map_err(|error| error.to_string())?;
    for (file, content) in files.iter().zip(&contents) {
        fs::write(file, content).map_err(|error| format!("{}: {error}", file.display()))?;
    }
    let digests = md5sums(&files)?;
    for file in &files {
        fs::remove_file(file).map_err(|error| format!("{}: {error}", file.display()))?;
    }
    let mut tally = Tally::default();
    for (content, digest) in contents.iter().zip(digests) {
        tally.same("md5sum's digest is not the reading's", content.len(), md5(content) == digest);
        tally.same("md5sum's digest is not the library's", content.len(), library_md5::digest(content) == digest);
        tally.same("md5sum's digest is not that of pieces", content.len(), in_pieces(content) == digest);
        if !content.is_empty() {
            tally.download(content, digest);
        }
    }
    Ok((contents.len(), tally))
}

fn main() -> ExitCode {
    let folder = match env::args_os().nth(1) {
        Some(folder) => PathBuf::from(folder),
        None => {
            eprintln!("usage: md5sum_test FOLDER");
            return ExitCode::from(2);
        }
    };
    match run(&folder) {
        Ok((files, Tally { given, different })) => {
            println!("md5sum: {files} files, {given} digests given, {different} different");
            ExitCode::from(u8::from(different > 0))
        }
        Err(error) => {
            eprintln!("md5sum_test: {error}");
            ExitCode::FAILURE
        }
    }
}
