//! `upgrade [--capture FILE] [--digest HEX] PACKAGE [SEED [SIZE]]`,
//! `upgrade --udp device [OPTION VALUE].. FOLDER`,
//! `upgrade --udp gateway [OPTION VALUE].. FOLDER VERSION PACKAGE`
//!
//! Upgrades a simulated device from a package file, over a simulated link that loses, repeats, delays and reorders
//! messages, and is down at times. Either end's process is killed at times, between any two things that it does, and
//! started again from what it had saved. The seed, a number, fixes what goes wrong. The size is that of a fragment: as in
//! public platforms' packages, if none is given. With a file, the exchange is recorded there as a capture: what arrives at
//! the device, and what it sends. With a digest, the package's MD5 in 32 hex digits as md5sum prints it, the device tests
//! the image by that too. With `--udp` it is one end alone, over UDP: the module `udp`.
//!
//! This is an example of both hosts over the crate's drivers. Device and gateway know of each other only what the link
//! brings. What a host has to do, and can be copied:
//!
//! - `start`: start the driver, with what the slots hold
//! - `turn`: do what the driver tells, until it waits
//! - `receive`: hand in what arrived
//!
//! The rest is the simulation, and the account of it. hosts/c/upgrade.c is the same program in C, and prints the same.

mod udp;

use pcp::capture::{self, Direction};
use pcp::driver::{device_state, Config, DeviceAction, DeviceDriver, PackageDigest};
use pcp::driver::{GatewayAction, GatewayDriver, Outcome, GATEWAY_STATE};
use pcp::{Condition, Device, DevicePhase, GatewayPhase, InstallCode, Refusal, Version};
use pcp::{DIGEST_LENGTH, SIZE_MAX, SIZE_PUBLIC};
use std::fmt::Arguments;
use std::fs::{File, OpenOptions};
use std::io::{self, Read, Write};
use std::path::{Path, PathBuf};
use std::process::ExitCode;
use std::str::FromStr;
use std::{env, fmt};

/// The version on the device, and that of the package.
const RUNNING: &str = "V1.0";
const TARGET: &str = "V2.0";

const MOST_PACKAGE: u64 = SIZE_MAX as u64 * 65_535;
/// None of PCP is longer than `GATEWAY_REPLY`.
const MOST_MESSAGE: usize = 2_048;
/// The device's storage for a package.
const IMAGE_LENGTH: usize = 1 << 20;
const STATE_LENGTH: usize = device_state(IMAGE_LENGTH);
/// A byte of erased flash.
const ERASED: u8 = 0xFF;

/// Time passes in ticks.
type Ticks = u64;

type Digest = [u8; DIGEST_LENGTH];

/// The longest delay of a message on the link.
const LONGEST_DELAY: Ticks = 8;
/// What the installer takes.
const INSTALLATION: Ticks = 40;
/// How long the link is down.
const OUTAGE: Ticks = 300;
/// How long a process is away that was killed.
const AWAY: Ticks = 25;
/// Then the program gives up.
const MOST_TICKS: Ticks = 2_000_000;

/// How often things go wrong: once in so many times. A process is killed before something that it is to do.
const LOST: u64 = 6;
const REPEATED: u64 = 10;
const DOWN: u64 = 1_500;
const BUSY: u64 = 8;
const KILLED: u64 = 500;

/// Messages that the link can hold.
const IN_FLIGHT: usize = 64;

/// The times and limits of both ends. A digest is the package's, and so belongs to the version that this brings; the
/// driver gives it to the device.
fn settings(size: u16, digest: Option<Digest>) -> Result<Config, Failure> {
    let version =
        Version::new(TARGET.as_bytes()).map_err(|refusal| Failure::Call("Version::new", refusal))?;
    Ok(Config {
        retry: 20,
        quiet: 2 * LONGEST_DELAY + 1, // a message and its reply have come
        installation: 200,
        later: 50,
        linger: 200,
        time_limit: MOST_TICKS,
        size,
        digest: digest.map(|digest| PackageDigest { version, digest }),
        ..Config::default()
    })
}

const USAGE: &str = "usage: upgrade [--capture FILE] [--digest HEX] PACKAGE [SEED [SIZE]]
       upgrade --udp device [OPTION VALUE].. FOLDER
       upgrade --udp gateway [OPTION VALUE].. FOLDER VERSION PACKAGE
options with --udp: --ports DEVICE:GATEWAY, --lose PERCENT,
    --capture FILE, --digest VERSION:HEX, --size SIZE";

/// Why the program does not go on.
enum Failure {
    Usage,
    Read(PathBuf, io::Error),
    Write(PathBuf, io::Error),
    Port(u16, io::Error),
    /// Of the version, the size, the package, or what is lent.
    Start(Refusal),
    /// This program lends or states something wrong.
    Call(&'static str, Refusal),
}

impl fmt::Display for Failure {
    fn fmt(&self, f: &mut fmt::Formatter) -> fmt::Result {
        match self {
            Failure::Usage => f.write_str(USAGE),
            Failure::Read(path, error) => write!(f, "upgrade: cannot read {}: {}", path.display(), error),
            Failure::Write(path, error) => write!(f, "upgrade: cannot write {}: {}", path.display(), error),
            Failure::Port(port, error) => write!(f, "upgrade: port {}: {}", port, error),
            Failure::Start(refusal) => {
                write!(f, "upgrade: refused with {}, {}", u8::from(*refusal), refusal)
            }
            Failure::Call(call, refusal) => {
                write!(f, "upgrade: {} refused with {}, {}", call, u8::from(*refusal), refusal)
            }
        }
    }
}

/// One line of the account. That nobody reads it is no reason to stop.
fn tell(line: Arguments) {
    let _ = writeln!(io::stdout(), "{}", line);
}

/// Random numbers that a seed fixes (SplitMix64).
struct Random(u64);

impl Random {
    fn draw(&mut self) -> u64 {
        self.0 = self.0.wrapping_add(0x9E37_79B9_7F4A_7C15);
        let mut z = self.0;
        z = (z ^ (z >> 30)).wrapping_mul(0xBF58_476D_1CE4_E5B9);
        z = (z ^ (z >> 27)).wrapping_mul(0x94D0_49BB_1331_11EB);
        z ^ (z >> 31)
    }

    fn once_in(&mut self, times: u64) -> bool {
        self.draw() % times == 0
    }
}

#[derive(Clone, Copy, PartialEq, Eq)]
enum End {
    Device,
    Gateway,
}

struct Message {
    to: End,
    /// The tick of its arrival.
    due: Ticks,
    bytes: Vec<u8>,
}

struct Link {
    random: Random,
    down_until: Ticks,
    in_flight: Vec<Message>,
    sent: u64,
    lost: u64,
    repeated: u64,
}

impl Link {
    fn new(seed: u64) -> Link {
        Link { random: Random(seed), down_until: 0, in_flight: Vec::new(), sent: 0, lost: 0, repeated: 0 }
    }

    fn tick(&mut self, now: Ticks) {
        if now >= self.down_until && self.random.once_in(DOWN) {
            self.down_until = now + OUTAGE;
        }
    }

    fn send(&mut self, now: Ticks, to: End, bytes: &[u8]) {
        self.sent += 1;
        if now < self.down_until || self.random.once_in(LOST) {
            self.lost += 1;
            return;
        }
        self.launch(now, to, bytes);
        if self.random.once_in(REPEATED) {
            self.repeated += 1;
            self.launch(now, to, bytes);
        }
    }

    /// Each copy has a delay of its own, so that messages overtake each other. On a full link it is as good as lost.
    fn launch(&mut self, now: Ticks, to: End, bytes: &[u8]) {
        if self.in_flight.len() < IN_FLIGHT {
            let due = now + 1 + self.random.draw() % LONGEST_DELAY;
            self.in_flight.push(Message { to, due, bytes: bytes.to_vec() });
        }
    }

    /// Takes one message that is due.
    fn take(&mut self, now: Ticks) -> Option<Message> {
        let place = self.in_flight.iter().position(|message| message.due <= now)?;
        Some(self.in_flight.remove(place))
    }
}

/// Records an exchange as a capture, message by message: each at once, so that none is cut when the process is killed.
struct Recorder {
    path: PathBuf,
    file: File,
}

impl Recorder {
    /// Writes to a file that is opened so.
    fn new(path: &Path, options: &OpenOptions) -> Result<Recorder, Failure> {
        match options.open(path) {
            Ok(file) => Ok(Recorder { path: path.to_path_buf(), file }),
            Err(error) => Err(Failure::Write(path.to_path_buf(), error)),
        }
    }

    fn record(&mut self, direction: Direction, message: &[u8]) -> Result<(), Failure> {
        let mut record = [0; capture::HEADER + MOST_MESSAGE];
        let end = capture::write(direction, message, &mut record, 0)
            .map_err(|refusal| Failure::Call("capture::write", refusal))?;
        self.file.write_all(&record[..end]).map_err(|error| Failure::Write(self.path.clone(), error))
    }
}

/// There may be no capture.
fn record(recorder: &mut Option<Recorder>, direction: Direction, message: &[u8]) -> Result<(), Failure> {
    match recorder {
        Some(recorder) => recorder.record(direction, message),
        None => Ok(()),
    }
}

struct DeviceHost<'a> {
    config: &'a Config,
    /// None where the process does not run; then it starts at the time behind.
    driver: Option<DeviceDriver<Vec<u8>, Vec<u8>>>,
    up_at: Ticks,
    /// The one that runs.
    version: &'static str,
    flash: Vec<u8>,
    slots: [Vec<u8>; 2],
    /// When the installer will be done, if it is at work.
    installed_at: Option<Ticks>,
    /// Bytes of what was installed.
    installed: usize,
    random: Random,
    recorder: Option<Recorder>,
    stored: u64,
    repeated: u64,
    killed: u64,
    tested: u64,
    failed: u64,
}

impl<'a> DeviceHost<'a> {
    fn new(config: &'a Config, seed: u64, recorder: Option<Recorder>) -> DeviceHost<'a> {
        DeviceHost {
            config,
            driver: None,
            up_at: 0,
            version: RUNNING,
            flash: vec![ERASED; IMAGE_LENGTH],
            slots: [vec![ERASED; STATE_LENGTH], vec![ERASED; STATE_LENGTH]],
            installed_at: None,
            installed: 0,
            random: Random(seed),
            recorder,
            stored: 0,
            repeated: 0,
            killed: 0,
            tested: 0,
            failed: 0,
        }
    }

    fn start(&mut self, now: Ticks) -> Result<(), Failure> {
        let (image, state) = (self.flash.clone(), vec![ERASED; STATE_LENGTH]);
        let slots = [&self.slots[0][..], &self.slots[1][..]];
        let driver = DeviceDriver::start(self.config, self.version.as_bytes(), image, state, slots, now);
        self.driver = Some(driver.map_err(|refusal| Failure::Call("DeviceDriver::start", refusal))?);
        Ok(())
    }

    /// What was in memory is gone, and an installation cut off.
    fn kill(&mut self, now: Ticks) {
        self.driver = None;
        self.up_at = now + AWAY;
        self.installed_at = None;
        self.killed += 1;
        tell(format_args!("tick {}: the device restarts", now));
    }

    fn turn(&mut self, link: &mut Link, now: Ticks) -> Result<(), Failure> {
        while let Some(driver) = &mut self.driver {
            let action = driver.poll(now);
            if let DeviceAction::Wait(_) = action {
                break;
            }
            if self.random.once_in(KILLED) {
                self.kill(now);
                break;
            }
            match action {
                DeviceAction::Write { at, bytes } => {
                    self.flash[at..at + bytes.len()].copy_from_slice(bytes);
                    self.stored += 1;
                }
                DeviceAction::Save { slot, bytes } => self.slots[slot][..bytes.len()].copy_from_slice(bytes),
                DeviceAction::Send(bytes) => {
                    record(&mut self.recorder, Direction::FromDevice, bytes)?;
                    link.send(now, End::Gateway, bytes);
                }
                // A real installer copies the package to where it runs.
                DeviceAction::Install(package) => {
                    self.installed = package.len();
                    self.installed_at = Some(now + INSTALLATION);
                }
                DeviceAction::Wait(_) => {}
            }
        }
        Ok(())
    }

    /// A device would look at its battery, its signal and its own work.
    fn condition(&mut self) -> Condition {
        if self.random.once_in(BUSY) {
            Condition::Busy
        } else {
            Condition::Ready
        }
    }

    fn receive(&mut self, link: &mut Link, now: Ticks, message: &[u8]) -> Result<(), Failure> {
        if self.driver.is_none() {
            return Ok(());
        }
        record(&mut self.recorder, Direction::ToDevice, message)?;
        let condition = self.condition();
        if let Some(driver) = &mut self.driver {
            let before = driver.device().phase();
            let number = driver.receive(now, condition, message);
            self.repeated += u64::from(number == Err(Refusal::AlreadyStored));
            if before == DevicePhase::Loading && has_all(driver.device()) {
                let by_digest = tested(driver.device(), driver.image(), now);
                self.tested += u64::from(driver.device().expected_digest().is_some());
                self.failed += u64::from(by_digest);
            }
        }
        self.turn(link, now)
    }

    /// Half of the installers restart the device: the driver hears of it by the version that runs then.
    fn installed(&mut self, now: Ticks) {
        self.installed_at = None;
        self.version = TARGET;
        if self.random.once_in(2) {
            self.kill(now);
        } else if let Some(driver) = &mut self.driver {
            driver.installed(InstallCode::Installed);
        }
    }

    fn tick(&mut self, link: &mut Link, now: Ticks) -> Result<(), Failure> {
        if self.driver.is_none() && now >= self.up_at {
            self.start(now)?;
        }
        if self.installed_at.map_or(false, |done| now >= done) {
            self.installed(now);
        }
        self.turn(link, now)
    }

    fn is_at_rest(&self) -> bool {
        self.driver.as_ref().map(|driver| driver.device().phase()) == Some(DevicePhase::Idle)
    }

    fn image_is(&self, package: &[u8]) -> bool {
        self.installed == package.len() && self.flash.starts_with(package)
    }
}

struct GatewayHost<'a> {
    config: &'a Config,
    driver: Option<GatewayDriver<&'a [u8]>>,
    up_at: Ticks,
    package: &'a [u8],
    slots: [Vec<u8>; 2],
    random: Random,
    /// How the upgrade ended, once the driver told the end.
    ended: Option<Outcome>,
    killed: u64,
    /// Gateways, as far as told, and the last one's phase.
    started: u32,
    phase: GatewayPhase,
}

impl<'a> GatewayHost<'a> {
    fn new(config: &'a Config, seed: u64, package: &'a [u8]) -> GatewayHost<'a> {
        GatewayHost {
            config,
            driver: None,
            up_at: 0,
            package,
            slots: [vec![0; GATEWAY_STATE], vec![0; GATEWAY_STATE]],
            random: Random(seed),
            ended: None,
            killed: 0,
            started: 0,
            phase: GatewayPhase::Ask,
        }
    }

    fn start(&mut self, now: Ticks) -> Result<(), Failure> {
        let slots = [&self.slots[0][..], &self.slots[1][..]];
        let driver = GatewayDriver::start(self.config, TARGET.as_bytes(), self.package, slots, now);
        self.driver = Some(driver.map_err(Failure::Start)?);
        Ok(())
    }

    fn kill(&mut self, now: Ticks) {
        self.driver = None;
        self.up_at = now + AWAY;
        self.killed += 1;
        tell(format_args!("tick {}: the gateway restarts", now));
    }

    /// For the account: tells a gateway that ended, or after which another started.
    fn tell(&mut self, driver: &GatewayDriver<&'a [u8]>, now: Ticks) {
        let (started, phase) = (driver.gateways(), driver.gateway().phase());
        if started > self.started && self.started > 0 && self.phase != GatewayPhase::Ended {
            tell(format_args!("tick {}: gateway {} stood still in {:?}", now, self.started, self.phase));
        }
        if let Some(ending) = driver.gateway().ending().filter(|_| self.phase != GatewayPhase::Ended) {
            let (number, said) = (u8::from(ending), driver.said());
            tell(format_args!(
                "tick {}: gateway {} ended with {}, {}; the device said {:02X}",
                now, started, number, ending, said
            ));
        }
        (self.started, self.phase) = (started, phase);
    }

    fn turn(&mut self, link: &mut Link, now: Ticks) {
        while let Some(mut driver) = self.driver.take() {
            self.tell(&driver, now);
            self.ended = None;
            match driver.poll(now) {
                GatewayAction::Wait(_) => {
                    self.driver = Some(driver);
                    return;
                }
                GatewayAction::End(outcome) => {
                    self.ended = Some(outcome);
                    self.driver = Some(driver);
                    return;
                }
                _ if self.random.once_in(KILLED) => return self.kill(now),
                GatewayAction::Save { slot, bytes } => self.slots[slot].copy_from_slice(bytes),
                GatewayAction::Send(bytes) => link.send(now, End::Device, bytes),
            }
            self.driver = Some(driver);
        }
    }

    fn receive(&mut self, link: &mut Link, now: Ticks, message: &[u8]) {
        if let Some(driver) = &mut self.driver {
            // What is refused was of no use: late, repeated, or dropped.
            let _ = driver.receive(now, message);
        }
        self.turn(link, now);
    }

    fn tick(&mut self, link: &mut Link, now: Ticks) -> Result<(), Failure> {
        if self.driver.is_none() && now >= self.up_at {
            self.start(now)?;
        }
        self.turn(link, now);
        Ok(())
    }
}

/// What comes last leaves the device in one of these.
fn has_all(device: &Device) -> bool {
    match device.phase() {
        DevicePhase::Loaded => true,
        DevicePhase::Failed => device.stored() == device.total(),
        _ => false,
    }
}

/// For the account: all is stored, and was tested. Whether the digest failed it.
fn tested(device: &Device, image: &[u8], now: Ticks) -> bool {
    if device.phase() != DevicePhase::Failed {
        return false;
    }
    let check = pcp::check_of_bytes(&image[..device.image_length()]);
    let by_digest = device.check_code().map_or(true, |code| code == check);
    let why = if by_digest { "MD5 is not the one given" } else { "check is not the one announced" };
    tell(format_args!("tick {}: all is stored, and the image's {}", now, why));
    by_digest
}

/// Runs both hosts until the upgrade is over, and the device at rest; how it ended.
fn upgrade(device: &mut DeviceHost, gateway: &mut GatewayHost, link: &mut Link) -> Result<Outcome, Failure> {
    for now in 0..MOST_TICKS {
        link.tick(now);
        while let Some(message) = link.take(now) {
            match message.to {
                End::Device => device.receive(link, now, &message.bytes)?,
                End::Gateway => gateway.receive(link, now, &message.bytes),
            }
        }
        device.tick(link, now)?;
        gateway.tick(link, now)?;
        if device.driver.is_none() || gateway.driver.is_none() {
            continue;
        }
        match gateway.ended {
            Some(Outcome::Success) if !device.is_at_rest() => {}
            Some(outcome) => return Ok(outcome),
            None => {}
        }
    }
    Ok(Outcome::Time)
}

/// The account, and whether all is as it should be.
fn report(device: &DeviceHost, gateway: &GatewayHost, link: &Link, outcome: Outcome) -> bool {
    tell(format_args!("messages: {} sent, {} lost, {} repeated", link.sent, link.lost, link.repeated));
    tell(format_args!("fragments: {} stored, {} came again", device.stored, device.repeated));
    tell(format_args!(
        "restarts: {} of the device, {} of the gateway; gateways: {}",
        device.killed, gateway.killed, gateway.started
    ));
    if gateway.config.digest.is_some() {
        tell(format_args!("digest: {} images tested by it, {} failed", device.tested, device.failed));
    }
    if outcome != Outcome::Success {
        tell(format_args!("gave up: {}", outcome));
    } else if device.version != TARGET {
        tell(format_args!("the device does not run {}", TARGET));
    } else if !device.image_is(gateway.package) {
        tell(format_args!("upgraded to {}, but the image is not the package", TARGET));
    } else {
        tell(format_args!("upgraded to {}: {} bytes, image equals package", TARGET, gateway.package.len()));
        return true;
    }
    false
}

/// Reads no more than shows that a package is too long.
fn read_package(path: &Path) -> Result<Vec<u8>, Failure> {
    read_file(path, MOST_PACKAGE + 1).map_err(|error| Failure::Read(path.to_path_buf(), error))
}

/// A file's first bytes, at most so many.
fn read_file(path: &Path, most: u64) -> io::Result<Vec<u8>> {
    let mut bytes = Vec::new();
    File::open(path)?.take(most).read_to_end(&mut bytes)?;
    Ok(bytes)
}

/// Digits alone, for `parse` also takes a sign.
fn read_number<T: FromStr>(text: &str) -> Option<T> {
    text.parse().ok().filter(|_| text.bytes().all(|byte| byte.is_ascii_digit()))
}

/// Two hex digits for each byte, as md5sum prints them, or capital ones.
fn read_digest(text: &str) -> Option<Digest> {
    if text.len() != 2 * DIGEST_LENGTH || !text.bytes().all(|byte| byte.is_ascii_hexdigit()) {
        return None;
    }
    let mut digest = [0; DIGEST_LENGTH];
    for (at, byte) in digest.iter_mut().enumerate() {
        *byte = u8::from_str_radix(&text[2 * at..2 * at + 2], 16).ok()?;
    }
    Some(digest)
}

/// What the program is called with.
struct Call {
    capture: Option<PathBuf>,
    digest: Option<Digest>,
    package: PathBuf,
    seed: u64,
    size: u16,
}

fn read_call(mut others: &[String]) -> Option<Call> {
    let (mut capture, mut digest) = (None, None);
    while let Some(option) = others.first().filter(|option| option.starts_with("--")) {
        let value = others.get(1)?;
        match option.as_str() {
            "--capture" => capture = Some(value.into()),
            "--digest" => digest = Some(read_digest(value)?),
            _ => return None,
        }
        others = &others[2..];
    }
    let (package, seed, size) = match others {
        [package] => (package, 1, SIZE_PUBLIC),
        [package, seed] => (package, read_number(seed)?, SIZE_PUBLIC),
        [package, seed, size] => (package, read_number(seed)?, read_number(size)?),
        _ => return None,
    };
    Some(Call { capture, digest, package: package.into(), seed, size })
}

/// Whether the device was upgraded.
fn run_simulated(arguments: &[String]) -> Result<bool, Failure> {
    let call = read_call(arguments).ok_or(Failure::Usage)?;
    let package = read_package(&call.package)?;
    let config = settings(call.size, call.digest)?;
    let anew = |path| Recorder::new(path, OpenOptions::new().write(true).create(true).truncate(true));
    let recorder = call.capture.as_deref().map(anew).transpose()?;
    let mut gateway = GatewayHost::new(&config, call.seed.wrapping_add(1), &package);
    gateway.start(0)?;
    let mut device = DeviceHost::new(&config, !call.seed, recorder);
    device.start(0)?;
    let mut link = Link::new(call.seed);
    let outcome = upgrade(&mut device, &mut gateway, &mut link)?;
    Ok(report(&device, &gateway, &link, outcome))
}

fn run() -> Result<bool, Failure> {
    let words = env::args_os().skip(1).map(|argument| argument.into_string().ok());
    let words: Vec<String> = words.collect::<Option<_>>().ok_or(Failure::Usage)?;
    match words.split_first() {
        Some((option, [])) if option == "--help" => {
            tell(format_args!("{}", USAGE));
            Ok(true)
        }
        Some((option, others)) if option == "--udp" => udp::run(others),
        _ => run_simulated(&words),
    }
}

fn main() -> ExitCode {
    match run() {
        Ok(true) => ExitCode::SUCCESS,
        Ok(false) => ExitCode::FAILURE,
        Err(failure) => {
            eprintln!("{}", failure);
            ExitCode::from(if matches!(failure, Failure::Usage) { 2 } else { 1 })
        }
    }
}
