//! `upgrade --udp device [OPTION VALUE].. FOLDER`, `upgrade --udp gateway [OPTION VALUE].. FOLDER VERSION PACKAGE`
//!
//! One end of an upgrade, a process of its own, over UDP on this machine. The folder is the end's storage: kill the process
//! at any time, start it again with the same words, and it goes on. The device never ends by itself; the gateway does, with
//! exit status 0 when the device runs the package.
//!
//! Options: `--ports DEVICE:GATEWAY`, 7001:7002 if not given; `--lose PERCENT`, of what this end sends; `--capture FILE`, to
//! which each message is appended as a record of a capture; `--digest VERSION:HEX`, which the device tests the package of
//! that version by, as md5sum prints it; `--size SIZE`, of the gateway's fragments.
//!
//! A device's folder has its image, two slots for the driver's saves, the version that runs (V1.0 if there is none), and
//! what was installed. Where standard error is a terminal, the progress is a line there that is written over; elsewhere a
//! line for each phase. hosts/c/udp.c is the same in C: each end may be of either.

use crate::{read_digest, read_file, read_number, read_package, record, Failure, Recorder};
use crate::{IMAGE_LENGTH, MOST_MESSAGE, STATE_LENGTH};
use pcp::capture::Direction;
use pcp::driver::{Config, DeviceAction, DeviceDriver, PackageDigest};
use pcp::driver::{GatewayAction, GatewayDriver, Outcome, GATEWAY_STATE};
use pcp::{Condition, Device, DevicePhase, Ending, GatewayPhase, InstallCode, Version};
use std::fmt::Arguments;
use std::fs::{self, OpenOptions};
use std::io::ErrorKind;
use std::net::{Ipv4Addr, UdpSocket};
use std::os::unix::fs::FileExt;
use std::path::PathBuf;
use std::process::id;
use std::time::{Duration, Instant, SystemTime};

/// Milliseconds, then the progress is shown anew; but no more often than the second.
const LONGEST_WAIT: u64 = 500;
const SHOWN: u64 = 100;

/// Times for a link on which nothing is on its way for long.
fn settings() -> Config {
    Config { retry: 200, quiet: 400, installation: 10_000, later: 2_000, linger: 1_000, ..Config::default() }
}

/// What both ends are called with.
struct Call {
    is_device: bool,
    ports: (u16, u16),
    lose: u64,
    capture: Option<PathBuf>,
    config: Config,
    folder: PathBuf,
    version: String,
    package: PathBuf,
}

/// Storage: the files of a folder.
struct Folder(PathBuf);

impl Folder {
    fn open(call: &Call) -> Result<Folder, Failure> {
        fs::read_dir(&call.folder).map_err(|error| Failure::Read(call.folder.clone(), error))?;
        Ok(Folder(call.folder.clone()))
    }

    /// A file's first bytes to the front of these, as many as it has; none if there is no such file.
    fn read(&self, name: &str, bytes: &mut [u8]) -> Result<usize, Failure> {
        let path = self.0.join(name);
        match read_file(&path, bytes.len() as u64) {
            Ok(read) => {
                bytes[..read.len()].copy_from_slice(&read);
                Ok(read.len())
            }
            Err(error) if error.kind() == ErrorKind::NotFound => Ok(0),
            Err(error) => Err(Failure::Read(path, error)),
        }
    }

    fn write(&self, name: &str, at: usize, bytes: &[u8]) -> Result<(), Failure> {
        let path = self.0.join(name);
        let file = OpenOptions::new().write(true).create(true).truncate(false).open(&path);
        file.and_then(|file| file.write_all_at(bytes, at as u64)).map_err(|error| Failure::Write(path, error))
    }

    /// A whole file in the place of the one before, if that was there.
    fn replace(&self, name: &str, bytes: &[u8]) -> Result<(), Failure> {
        let (new, path) = (self.0.join("new"), self.0.join(name));
        let replaced = fs::write(&new, bytes).and_then(|()| fs::rename(&new, &path));
        replaced.map_err(|error| Failure::Write(path, error))
    }

    fn save(&self, slot: usize, bytes: &[u8]) -> Result<(), Failure> {
        self.write(["slot0", "slot1"][slot], 0, bytes)
    }

    fn slots(&self, length: usize) -> Result<[Vec<u8>; 2], Failure> {
        let mut slots = [vec![0; length], vec![0; length]];
        self.read("slot0", &mut slots[0])?;
        self.read("slot1", &mut slots[1])?;
        Ok(slots)
    }
}

/// The radio: a socket that is connected, so that it hears the other end alone; with the clock and the capture.
struct Radio {
    socket: UdpSocket,
    port: u16,
    recorder: Option<Recorder>,
    is_device: bool,
    lose: u64,
    random: u64,
    start: Instant,
    message: [u8; MOST_MESSAGE],
}

impl Radio {
    fn open(call: &Call) -> Result<Radio, Failure> {
        let (own, other) = match call.is_device {
            true => call.ports,
            false => (call.ports.1, call.ports.0),
        };
        let failed = |error| Failure::Port(own, error);
        let socket = UdpSocket::bind((Ipv4Addr::LOCALHOST, own)).map_err(failed)?;
        socket.connect((Ipv4Addr::LOCALHOST, other)).map_err(failed)?;
        let appended = |path| Recorder::new(path, OpenOptions::new().append(true).create(true));
        let recorder = call.capture.as_deref().map(appended).transpose()?;
        let seed =
            SystemTime::now().duration_since(SystemTime::UNIX_EPOCH).map_or(1, |now| now.as_nanos() as u64);
        Ok(Radio {
            socket,
            port: own,
            recorder,
            is_device: call.is_device,
            lose: call.lose,
            random: seed,
            start: Instant::now(),
            message: [0; MOST_MESSAGE],
        })
    }

    /// Milliseconds.
    fn now(&self) -> u64 {
        self.start.elapsed().as_millis() as u64
    }

    fn is_lost(&mut self) -> bool {
        self.random =
            self.random.wrapping_mul(6_364_136_223_846_793_005).wrapping_add(1_442_695_040_888_963_407);
        (self.random >> 33) % 100 < self.lose
    }

    /// That nobody listens is as good as lost.
    fn send(&mut self, message: &[u8]) -> Result<(), Failure> {
        let direction = if self.is_device { Direction::FromDevice } else { Direction::ToDevice };
        record(&mut self.recorder, direction, message)?;
        if !self.is_lost() {
            let _ = self.socket.send(message);
        }
        Ok(())
    }

    /// A message, if one comes before the time.
    fn receive(&mut self, until: u64) -> Result<Option<Vec<u8>>, Failure> {
        let left = until.saturating_sub(self.now()).clamp(1, LONGEST_WAIT);
        let timeout = self.socket.set_read_timeout(Some(Duration::from_millis(left)));
        timeout.map_err(|error| Failure::Port(self.port, error))?;
        let message = match self.socket.recv(&mut self.message) {
            Ok(length) if length > 0 => self.message[..length].to_vec(),
            _ => return Ok(None),
        };
        let direction = if self.is_device { Direction::ToDevice } else { Direction::FromDevice };
        record(&mut self.recorder, direction, &message)?;
        Ok(Some(message))
    }
}

extern "C" {
    fn isatty(file: i32) -> i32;
}

/// The progress: phase, fragments of how many, how many in a second since the first that was seen, and the seconds left at
/// that rate.
struct Progress {
    end: &'static str,
    on_terminal: bool,
    /// As shown last, at this time.
    phase: String,
    shown_at: u64,
    /// Fragments that were there at this time.
    from: u16,
    since: u64,
}

impl Progress {
    fn new(end: &'static str) -> Progress {
        const STANDARD_ERROR: i32 = 2;
        // SAFETY: it takes any number. (std can tell it from Rust 1.70 on.)
        let on_terminal = unsafe { isatty(STANDARD_ERROR) } == 1;
        Progress { end, on_terminal, phase: String::new(), shown_at: 0, from: 0, since: 0 }
    }

    fn show(&mut self, now: u64, phase: String, done: u16, total: u16) {
        let is_new = phase != self.phase;
        if is_new || done < self.from || self.from == 0 {
            (self.from, self.since) = (done, now);
        }
        self.phase = phase;
        if !is_new && (!self.on_terminal || now < self.shown_at + SHOWN) {
            return;
        }
        self.shown_at = now;
        let mut line = format!("{}: {}", self.end, self.phase);
        if !self.on_terminal {
            eprintln!("{}", line);
            return;
        }
        let (came, passed) = (u64::from(done - self.from), now - self.since);
        if done < total {
            line += &format!(", {} of {} fragments", done, total);
        }
        if done < total && came > 0 && passed > 0 {
            let left = u64::from(total - done) * passed / came / 1_000;
            line += &format!(", {} a second, {} s left", came * 1_000 / passed, left);
        }
        eprint!("\r\x1b[K{}", line);
    }

    /// A line for the log; the progress is shown again below it.
    fn tell(&self, line: Arguments) {
        eprintln!("{}{}: {}", if self.on_terminal { "\r\x1b[K" } else { "" }, self.end, line);
    }

    fn device(&mut self, now: u64, device: &Device) {
        let (done, total) = match device.phase() {
            DevicePhase::Loading => (device.stored(), device.total()),
            _ => (0, 0),
        };
        self.show(now, format!("{:?}", device.phase()), done, total);
    }

    fn gateway(&mut self, now: u64, driver: &GatewayDriver<Vec<u8>>) {
        let phase = driver.gateway().phase();
        let (done, total) = match phase {
            GatewayPhase::Serve => (driver.served(), driver.total()),
            _ => (0, 0),
        };
        self.show(now, format!("{:?}", phase), done, total);
    }
}

/// Puts the package where it runs, then says so by its version: killed in between, it is installed again.
fn install(folder: &Folder, target: Version, package: &[u8]) -> Result<InstallCode, Failure> {
    folder.replace("installed", package)?;
    folder.replace("version", target.as_str().as_bytes())?;
    Ok(InstallCode::Installed)
}

fn device(call: &Call) -> Result<bool, Failure> {
    let folder = Folder::open(call)?;
    let (mut radio, mut progress) = (Radio::open(call)?, Progress::new("device"));
    let (mut version, mut image) = ([0; 17], vec![0; IMAGE_LENGTH]);
    let length = folder.read("version", &mut version)?;
    let version = match &version[..length] {
        [] => b"V1.0",
        [text @ .., b'\n'] => text,
        text => text,
    };
    let text = String::from_utf8_lossy(version);
    progress.tell(format_args!("process {}, port {}, runs {}", id(), radio.port, text));
    folder.read("image", &mut image)?;
    let slots = folder.slots(STATE_LENGTH)?;
    let (state, saved) = (vec![0; STATE_LENGTH], [&slots[0][..], &slots[1][..]]);
    let mut driver = DeviceDriver::start(&call.config, version, image, state, saved, radio.now())
        .map_err(Failure::Start)?;
    loop {
        progress.device(radio.now(), driver.device());
        let target = driver.device().target();
        match driver.poll(radio.now()) {
            DeviceAction::Write { at, bytes } => folder.write("image", at, bytes)?,
            DeviceAction::Save { slot, bytes } => folder.save(slot, bytes)?,
            DeviceAction::Send(bytes) => radio.send(bytes)?,
            DeviceAction::Install(package) => {
                let code = install(&folder, target, package)?;
                progress.tell(format_args!("installed {}, {} bytes", target.as_str(), package.len()));
                driver.installed(code);
            }
            DeviceAction::Wait(until) => {
                if let Some(message) = radio.receive(until)? {
                    // What is refused was of no use: late, repeated, damaged.
                    let _ = driver.receive(radio.now(), Condition::Ready, &message);
                }
            }
        }
    }
}

/// Whether the device runs the package.
fn gateway(call: &Call) -> Result<bool, Failure> {
    let folder = Folder::open(call)?;
    let (mut radio, mut progress) = (Radio::open(call)?, Progress::new("gateway"));
    let (package, slots) = (read_package(&call.package)?, folder.slots(GATEWAY_STATE)?);
    let (port, length) = (radio.port, package.len());
    progress.tell(format_args!("process {}, port {}, brings {}, {} bytes", id(), port, call.version, length));
    let saved = [&slots[0][..], &slots[1][..]];
    let mut driver = GatewayDriver::start(&call.config, call.version.as_bytes(), package, saved, radio.now())
        .map_err(Failure::Start)?;
    if driver.outcome().is_some() {
        progress.tell(format_args!(
            "by the folder's save this upgrade has ended before; to begin it anew, empty the folder"
        ));
    }
    let outcome = loop {
        progress.gateway(radio.now(), &driver);
        match driver.poll(radio.now()) {
            GatewayAction::Save { slot, bytes } => folder.save(slot, bytes)?,
            GatewayAction::Send(bytes) => radio.send(bytes)?,
            GatewayAction::End(outcome) => break outcome,
            GatewayAction::Wait(until) => {
                if let Some(message) = radio.receive(until)? {
                    let _ = driver.receive(radio.now(), &message);
                }
            }
        }
    };
    if progress.on_terminal {
        eprintln!();
    }
    if driver.gateway().ending() == Some(Ending::AlreadyRunning) {
        progress.tell(format_args!("the device ran that version when it was asked"));
    }
    match outcome {
        Outcome::Success => println!("the device runs {}", call.version),
        Outcome::NoRoom | Outcome::Failed => {
            println!("gave up: {}; the device said {:02X}", outcome, driver.said());
        }
        _ => println!("gave up: {}", outcome),
    }
    Ok(outcome == Outcome::Success)
}

/// A version, a colon and the digest.
fn read_package_digest(text: &str) -> Option<PackageDigest> {
    let (version, digits) = text.split_once(':')?;
    Some(PackageDigest { version: Version::new(version.as_bytes()).ok()?, digest: read_digest(digits)? })
}

fn read_option(call: &mut Call, option: &str, value: &str) -> Option<()> {
    match option {
        "--ports" => {
            let (device, gateway) = value.split_once(':')?;
            call.ports = (read_number(device)?, read_number(gateway)?);
            if call.ports.0 == 0 || call.ports.1 == 0 || call.ports.0 == call.ports.1 {
                return None;
            }
        }
        "--lose" => call.lose = read_number(value).filter(|percent| *percent <= 100)?,
        "--digest" => call.config.digest = Some(read_package_digest(value)?),
        "--size" => call.config.size = read_number(value)?,
        "--capture" => call.capture = Some(value.into()),
        _ => return None,
    }
    Some(())
}

fn read_call(arguments: &[String]) -> Option<Call> {
    let (end, mut others) = arguments.split_first()?;
    let mut call = Call {
        is_device: end == "device",
        ports: (7_001, 7_002),
        lose: 0,
        capture: None,
        config: settings(),
        folder: PathBuf::new(),
        version: String::new(),
        package: PathBuf::new(),
    };
    while let [option, value, rest @ ..] = others {
        if !option.starts_with("--") {
            break;
        }
        read_option(&mut call, option, value)?;
        others = rest;
    }
    match (end.as_str(), others) {
        ("device", [folder]) => call.folder = folder.into(),
        ("gateway", [folder, version, package]) => {
            (call.folder, call.version, call.package) = (folder.into(), version.clone(), package.into());
        }
        _ => return None,
    }
    Some(call)
}

/// One end, with the arguments behind `--udp`: whether the device runs the package.
pub fn run(arguments: &[String]) -> Result<bool, Failure> {
    let call = read_call(arguments).ok_or(Failure::Usage)?;
    if call.is_device {
        device(&call)
    } else {
        gateway(&call)
    }
}
