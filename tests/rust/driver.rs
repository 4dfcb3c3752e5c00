//! `driver [CALLS [SEED]]` holds the drivers of both ends, in Rust and in C, against what the manual says of them, case
//! by case; and gives both the same random calls, as many as told: any bytes, times and saves, in any order. Whatever
//! they tell must be the same.

mod cases;
mod drivers;
#[path = "support/random.rs"]
#[allow(dead_code)]
mod random;

use cases::messages::{any_message, torn};
use drivers::{Action, DeviceEnd, GatewayEnd, Language};
use pcp::driver::{device_state, Config, PackageDigest, DEVICE_STATE_FIXED, GATEWAY_STATE};
use pcp::{md5, Version};
use random::Random;
use std::env;
use std::process::ExitCode;

const CALLS: u64 = 100_000;
const SEED: u64 = 1;

const LANGUAGES: [Language; 2] = [Language::Rust, Language::C];

/// An action, without what it borrows.
#[derive(Debug, PartialEq, Eq)]
struct Told(u8, u64, Vec<u8>);

impl From<Action<'_>> for Told {
    fn from(action: Action) -> Told {
        match action {
            Action::Wait(until) => Told(0, until, Vec::new()),
            Action::Write { at, bytes } => Told(1, at as u64, bytes.to_vec()),
            Action::Save { slot, bytes } => Told(2, slot as u64, bytes.to_vec()),
            Action::Send(bytes) => Told(4, 0, bytes.to_vec()),
            Action::Install(bytes) => Told(8, 0, bytes.to_vec()),
            Action::End(outcome) => Told(16, u64::from(outcome), Vec::new()),
        }
    }
}

/// Both drivers' results, if they are the same.
fn same<T: std::fmt::Debug + PartialEq>(what: &str, mut results: Vec<T>) -> Result<T, String> {
    let other = results.pop().expect("two results");
    let one = results.pop().expect("two results");
    if one == other {
        Ok(one)
    } else {
        Err(format!("{}: Rust {:?}, C {:?}", what, one, other))
    }
}

/// Nothing; the package's digest, or another; mostly for the version that is announced.
fn any_digest(random: &mut Random, package: &[u8]) -> Option<PackageDigest> {
    let mut digest = md5::digest(package);
    if random.once_in(3) {
        digest[random.below(digest.len())] ^= 1;
    }
    let version = Version::new(random.pick(&[&b"V1.0"[..], b"V2.0", b"V2.0"])).expect("a version text");
    Some(PackageDigest { version, digest }).filter(|_| random.below(3) > 0)
}

/// Any times and limits: usual ones, none, and the longest.
fn any_config(random: &mut Random, package: &[u8]) -> Config {
    let digest = any_digest(random, package);
    let mut time = || random.pick(&[0, 1, 5, 20, 100, 1_000, u64::MAX - 1, u64::MAX]);
    Config {
        retry: time(),
        quiet: time(),
        installation: time(),
        later: time(),
        linger: time(),
        time_limit: time(),
        gateway_limit: random.pick(&[0, 1, 3, 1_000]),
        failure_limit: random.pick(&[0, 1, 3]),
        size: random.pick(&[32, 33, 48, 500, 1_024]),
        size_most: random.pick(&[0, 32, 500, 1_024, u16::MAX]),
        save_every: random.pick(&[0, 1, 4, u16::MAX]),
        install_limit: random.pick(&[0, 1, 3, 255]),
        digest,
    }
}

/// A run of random calls on one device and one gateway, each in both languages. What the one sends the other may be
/// given.
struct Run<'p> {
    random: Random,
    config: Config,
    package: &'p [u8],
    image: Vec<u8>,
    state: usize,
    versions: [&'static [u8]; 2],
    device: Vec<Box<dyn DeviceEnd>>,
    gateway: Vec<Box<dyn GatewayEnd + 'p>>,
    device_slots: [Vec<u8>; 2],
    gateway_slots: [Vec<u8>; 2],
    to_device: Vec<Vec<u8>>,
    to_gateway: Vec<Vec<u8>>,
    now: u64,
    /// How many actions in a row were no wait, at one time.
    busy: u64,
}

impl<'p> Run<'p> {
    fn new(mut random: Random, package: &'p [u8]) -> Run<'p> {
        let image = random.pick(&[0, 32, 64, package.len(), package.len() + 1_024]);
        let state =
            if random.once_in(4) { DEVICE_STATE_FIXED + random.below(4) } else { device_state(image) };
        Run {
            config: any_config(&mut random, package),
            package,
            image: random.bytes(image),
            state,
            versions: [b"V1.0", b"V2.0"],
            device: Vec::new(),
            gateway: Vec::new(),
            device_slots: [vec![0xFF; state], Vec::new()],
            gateway_slots: [Vec::new(), vec![0xFF; GATEWAY_STATE]],
            to_device: Vec::new(),
            to_gateway: Vec::new(),
            now: 0,
            busy: 0,
            random,
        }
    }

    fn start_device(&mut self) -> Result<(), String> {
        let version = self.random.pick(&self.versions);
        let slots = torn(&mut self.random, &self.device_slots);
        if self.random.once_in(4) {
            self.config.digest = any_digest(&mut self.random, self.package);
        }
        let start = |language| {
            let (one, other) = (&slots[0][..], &slots[1][..]);
            drivers::device(
                language,
                &self.config,
                version,
                self.image.clone(),
                self.state,
                [one, other],
                self.now,
            )
        };
        let (ends, numbers): (Vec<_>, Vec<_>) = LANGUAGES.into_iter().map(start).map(split).unzip();
        same("device start", numbers)?;
        self.device = ends.into_iter().flatten().collect();
        self.busy = 0;
        Ok(())
    }

    fn start_gateway(&mut self) -> Result<(), String> {
        let version = self.random.pick(&self.versions);
        let slots = torn(&mut self.random, &self.gateway_slots);
        let start = |language| {
            let (one, other) = (&slots[0][..], &slots[1][..]);
            drivers::gateway(language, &self.config, version, self.package, [one, other], self.now)
        };
        let (ends, numbers): (Vec<_>, Vec<_>) = LANGUAGES.into_iter().map(start).map(split).unzip();
        same("gateway start", numbers)?;
        self.gateway = ends.into_iter().flatten().collect();
        self.busy = 0;
        Ok(())
    }

    /// The next time: mostly a little later, at times much later, or earlier, which counts as the same.
    fn pass_time(&mut self) -> u64 {
        let now = self.now;
        let next = match self.random.below(40) {
            0 => self.random.draw(),
            1 => now.saturating_sub(self.random.below(50) as u64),
            2 => u64::MAX,
            _ => now.saturating_add(self.random.below(30) as u64),
        };
        if next > now {
            self.now = next;
            self.busy = 0;
        }
        next
    }

    fn poll_device(&mut self) -> Result<(), String> {
        let now = self.pass_time();
        let told = same("device poll", self.device.iter_mut().map(|end| end.poll(now).into()).collect())?;
        self.count(&told)?;
        match told {
            Told(1, at, bytes) => {
                let at = at as usize;
                self.image[at..at + bytes.len()].copy_from_slice(&bytes);
            }
            Told(2, slot, bytes) => self.device_slots[slot as usize] = bytes,
            Told(4, _, bytes) => self.to_gateway.push(bytes),
            _ => {}
        }
        Ok(())
    }

    fn poll_gateway(&mut self) -> Result<(), String> {
        let now = self.pass_time();
        let told = same("gateway poll", self.gateway.iter_mut().map(|end| end.poll(now).into()).collect())?;
        self.count(&told)?;
        match told {
            Told(2, slot, bytes) => self.gateway_slots[slot as usize] = bytes,
            Told(4, _, bytes) => self.to_device.push(bytes),
            _ => {}
        }
        Ok(())
    }

    /// A driver that never waits while the time stands would hold up its host.
    fn count(&mut self, told: &Told) -> Result<(), String> {
        self.busy = if matches!(told.0, 0 | 16) { 0 } else { self.busy + 1 };
        if self.busy > 64 {
            return Err(format!("does not wait: {:?}", told));
        }
        Ok(())
    }

    fn give_device(&mut self) -> Result<(), String> {
        let now = self.pass_time();
        let message = any_message(&mut self.random, &mut self.to_device);
        let condition = self.random.pick(&[0, 0, 0, 0, 1, 2, 4, 127]);
        let give = |end: &mut Box<dyn DeviceEnd>| end.receive(now, condition, &message);
        same("device receive", self.device.iter_mut().map(give).collect())?;
        self.busy = 0;
        Ok(())
    }

    fn give_gateway(&mut self) -> Result<(), String> {
        let now = self.pass_time();
        let message = any_message(&mut self.random, &mut self.to_gateway);
        same("gateway receive", self.gateway.iter_mut().map(|end| end.receive(now, &message)).collect())?;
        self.busy = 0;
        Ok(())
    }

    fn end_installer(&mut self) {
        let code = self.random.pick(&[0x00, 0x00, 0x00, 0x01, 0x04, 0x05, 0x09, 0x0A, 0x7F]);
        self.device.iter_mut().for_each(|end| end.installed(code));
        self.busy = 0;
    }

    fn step(&mut self) -> Result<(), String> {
        match self.random.below(40) {
            0 => self.start_device()?,
            1 => self.start_gateway()?,
            2..=15 => self.poll_device()?,
            16..=29 => self.poll_gateway()?,
            30..=33 => self.give_device()?,
            34..=37 => self.give_gateway()?,
            _ => self.end_installer(),
        }
        let device = self.device.iter().map(|end| (end.record(), end.look())).collect::<Vec<_>>();
        let gateway = self.gateway.iter().map(|end| (end.record(), end.look())).collect::<Vec<_>>();
        same("device", device)?;
        same("gateway", gateway)?;
        Ok(())
    }
}

/// A driver, and the number with which it started or not.
fn split<T>(end: Result<T, u8>) -> (Option<T>, u8) {
    match end {
        Ok(end) => (Some(end), 0),
        Err(number) => (None, number),
    }
}

/// As many random calls as told, in runs of some hundred.
fn random_calls(calls: u64, seed: u64) -> Result<(), String> {
    let mut random = Random::new(seed);
    let mut made = 0;
    while made < calls {
        let length = random.pick(&[1, 50, 600, 3_000]);
        let package = random.bytes(length);
        let mut run = Run::new(Random::new(random.draw()), &package);
        run.start_device()?;
        run.start_gateway()?;
        for _ in 0..random.between(1..=800) {
            run.step().map_err(|what| format!("call {}: {}", made, what))?;
            made += 1;
        }
    }
    Ok(())
}

fn run(calls: u64, seed: u64) -> Result<(), String> {
    let mut count = 0;
    if ![0, 1, 256, 257, 1 << 26].into_iter().all(drivers::has_same_defaults) {
        return Err("other defaults or lengths in C than in Rust".to_string());
    }
    for language in LANGUAGES {
        for (name, case) in cases::ALL {
            case(language).map_err(|what| format!("{}, {:?}: {}", name, language, what))?;
            count += 1;
        }
    }
    println!("driver: {} cases, in Rust and C", count / LANGUAGES.len());
    random_calls(calls, seed)?;
    println!("driver: {} random calls, the same in Rust and C", calls);
    Ok(())
}

fn main() -> ExitCode {
    let arguments: Option<Vec<u64>> = env::args().skip(1).map(|argument| argument.parse().ok()).collect();
    let (calls, seed) = match arguments.as_deref() {
        Some([]) => (CALLS, SEED),
        Some([calls]) => (*calls, SEED),
        Some([calls, seed]) => (*calls, *seed),
        _ => {
            eprintln!("usage: driver [CALLS [SEED]]");
            return ExitCode::from(2);
        }
    };
    match run(calls, seed) {
        Ok(()) => ExitCode::SUCCESS,
        Err(what) => {
            eprintln!("driver: {}", what);
            ExitCode::FAILURE
        }
    }
}
