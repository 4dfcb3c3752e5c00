//! `manual MANUAL HEADER` carries out the worked exchange of docs/MANUAL.md through the library, and compares each line
//! of it with what the library gives. It also sees that the manual's tables and the wrapper for Rust have every constant
//! of include/pcp.h, with its value. What else the manual says is not tested here.
//!
//! The exchange is what stands in the blocks marked `exchange`, in their order. A step is a line that begins with a
//! call (`Exchange::step` knows them all) and the indented lines behind it. The number of blanks is free.

mod reading;
mod support;

use pcp::{Code, Condition, Device, DevicePhase, Ending, Facts, Gateway, GatewayPhase, InstallCode, Refusal};
use pcp::{DEVICE_RECORD, DEVICE_REPLY, DIGEST_LENGTH, GATEWAY_RECORD, GATEWAY_REPLY, VERSION_LENGTH};
use pcp::{SIZE_MAX, SIZE_MIN, SIZE_PUBLIC};
use reading::replay::hex;
use std::collections::{BTreeMap, BTreeSet};
use std::fmt::Debug;
use std::process::ExitCode;
use std::str::FromStr;
use std::{env, fs};
use support::bytes;

/// A byte of image and map before anything was written there.
const ERASED: u8 = 0xFF;

/// How many bytes of the image stand in a line.
const IMAGE_LINE: usize = 32;

/// How a field of a record is shown.
#[derive(Clone, Copy)]
enum Form {
    Text,
    Number,
    Hex,
}

/// A field of a record: its name, its length, and how it is shown.
type Field = (&'static str, usize, Form);

const DEVICE_FIELDS: [Field; 11] = [
    ("phase", 1, Form::Number),
    ("running", 16, Form::Text),
    ("target", 16, Form::Text),
    ("size", 2, Form::Number),
    ("total", 2, Form::Number),
    ("code", 2, Form::Hex),
    ("stored", 2, Form::Number),
    ("last length", 2, Form::Number),
    ("installer", 1, Form::Hex),
    ("digest set", 1, Form::Number),
    ("digest", 16, Form::Hex),
];

const GATEWAY_FIELDS: [Field; 6] = [
    ("phase", 1, Form::Number),
    ("ending", 1, Form::Number),
    ("version", 16, Form::Text),
    ("size", 2, Form::Number),
    ("length", 8, Form::Number),
    ("code", 2, Form::Hex),
];

fn shown(bytes: &[u8], form: Form) -> String {
    match form {
        Form::Text => String::from_utf8_lossy(bytes).trim_end_matches('\0').to_string(),
        Form::Number => bytes.iter().fold(0, |number, byte| number * 256 + u64::from(*byte)).to_string(),
        Form::Hex => hex(bytes),
    }
}

/// The fields of a record with their bytes, in order.
fn fields<'a>(
    record: &'a [u8],
    layout: &'static [Field],
) -> impl Iterator<Item = (&'static str, Form, &'a [u8])> {
    let mut rest = record;
    layout.iter().map(move |(name, length, form)| {
        let (field, behind) = rest.split_at(*length);
        rest = behind;
        (*name, *form, field)
    })
}

/// The fields that differ, as they are now; but the phase, which every step shows.
fn changes(before: &[u8], now: &[u8], layout: &'static [Field]) -> Vec<String> {
    let pairs = fields(before, layout).zip(fields(now, layout)).skip(1);
    let changed = pairs.filter(|((_, _, old), (_, _, new))| old != new);
    changed.map(|(_, (name, form, new))| format!("{} {}", name, shown(new, form))).collect()
}

/// The record, field by field.
fn record_line(record: &[u8], layout: &'static [Field]) -> String {
    fields(record, layout).map(|(_, _, field)| hex(field)).collect::<Vec<_>>().join(" ")
}

/// The first and the last place where the images differ.
fn image_change(before: &[u8], now: &[u8]) -> Option<String> {
    let differs = |at: &usize| before[*at] != now[*at];
    let first = (0..now.len()).find(differs)?;
    let last = (0..now.len()).rev().find(differs)?;
    Some(format!("image {} to {}", first, last))
}

fn number_of<T>(answer: &Result<T, Refusal>) -> u8 {
    answer.as_ref().err().map_or(0, |refusal| u8::from(*refusal))
}

/// Nothing to send has a number in the manual, as it has in C.
fn asked(answer: Result<Option<&[u8]>, Refusal>) -> Result<&[u8], Refusal> {
    answer.and_then(|message| message.ok_or(Refusal::NoUse))
}

/// The value that the wrapper has for a byte.
fn value_of<T: TryFrom<u8>>(byte: u8) -> Result<T, String> {
    T::try_from(byte).map_err(|_| format!("the wrapper does not know {:02X} here", byte))
}

fn number_in<T: FromStr>(word: &str) -> Result<T, String> {
    word.parse().map_err(|_| format!("{} is no number", word))
}

#[derive(Clone, Copy, PartialEq, Eq)]
enum End {
    Device,
    Gateway,
}

/// What a step shows: the number and the phase after it, and its lines.
struct Shown {
    outcome: Option<(u8, String)>,
    lines: Vec<String>,
}

/// Both ends, and what they have put on the air.
struct Exchange {
    package: Vec<u8>,
    device: Device,
    image: Vec<u8>,
    map: Vec<u8>,
    gateway: Gateway,
    air: Vec<(End, Vec<u8>)>,
}

impl Exchange {
    /// Before the manual makes them, the ends are of a version that it does not name.
    fn new() -> Exchange {
        Exchange {
            package: Vec::new(),
            device: Device::new(b"-").expect("a version text"),
            image: Vec::new(),
            map: Vec::new(),
            gateway: Gateway::start(b"-", 32, b"-", false).expect("a package"),
            air: Vec::new(),
        }
    }

    fn step(&mut self, call: &str) -> Result<Shown, String> {
        let words: Vec<&str> = call.split_whitespace().collect();
        match words[..] {
            ["package", ..] => Ok(self.take_package(&words[1..].join(" "))),
            ["device", "new", version, "image", image, "map", map] => {
                self.image = vec![ERASED; number_in(image)?];
                self.map = vec![ERASED; number_in(map)?];
                self.make_device(version)
            }
            ["device", "<-", message] => self.device_receive(message, Condition::Ready),
            ["device", "<-", message, "condition", condition] => {
                self.device_receive(message, value_of(number_in(condition)?)?)
            }
            ["device", "ask"] => Ok(self.device_ask()),
            ["device", "digest", digest] => self.give_digest(digest),
            ["device", "install", code] => {
                let code = u8::from_str_radix(code, 16).map_err(|_| format!("{} is no code", code))?;
                Ok(self.install(value_of(code)?))
            }
            ["device", "record"] => Ok(only(record_line(self.device.record(), &DEVICE_FIELDS))),
            ["device", "map"] => Ok(only(hex(&self.map))),
            ["device", "image"] => {
                Ok(Shown { outcome: None, lines: self.image.chunks(IMAGE_LINE).map(hex).collect() })
            }
            ["gateway", "start", version, "size", size, "checked"] => {
                self.start(version, number_in(size)?, true)
            }
            ["gateway", "start", version, "size", size] => self.start(version, number_in(size)?, false),
            ["gateway", "<-", message] => self.gateway_receive(message),
            ["gateway", "ask"] => Ok(self.gateway_ask()),
            ["gateway", "record"] => Ok(only(record_line(self.gateway.record(), &GATEWAY_FIELDS))),
            _ => Err("no such call".to_string()),
        }
    }

    fn take_package(&mut self, text: &str) -> Shown {
        self.package = text.as_bytes().to_vec();
        only(format!("{} bytes, check {:04X}", text.len(), pcp::check_of_bytes(&self.package)))
    }

    fn make_device(&mut self, version: &str) -> Result<Shown, String> {
        self.device = Device::new(version.as_bytes()).map_err(|refusal| refusal.to_string())?;
        Ok(self.device_shown(0, Vec::new()))
    }

    fn start(&mut self, version: &str, size: u16, checked: bool) -> Result<Shown, String> {
        let started = Gateway::start(version.as_bytes(), size, &self.package, checked);
        self.gateway = started.map_err(|refusal| refusal.to_string())?;
        Ok(self.gateway_shown(0, Vec::new()))
    }

    fn device_receive(&mut self, message: &str, condition: Condition) -> Result<Shown, String> {
        let message = self.message(message, End::Gateway)?;
        let (record, image, map) = (*self.device.record(), self.image.clone(), self.map.clone());
        let mut reply = [0; DEVICE_REPLY];
        let answer =
            self.device.receive(Facts::BOTH, condition, &message, &mut self.image, &mut self.map, &mut reply);
        let number = number_of(&answer);
        let mut lines = put_on_air(&mut self.air, End::Device, answer.ok().and_then(|answer| answer.reply));
        let mut changed = changes(&record, self.device.record(), &DEVICE_FIELDS);
        if map != self.map {
            changed.push(format!("map {}", hex(&self.map)));
        }
        changed.extend(image_change(&image, &self.image));
        lines.extend(changed_line(changed));
        Ok(self.device_shown(number, lines))
    }

    fn device_ask(&mut self) -> Shown {
        let mut reply = [0; DEVICE_REPLY];
        let answer = asked(self.device.next_message(&self.image, &self.map, &mut reply));
        let number = number_of(&answer);
        let lines = put_on_air(&mut self.air, End::Device, answer.ok());
        self.device_shown(number, lines)
    }

    fn give_digest(&mut self, digest: &str) -> Result<Shown, String> {
        let digest: [u8; DIGEST_LENGTH] =
            bytes(digest).try_into().map_err(|_| format!("{} is no digest", digest))?;
        let before = *self.device.record();
        let number = number_of(&self.device.give_digest(&digest));
        Ok(self.device_changed(number, &before))
    }

    fn install(&mut self, code: InstallCode) -> Shown {
        let before = *self.device.record();
        let number = number_of(&self.device.install_finished(code));
        self.device_changed(number, &before)
    }

    fn device_changed(&self, number: u8, before: &[u8]) -> Shown {
        let changed = changes(before, self.device.record(), &DEVICE_FIELDS);
        self.device_shown(number, changed_line(changed).into_iter().collect())
    }

    fn gateway_receive(&mut self, message: &str) -> Result<Shown, String> {
        let message = self.message(message, End::Device)?;
        let before = *self.gateway.record();
        let mut reply = [0; GATEWAY_REPLY];
        let answer = self.gateway.receive(Facts::BOTH, &message, &self.package, &mut reply);
        let number = number_of(&answer);
        let mut lines = put_on_air(&mut self.air, End::Gateway, answer.ok().and_then(|answer| answer.reply));
        lines.extend(changed_line(changes(&before, self.gateway.record(), &GATEWAY_FIELDS)));
        Ok(self.gateway_shown(number, lines))
    }

    fn gateway_ask(&mut self) -> Shown {
        let mut reply = [0; GATEWAY_REPLY];
        let answer = asked(self.gateway.next_message(&self.package, &mut reply));
        let number = number_of(&answer);
        let lines = put_on_air(&mut self.air, End::Gateway, answer.ok());
        self.gateway_shown(number, lines)
    }

    /// `#3` is the third message on the air, which must be of that end; anything else is the message itself.
    fn message(&self, word: &str, from: End) -> Result<Vec<u8>, String> {
        let place = match word.strip_prefix('#') {
            Some(place) => place,
            None => return hex_message(word),
        };
        let sent = self.air.get(number_in::<usize>(place)?.wrapping_sub(1));
        let message = sent.filter(|(sender, _)| *sender == from).map(|(_, message)| message.clone());
        message.ok_or(format!("the other end has not sent {}", word))
    }

    fn device_shown(&self, number: u8, lines: Vec<String>) -> Shown {
        Shown { outcome: Some((number, format!("{:?}", self.device.phase()))), lines }
    }

    fn gateway_shown(&self, number: u8, lines: Vec<String>) -> Shown {
        Shown { outcome: Some((number, format!("{:?}", self.gateway.phase()))), lines }
    }

    /// An upgrade has come to its end: the manual shows a whole one.
    fn is_complete(&self) -> bool {
        let ended = self.gateway.ending() == Some(Ending::Success);
        let installed =
            self.device.phase() == DevicePhase::Idle && self.device.running() == self.gateway.target();
        let image = self.image.get(..self.device.image_length());
        ended && installed && image == Some(&self.package)
    }
}

fn only(line: String) -> Shown {
    Shown { outcome: None, lines: vec![line] }
}

fn changed_line(changed: Vec<String>) -> Option<String> {
    (!changed.is_empty()).then(|| format!("changed: {}", changed.join(", ")))
}

fn hex_message(word: &str) -> Result<Vec<u8>, String> {
    if word.len() % 2 == 0 && word.bytes().all(|digit| digit.is_ascii_hexdigit()) {
        Ok(bytes(word))
    } else {
        Err(format!("{} is no message", word))
    }
}

/// A message that a call gave is the next on the air; its line says which.
fn put_on_air(air: &mut Vec<(End, Vec<u8>)>, end: End, message: Option<&[u8]>) -> Vec<String> {
    match message {
        Some(message) => {
            air.push((end, message.to_vec()));
            vec![format!("#{} {}", air.len(), hex(message))]
        }
        None => Vec::new(),
    }
}

/// A step of the manual: the number of its line, and its lines.
struct Step {
    at: usize,
    lines: Vec<String>,
}

/// The steps in the blocks that are marked `exchange`.
fn steps(manual: &str) -> Vec<Step> {
    let mut steps: Vec<Step> = Vec::new();
    let mut inside = false;
    for (at, line) in manual.lines().enumerate() {
        let words = line.split_whitespace().collect::<Vec<_>>().join(" ");
        match (line, steps.last_mut()) {
            ("```exchange", _) => inside = true,
            ("```", _) => inside = false,
            (_, Some(step)) if inside && line.starts_with(' ') => step.lines.push(words),
            _ if inside => steps.push(Step { at: at + 1, lines: vec![words] }),
            _ => {}
        }
    }
    steps
}

/// The lines that the library gives for a step.
fn given(call: &str, shown: &Shown) -> Vec<String> {
    let first = match &shown.outcome {
        Some((number, phase)) => format!("{} | {} | {}", call, number, phase),
        None => call.to_string(),
    };
    [vec![first], shown.lines.clone()].concat()
}

/// Carries out the steps and tells those that differ, with what the library gives.
fn carry_out(manual: &str) -> Result<usize, String> {
    let mut exchange = Exchange::new();
    let mut numbers = BTreeSet::new();
    let steps = steps(manual);
    let (mut different, mut complete) = (0, false);
    for step in &steps {
        let call = step.lines[0].split(" | ").next().unwrap_or_default();
        let shown = exchange.step(call).map_err(|error| format!("line {}: {}", step.at, error))?;
        numbers.extend(shown.outcome.iter().map(|(number, _)| *number));
        complete |= exchange.is_complete();
        let lines = given(call, &shown);
        if lines != step.lines {
            different += 1;
            println!("line {}: the library gives\n{}", step.at, lines.join("\n  "));
        }
    }
    match [0, 6, 9, 12, 23].iter().find(|number| !numbers.contains(number)) {
        _ if different > 0 => Err(format!("{} of {} steps differ", different, steps.len())),
        Some(number) => Err(format!("no step has number {}", number)),
        None if !complete => Err("no upgrade is complete".to_string()),
        None => Ok(steps.len()),
    }
}

/// The header's constants, with their values as they are written there; a sum of an earlier one and a number is worked
/// out.
fn constants(header: &str) -> BTreeMap<&str, String> {
    let mut constants: BTreeMap<&str, String> = BTreeMap::new();
    let lines = header.lines().map(str::trim).filter(|line| line.starts_with("PCP_"));
    for (name, rest) in lines.filter_map(|line| line.split_once(" = ")) {
        let value = rest.split([',', '/']).next().unwrap_or(rest).trim();
        let summed = value.split_once(" + ").and_then(|(earlier, more)| {
            Some(value_in(constants.get(earlier)?)? + value_in(more)?).map(|sum| sum.to_string())
        });
        constants.insert(name, summed.unwrap_or_else(|| value.to_string()));
    }
    constants
}

/// The constants in the manual's tables: rows that begin with a value, then its names.
fn tabled(manual: &str) -> BTreeMap<&str, &str> {
    let rows = manual.lines().filter_map(|line| line.strip_prefix("| ")?.split_once(" | "));
    let pairs = rows.flat_map(|(value, rest)| {
        let names = rest.split(" |").next().unwrap_or_default();
        names.split(", ").map(move |name| (name.trim_matches('`'), value.trim()))
    });
    pairs.filter(|(name, _)| name.starts_with("PCP_")).collect()
}

/// The values that the wrapper has for bytes, by the names that the header would give them.
fn values<T: TryFrom<u8> + Debug>(prefix: &str) -> Vec<(String, usize)> {
    let values = (0..=255).filter_map(|byte| Some((byte, T::try_from(byte).ok()?)));
    values.map(|(byte, value)| (prefix.to_string() + &in_capitals(&value), byte.into())).collect()
}

/// `BadStart` as `BAD_START`.
fn in_capitals(value: &impl Debug) -> String {
    let mut name = String::new();
    for letter in format!("{:?}", value).chars() {
        if letter.is_uppercase() && !name.is_empty() {
            name.push('_');
        }
        name.push(letter.to_ascii_uppercase());
    }
    name
}

/// The wrapper's constants. 0 is no refusal there, so that its two names are not; and one name is shorter in C.
fn wrapped() -> BTreeMap<String, usize> {
    let lengths = [
        ("PCP_HANDLED", 0),
        ("PCP_RECOGNISED", 0),
        ("PCP_SIZE_MIN", SIZE_MIN.into()),
        ("PCP_SIZE_MAX", SIZE_MAX.into()),
        ("PCP_SIZE_PUBLIC", SIZE_PUBLIC.into()),
        ("PCP_DEVICE_RECORD", DEVICE_RECORD),
        ("PCP_GATEWAY_RECORD", GATEWAY_RECORD),
        ("PCP_DEVICE_REPLY", DEVICE_REPLY),
        ("PCP_GATEWAY_REPLY", GATEWAY_REPLY),
        ("PCP_VERSION_LENGTH", VERSION_LENGTH),
        ("PCP_DIGEST_LENGTH", DIGEST_LENGTH),
    ];
    let values = [
        values::<Refusal>("PCP_"),
        values::<Code>("PCP_"),
        values::<Condition>("PCP_"),
        values::<DevicePhase>("PCP_DEVICE_"),
        values::<GatewayPhase>("PCP_GATEWAY_"),
        values::<InstallCode>("PCP_INSTALL_"),
        values::<Ending>("PCP_ENDING_"),
    ];
    let lengths = lengths.iter().map(|(name, value)| (name.to_string(), *value));
    let pairs = lengths.chain(values.concat());
    pairs.map(|(name, value)| (name.replace("INSTALL_INSTALLED", "INSTALLED"), value)).collect()
}

fn value_in(text: &str) -> Option<usize> {
    match text.strip_prefix("0x") {
        Some(digits) => usize::from_str_radix(digits, 16).ok(),
        None => text.parse().ok(),
    }
}

/// The manual's and the wrapper's constants are those of the header.
fn compare_constants(manual: &str, header: &str) -> Result<usize, String> {
    let (constants, tabled, wrapped) = (constants(header), tabled(manual), wrapped());
    let names: BTreeSet<&str> =
        constants.keys().chain(tabled.keys()).copied().chain(wrapped.keys().map(String::as_str)).collect();
    for name in &names {
        let value = constants.get(name).map(String::as_str);
        if tabled.get(name).copied() != value {
            return Err(format!("{} differs from the header", name));
        }
        if wrapped.get(*name).copied() != value.and_then(value_in) {
            return Err(format!("{} differs between the wrapper and the header", name));
        }
    }
    Ok(names.len())
}

fn run() -> Result<String, String> {
    let paths: Vec<String> = env::args().skip(1).collect();
    let (manual, header) = match &paths[..] {
        [manual, header] => (manual, header),
        _ => return Err("usage: manual MANUAL HEADER".to_string()),
    };
    let read = |path: &String| fs::read_to_string(path).map_err(|error| format!("{}: {}", path, error));
    let (manual, header) = (read(manual)?, read(header)?);
    let steps = carry_out(&manual)?;
    let constants = compare_constants(&manual, &header)?;
    Ok(format!("{} steps and {} constants, as library, header and wrapper have them", steps, constants))
}

fn main() -> ExitCode {
    match run() {
        Ok(account) => {
            println!("manual: {}", account);
            ExitCode::SUCCESS
        }
        Err(error) => {
            eprintln!("manual: {}", error);
            ExitCode::FAILURE
        }
    }
}
