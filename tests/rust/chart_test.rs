//! Tests the chart of a capture (tools/chart): on many captures, the numbers and phases that it shows are those of the
//! second reading's device, and it is well-formed; in random upgrades, the gateway's phase that it infers from their
//! messages is that of the reading's gateway.

mod reading;
mod support;

#[path = "../../tools/chart/drawing.rs"]
mod drawing;
#[path = "../../tools/chart/fields.rs"]
mod fields;
#[path = "../../tools/chart/gateway.rs"]
mod gateway;
#[path = "../../tools/chart/rows.rs"]
mod rows;
#[path = "../../tools/chart/runs.rs"]
mod runs;
#[path = "../../tools/chart/story.rs"]
mod story;
#[path = "../../tools/svg.rs"]
mod svg;

use fields::Fields;
use gateway::Inferred;
use pcp::capture::Direction;
use reading::capture::mend;
use reading::device::{Device, CONDITIONS, INSTALLING, READY};
use reading::gateway::{ALREADY_RUNNING, ENDED};
use reading::message::{BOTH_FACTS, DEVICE_ROOM, UPGRADE_RESULTS};
use reading::replay::{replay, INPUT_LIMIT, RUNNING};
use std::collections::BTreeSet;
use std::process::ExitCode;
use story::{Event, Played, Story};
use support::captures::{package, Server};
use support::inputs::all_cases;
use support::random::Random;

const SEED: u64 = 1;
const UPGRADES: u64 = 400;
/// A longer capture's chart is some hundred thousand rows of the same.
const LONGEST: usize = 100_000;

/// A line for each message toward the device: its record, the number and the phase, as replay prints them.
fn shown(story: &Story) -> Vec<String> {
    let shown = |event: &Event| match event {
        Event::Message(passage) if passage.direction == Direction::ToDevice => {
            let number = passage.refusal.map_or(0, u8::from);
            Some(format!("{} {} {}", passage.record?, number, u8::from(passage.after.phase())))
        }
        _ => None,
    };
    story.events.iter().filter_map(shown).collect()
}

/// What replay prints for the mended capture, without the replies.
fn printed(capture: &[u8]) -> Vec<String> {
    let lines = replay(&mend(capture).0);
    lines.lines().map(|line| line.rsplit_once(' ').map_or(line, |(front, _)| front).to_string()).collect()
}

/// Every tag is closed in its turn, and text has no sign that would begin one.
fn is_well_formed(svg: &str) -> bool {
    let mut open: Vec<&str> = Vec::new();
    let mut rest = svg;
    while let Some((text, behind)) = rest.split_once('<') {
        let (tag, after) = match behind.split_once('>') {
            Some(parts) => parts,
            None => return false,
        };
        let name = tag.split([' ', '/']).find(|word| !word.is_empty()).unwrap_or_default();
        let is_text = !text.contains('>')
            && text.replace("&amp;", "").replace("&lt;", "").replace("&gt;", "").find('&').is_none();
        if !is_text || (tag.starts_with('/') && open.pop() != Some(name)) {
            return false;
        }
        if !tag.starts_with('/') && !tag.ends_with('/') {
            open.push(name);
        }
        rest = after;
    }
    open.is_empty() && rest == "\n"
}

fn compare_charts() -> Result<usize, String> {
    let cases = all_cases(SEED);
    let cases: Vec<_> =
        cases.iter().filter(|case| case.pieces.is_none() && case.input.len() <= LONGEST).collect();
    let mut replayed = 0;
    for case in &cases {
        let story = Story::of(&case.input);
        let chart = drawing::draw(&case.name, case.input.len(), &story, &rows::rows(&story));
        if !is_well_formed(&chart) {
            return Err(format!("{}: the chart is not well-formed", case.name));
        }
        // Replay has a device of its own, no installer, and takes no longer input.
        let is_replayed =
            story.played == Played::replays() && !story.has_report && case.input.len() <= INPUT_LIMIT;
        if is_replayed && shown(&story) != printed(&case.input) {
            return Err(format!("{}: other numbers or phases than replay's", case.name));
        }
        replayed += usize::from(is_replayed);
    }
    Ok(replayed)
}

/// An upgrade between the reading's ends, and what is told of its gateway.
struct Upgrade {
    random: Random,
    device: Device,
    image: Vec<u8>,
    map: Vec<u8>,
    server: Server,
    inferred: Inferred,
    /// What the device has sent.
    sent: Vec<Vec<u8>>,
    met: BTreeSet<(u8, u8)>,
}

impl Upgrade {
    fn new(seed: u64) -> Upgrade {
        Upgrade {
            random: Random::new(seed),
            device: Device::make(RUNNING).1,
            image: vec![0; 1_024],
            map: vec![0; 4],
            server: Server::new("V1.0", 32, &package(seed, 150), true),
            inferred: Inferred::default(),
            sent: Vec::new(),
            met: BTreeSet::new(),
        }
    }

    /// The gateway sends a message; the device may hear it, and then answers.
    fn send(&mut self, message: &[u8]) -> Result<(), String> {
        if message.is_empty() {
            return Ok(());
        }
        self.inferred.sends(&Fields::of(Direction::ToDevice, message));
        self.compare()?;
        if self.random.once_in(6) {
            return Ok(());
        }
        let condition = if self.random.once_in(20) { self.random.pick(&CONDITIONS) } else { READY };
        let (image, map) = (&mut self.image, &mut self.map);
        let reply = self.device.receive(message, BOTH_FACTS, condition, image, map, DEVICE_ROOM).reply;
        self.hear(&reply)
    }

    /// The device sends a message; what the gateway hears is recorded there.
    fn hear(&mut self, message: &[u8]) -> Result<(), String> {
        if message.is_empty() || self.random.once_in(6) {
            return Ok(());
        }
        self.sent.push(message.to_vec());
        self.inferred.hears(&Fields::of(Direction::FromDevice, message));
        let reply = self.server.receive(message);
        if self.server.gateway.ending == ALREADY_RUNNING {
            return Ok(()); // its target shows in no message
        }
        self.compare()?;
        self.send(&reply)
    }

    fn compare(&mut self) -> Result<(), String> {
        let gateway = &self.server.gateway;
        let phase = self.inferred.phase.map(u8::from);
        let ending = self.inferred.ending.map_or(0, u8::from);
        if (phase, ending) != (Some(gateway.phase), gateway.ending) {
            return Err(format!("inferred {:?}, where the gateway is {:?}", self.inferred, gateway));
        }
        self.met.insert((gateway.phase, gateway.ending));
        Ok(())
    }

    fn run(&mut self) -> Result<(), String> {
        for _ in 0..60 {
            if self.server.gateway.ending == ALREADY_RUNNING {
                break;
            }
            if self.random.once_in(40) {
                self.image[0] ^= 1; // a download that fails
            }
            if !self.sent.is_empty() && self.random.once_in(4) {
                let late = self.sent[self.random.below(self.sent.len())].clone();
                self.hear(&late)?;
            }
            if self.random.once_in(2) {
                let message = self.server.next_message();
                self.send(&message)?;
            } else {
                let message = self.device.next_message(&self.image, &self.map, DEVICE_ROOM).reply;
                self.hear(&message)?;
            }
            if self.device.phase == INSTALLING && self.random.once_in(3) {
                let code = if self.random.once_in(3) { self.random.pick(&UPGRADE_RESULTS) } else { 0x00 };
                self.device.install_finished(code);
            }
        }
        Ok(())
    }
}

/// How many of the phases and endings were met; all but the one that cannot be told.
fn compare_gateways() -> Result<usize, String> {
    let mut met = BTreeSet::new();
    for seed in 0..UPGRADES {
        let mut upgrade = Upgrade::new(seed);
        upgrade.run().map_err(|error| format!("upgrade {seed}: {error}"))?;
        met.extend(upgrade.met);
    }
    let endings = met.iter().filter(|(phase, _)| *phase == ENDED).count();
    match (met.len(), endings) {
        (9, 5) => Ok(met.len()),
        _ => Err(format!("not every phase and ending was met: {met:?}")),
    }
}

fn main() -> ExitCode {
    match compare_charts().and_then(|charts| Ok((charts, compare_gateways()?))) {
        Ok((charts, phases)) => {
            println!("chart: {charts} captures with replay's numbers and phases; {phases} phases and endings of gateways inferred");
            ExitCode::SUCCESS
        }
        Err(error) => {
            eprintln!("chart: {error}");
            ExitCode::FAILURE
        }
    }
}
