//! `link_test [SEED]` runs the reading's two ends against each other. First over a link that loses, repeats, delays and
//! reorders, until the upgrade has succeeded; then through random lists of calls, after each of which demand 3 of 01
//! must hold. In both, digests are given, right ones and wrong ones (02, 2026-05).

mod reading;
mod support;

use reading::device::{Device, CONDITIONS, INSTALLING, READY};
use reading::gateway::{cut, Gateway, ALREADY_RUNNING, ENDED, OFFER, SUCCESS};
use reading::md5::md5;
use reading::message::{
    rounded_up, Facts, ToDevice, ToGateway, Version, BOTH_FACTS, DEVICE_ROOM, EXECUTE, GATEWAY_ROOM,
    UPGRADE_RESULTS,
};
use std::{env, process};
use support::messages::{announce, written};
use support::random::Random;
use support::version;

const DEFAULT_SEED: u64 = 1;
const UPGRADES: usize = 2_000;
const LISTS: usize = 20_000;

/// Calls after which an upgrade counts as stuck for good.
const PATIENCE: usize = 400_000;
/// Calls without change after which the gateway is started anew.
const STANDSTILL: usize = 300;

#[derive(Clone, Copy, Debug, PartialEq, Eq)]
enum End {
    Device,
    Gateway,
}

/// A message on its way to one end.
#[derive(Clone)]
struct Sent {
    to: End,
    bytes: Vec<u8>,
}

/// Both ends with what their callers lend.
struct Pair {
    device: Device,
    image: Vec<u8>,
    map: Vec<u8>,
    gateway: Gateway,
    package: Vec<u8>,
}

/// What a caller states in one call.
#[derive(Clone, Copy)]
struct Call {
    condition: u8,
    facts: Facts,
    device_room: usize,
    gateway_room: usize,
}

const FAIR_CALL: Call =
    Call { condition: READY, facts: BOTH_FACTS, device_room: DEVICE_ROOM, gateway_room: GATEWAY_ROOM };

/// Mostly as it should be; now and then with one thing wrong.
fn any_call(random: &mut Random) -> Call {
    let mut call = FAIR_CALL;
    match random.below(40) {
        0 => call.condition = random.pick(&CONDITIONS),
        1 => call.condition = random.byte(),
        2 => call.facts.supported = false,
        3 => call.facts.is_pcp = false,
        4 => call.device_room -= 1,
        5 => call.gateway_room -= 1,
        _ => {}
    }
    call
}

impl Pair {
    /// A fresh device with memory for the package and some more, and a gateway that has just started.
    fn new(random: &mut Random) -> Pair {
        let size = random.between(32..=80);
        let length = random.between(1..=12 * size);
        let total = rounded_up(length, size);
        let package = random.bytes(length);
        let image = size * total + random.below(70);
        let map = rounded_up(total, 8) + random.below(2);
        Pair {
            device: Device::make(version("V0.9")).1,
            image: random.bytes(image),
            map: random.bytes(map),
            gateway: started(size as u16, &package, random.once_in(2)),
            package,
        }
    }

    fn ask(&self, end: End, call: Call) -> Vec<u8> {
        match end {
            End::Device => self.device.next_message(&self.image, &self.map, call.device_room).reply,
            End::Gateway => self.gateway.next_message(&self.package, call.gateway_room).reply,
        }
    }

    fn give(&mut self, end: End, message: &[u8], call: Call) -> Vec<u8> {
        match end {
            End::Device => self.give_device(message, call),
            End::Gateway => self.gateway.receive(message, call.facts, &self.package, call.gateway_room).reply,
        }
    }

    fn give_device(&mut self, message: &[u8], call: Call) -> Vec<u8> {
        let (image, map) = (&mut self.image, &mut self.map);
        self.device.receive(message, call.facts, call.condition, image, map, call.device_room).reply
    }

    fn package_is_in_image(&self) -> bool {
        self.image[..self.package.len()] == self.package
    }

    /// A digest is given: mostly the package's.
    fn give_digest(&mut self, random: &mut Random) {
        let any = random.bytes(16).try_into().expect("16 bytes");
        let own = md5(&self.package);
        self.device.give_digest(random.pick(&[own, own, own, any]));
    }
}

fn target() -> Version {
    version("V1.0")
}

fn started(size: u16, package: &[u8], with_code: bool) -> Gateway {
    let (number, gateway) = Gateway::start(target(), size, package, with_code);
    assert_eq!(number, 0, "the gateway starts");
    gateway
}

/// The end that what one end gives is meant for.
fn other(end: End) -> End {
    match end {
        End::Device => End::Gateway,
        End::Gateway => End::Device,
    }
}

fn either(random: &mut Random) -> End {
    random.pick(&[End::Device, End::Gateway])
}

/// Runs one upgrade to success. A gateway that has ended otherwise, or a pair that stands still, gets a new gateway
/// on the same package, with or without a code.
fn upgrade(random: &mut Random) -> Result<(), String> {
    let mut pair = Pair::new(random);
    let mut air: Vec<Sent> = Vec::new();
    let mut still = 0;
    for _ in 0..PATIENCE {
        let before = (pair.device.clone(), pair.gateway.clone());
        upgrade_call(random, &mut pair, &mut air);
        if pair.gateway.phase == ENDED && [SUCCESS, ALREADY_RUNNING].contains(&pair.gateway.ending) {
            return upgraded(&pair);
        }
        still = if before == (pair.device.clone(), pair.gateway.clone()) { still + 1 } else { 0 };
        if pair.gateway.phase == ENDED || still > STANDSTILL {
            pair.gateway = started(pair.gateway.size, &pair.package, random.once_in(2));
            still = 0;
        }
    }
    Err(format!("no success: device in {}, gateway in {}", pair.device.phase, pair.gateway.phase))
}

fn upgraded(pair: &Pair) -> Result<(), String> {
    if pair.device.running != target() {
        Err("the device does not run the target".to_string())
    } else if !pair.package_is_in_image() {
        Err("the image is not the package".to_string())
    } else {
        Ok(())
    }
}

/// One call of an upgrade: an end is asked, or a message arrives; before it the installer may end, or a digest be given.
fn upgrade_call(random: &mut Random, pair: &mut Pair, air: &mut Vec<Sent>) {
    let mut call = FAIR_CALL;
    if random.once_in(30) {
        call.condition = random.pick(&CONDITIONS);
    }
    if pair.device.phase == INSTALLING && random.once_in(4) {
        pair.device.install_finished(random.pick(&[0x00, 0x00, 0x00, 0x0A]));
    }
    if random.once_in(20) {
        pair.give_digest(random);
    }
    let (end, reply) = if air.is_empty() || random.once_in(3) {
        let end = either(random);
        (end, pair.ask(end, call))
    } else {
        let sent = air.remove(random.below(air.len()));
        (sent.to, pair.give(sent.to, &sent.bytes, call))
    };
    let copies = if reply.is_empty() { 0 } else { random.pick(&[0, 1, 1, 1, 1, 2]) };
    air.extend(vec![Sent { to: other(end), bytes: reply }; copies]);
    if air.len() > 12 {
        air.remove(random.below(air.len()));
    }
}

/// What a list has brought about so far.
struct Watch {
    /// The image behind the package, as it was at the start.
    behind: Vec<u8>,
    behind_is_same: bool,
    /// The device has answered 23 with 00, and then an installer's end with 00.
    executed: bool,
    installed: bool,
}

/// How often the lists have come to the two points that demand 3 speaks about; to the first also with a digest set.
#[derive(Default)]
struct Reached {
    executed: usize,
    digested: usize,
    succeeded: usize,
}

/// Runs one list of calls; demand 3 is tested after each.
fn list(random: &mut Random, reached: &mut Reached) -> Result<(), String> {
    let mut pair = Pair::new(random);
    bring_to_offer(&mut pair);
    history(random, &mut pair);
    let behind = pair.image[pair.package.len()..].to_vec();
    let mut watch = Watch { behind, behind_is_same: true, executed: false, installed: false };
    let mut air: Vec<Sent> = Vec::new();
    let calls = random.between(0..=300);
    for _ in 0..calls {
        list_call(random, &mut pair, &mut air, &mut watch)?;
        if pair.gateway.phase == ENDED && pair.gateway.ending == SUCCESS && !watch.installed {
            return Err("success without an installation".to_string());
        }
    }
    reached.executed += usize::from(watch.executed);
    reached.digested += usize::from(watch.executed && pair.device.digest_set == 1);
    reached.succeeded += usize::from(pair.gateway.phase == ENDED && pair.gateway.ending == SUCCESS);
    Ok(())
}

fn bring_to_offer(pair: &mut Pair) {
    let answer = ToGateway::Query { version: version("V0.8") }.write(DEVICE_ROOM);
    pair.give(End::Gateway, &answer.expect("the answer fits the table"), FAIR_CALL);
    assert_eq!(pair.gateway.phase, OFFER, "the gateway offers");
}

/// Calls at the device before the start, with any messages. What they store under this gateway's announcement is this
/// gateway's package.
fn history(random: &mut Random, pair: &mut Pair) {
    let calls = random.pick(&[0, 3, 15, 60]);
    for _ in 0..calls {
        let call = any_call(random);
        match random.below(13) {
            0 => drop(pair.ask(End::Device, call)),
            1 => drop(pair.device.install_finished(random.pick(&UPGRADE_RESULTS))),
            2 => pair.give_digest(random),
            _ => {
                let message = history_message(random, pair);
                pair.give_device(&message, call);
            }
        }
    }
}

fn history_message(random: &mut Random, pair: &Pair) -> Vec<u8> {
    match random.below(16) {
        0 => written(ToDevice::Query),
        1 => written(ToDevice::Execute),
        2 => written(ToDevice::DownloadResult { result: random.pick(&[0x00, 0x80]) }),
        3 => written(ToDevice::UpgradeResult { result: 0x00 }),
        4 => random.bytes(20),
        5 => written(ToDevice::Fragment { result: random.pick(&[0x80, 0x81]), index: 0, data: &[] }),
        6 | 7 => history_announcement(random, pair),
        _ => history_fragment(random, pair),
    }
}

fn history_announcement(random: &mut Random, pair: &Pair) -> Vec<u8> {
    let mut offer = pair.gateway.announcement();
    match random.below(8) {
        0 => offer.version = version("V0.7"),
        1 => offer.code = random.word(),
        2 => offer.code = 0,
        3 => offer.size = random.between(32..=40) as u16,
        4 => offer.total = random.between(1..=8) as u16,
        _ => {}
    }
    announce(offer.version, offer.size, offer.total, offer.code)
}

fn history_fragment(random: &mut Random, pair: &Pair) -> Vec<u8> {
    let held = pair.device.held();
    let index = random.below(usize::from(held.total) + 1) as u16;
    let own = held == pair.gateway.announcement() && index < held.total;
    let noise = random.bytes(usize::from(held.size).max(1));
    let data = if own { cut(&pair.package, held.size, index) } else { &noise };
    written(ToDevice::Fragment { result: 0x00, index, data })
}

/// One call of a list. What is given was put on the air earlier in the list; it stays there.
fn list_call(
    random: &mut Random,
    pair: &mut Pair,
    air: &mut Vec<Sent>,
    watch: &mut Watch,
) -> Result<(), String> {
    let call = any_call(random);
    if random.once_in(12) {
        let code = random.pick(&[0x00, 0x00, 0x0A, 0x33]);
        let number = pair.device.install_finished(code);
        watch.installed |= watch.executed && code == 0x00 && number == 0;
        return Ok(());
    }
    if random.once_in(20) {
        pair.give_digest(random);
        return Ok(());
    }
    let (end, reply) = if air.is_empty() || random.once_in(3) {
        let end = either(random);
        (end, pair.ask(end, call))
    } else {
        let sent = some_sent(random, air);
        let reply = pair.give(sent.to, &sent.bytes, call);
        watch_execute(pair, watch, &sent, &reply)?;
        (sent.to, reply)
    };
    if !reply.is_empty() {
        air.push(Sent { to: other(end), bytes: reply });
    }
    Ok(())
}

/// Mostly one of the last messages, sometimes any.
fn some_sent(random: &mut Random, air: &[Sent]) -> Sent {
    let among = if random.once_in(6) { air.len() } else { air.len().min(3) };
    air[air.len() - 1 - random.below(among)].clone()
}

/// Demand 3's sentence about the reply 23 with 00.
fn watch_execute(pair: &Pair, watch: &mut Watch, sent: &Sent, reply: &[u8]) -> Result<(), String> {
    watch.behind_is_same &= pair.image[pair.package.len()..] == watch.behind;
    let executes = ToGateway::read(BOTH_FACTS, reply) == Ok(ToGateway::Execute { result: 0x00 });
    if sent.to == End::Device && sent.bytes.get(3) == Some(&EXECUTE) && executes {
        watch.executed = true;
        if !pair.package_is_in_image() {
            return Err("executing, but the image is not the package".to_string());
        }
        if !watch.behind_is_same {
            return Err("executing, but bytes behind the package have changed".to_string());
        }
    }
    Ok(())
}

fn seed() -> Option<u64> {
    match env::args().nth(1) {
        Some(seed) => seed.parse().ok(),
        None => Some(DEFAULT_SEED),
    }
}

/// Runs everything up to the first failure.
fn run(random: &mut Random) -> Result<Reached, String> {
    let mut reached = Reached::default();
    for _ in 0..UPGRADES {
        upgrade(random)?;
    }
    for _ in 0..LISTS {
        list(random, &mut reached)?;
    }
    if reached.executed == 0 || reached.digested == 0 || reached.succeeded == 0 {
        return Err("no list reached execution, that with a digest, or success".to_string());
    }
    Ok(reached)
}

fn main() {
    let seed = seed().unwrap_or_else(|| {
        eprintln!("usage: link_test [SEED]");
        process::exit(2);
    });
    match run(&mut Random::new(seed)) {
        Ok(Reached { executed, digested, succeeded }) => {
            println!(
                "lists that reached execution: {}, of these with a digest: {}, success: {}",
                executed, digested, succeeded
            );
            println!("link: {} upgrades and {} lists, 0 failed", UPGRADES, LISTS);
        }
        Err(failure) => {
            println!("seed {}: {}", seed, failure);
            println!("link: failed");
            process::exit(1);
        }
    }
}
