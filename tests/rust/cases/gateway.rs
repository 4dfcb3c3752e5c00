//! The gateway's driver.

use super::messages::{asks, message, reports, runs, sealed};
use super::{expect, CONFIG};
use crate::drivers::{self, Action, GatewayEnd, Language};
use pcp::driver::{Config, GATEWAY_STATE};
use pcp::GatewayPhase::{self, *};

const OLD: &[u8] = b"V1.0";
const TARGET: &[u8] = b"V2.0";
/// 11 fragments of 48 bytes.
const PACKAGE: &[u8] = &[0x5A; 500];

/// Outcomes.
const NONE: u32 = 0;
const SUCCESS: u32 = 1;
const NO_ROOM: u32 = 2;
const FAILED: u32 = 3;
const GATEWAYS: u32 = 4;
const TIME: u32 = 5;

/// A gateway's host that keeps what is sent and saved.
struct Host<'p> {
    language: Language,
    config: Config,
    package: &'p [u8],
    end: Box<dyn GatewayEnd + 'p>,
    slots: [Vec<u8>; 2],
    saves: u64,
    now: u64,
    /// What the driver waits for; nothing once it told the end.
    wake: Option<u64>,
    sent: Vec<Vec<u8>>,
}

impl<'p> Host<'p> {
    fn new(language: Language, config: &Config, package: &'p [u8]) -> Host<'p> {
        let end = drivers::gateway(language, config, TARGET, package, [&[], &[]], 1_000).expect("starts");
        let mut host = Host {
            language,
            config: config.clone(),
            package,
            end,
            slots: [Vec::new(), Vec::new()],
            saves: 0,
            now: 1_000,
            wake: None,
            sent: Vec::new(),
        };
        host.work();
        host
    }

    /// The process ends, and starts with a clock that begins again.
    fn restart(&mut self) {
        self.now = 5;
        let slots = [&self.slots[0][..], &self.slots[1][..]];
        self.end = drivers::gateway(self.language, &self.config, TARGET, self.package, slots, self.now)
            .expect("starts");
        self.work();
    }

    /// Does what the driver tells until it waits.
    fn work(&mut self) {
        loop {
            match self.end.poll(self.now) {
                Action::Save { slot, bytes } => {
                    self.slots[slot] = bytes.to_vec();
                    self.saves += 1;
                }
                Action::Send(bytes) => self.sent.push(bytes.to_vec()),
                Action::Wait(until) => {
                    self.wake = Some(until);
                    break;
                }
                Action::End(_) => {
                    self.wake = None;
                    break;
                }
                action => panic!("no action of a gateway: {:?}", action),
            }
        }
    }

    fn give(&mut self, message: &[u8]) -> u8 {
        let number = self.end.receive(self.now, message);
        self.work();
        number
    }

    /// Time passes until the driver wants to be polled.
    fn pass(&mut self) {
        self.now = self.wake.expect("not at the end");
        self.work();
    }

    fn wait(&mut self, time: u64) {
        let until = self.now + time;
        while self.wake.map_or(false, |wake| wake <= until) {
            self.pass();
        }
        self.now = until;
        self.work();
    }

    /// What was sent since the last look, by code and first byte of data.
    fn codes(&mut self) -> Vec<(u8, Option<u8>)> {
        self.sent.drain(..).map(|message| (message[3], message.get(8).copied())).collect()
    }

    fn phase(&self) -> GatewayPhase {
        GatewayPhase::try_from(self.end.record()[0]).expect("a phase")
    }

    fn size(&self) -> u16 {
        u16::from_be_bytes([self.end.record()[18], self.end.record()[19]])
    }

    fn outcome(&self) -> u32 {
        self.end.look()[0]
    }

    fn gateways(&self) -> u32 {
        self.end.look()[3]
    }

    /// Brings the gateway at work to a phase.
    fn come_to(&mut self, phase: GatewayPhase) {
        while self.phase() != Ask || self.sent.is_empty() {
            self.sent.clear();
            self.pass();
        }
        if phase != Ask {
            self.give(&runs(OLD));
            self.wait(self.config.quiet);
        }
        if phase == Serve || phase == Run {
            self.give(&message(20, &[0x00]));
        }
        if phase == Run {
            self.give(&asks(TARGET, 0));
            self.give(&message(22, &[0x00]));
        }
        assert_eq!(self.phase(), phase);
        self.sent.clear();
    }

    /// Waits for the next gateway; how long that took, and its size.
    fn next(&mut self) -> (u64, u16) {
        let (from, before) = (self.now, self.gateways());
        while self.gateways() == before {
            self.pass();
        }
        (self.now - from, self.size())
    }
}

/// Duty 19: the first message goes out after the wait, and that of Offer too. Asking goes on by the timer.
pub fn waits(language: Language) -> Result<(), String> {
    let mut host = Host::new(language, &CONFIG, PACKAGE);
    expect("saved at the start", host.saves, 1)?;
    expect("waits before the start", host.wake, Some(1_030))?;
    host.pass();
    expect("asks", host.codes(), vec![(19, None)])?;
    expect("asks again", host.wake, Some(1_040))?;
    host.wait(25);
    expect("asks again", host.codes(), vec![(19, None); 2])?;
    host.give(&runs(OLD));
    expect("Offer", host.phase(), Offer)?;
    expect("waits in Offer", (host.codes(), host.wake), (vec![], Some(host.now + 30)))?;
    host.pass();
    expect("announces", host.codes(), vec![(20, Some(b'V'))])?;
    host.wait(20);
    expect("announces again", host.codes(), vec![(20, Some(b'V')); 2])?;
    host.give(&message(20, &[0x00]));
    host.wait(300);
    expect("nothing to send in Serve", (host.phase(), host.codes()), (Serve, vec![]))?;
    for index in [0, 1, 1, 7] {
        host.give(&asks(TARGET, index));
    }
    expect("serves", host.codes(), vec![(21, Some(0x00)); 4])?;
    expect("progress", host.end.look()[4..].to_vec(), vec![8, 11])
}

/// 21 and 22 outside Serve and Run; 22 not after ending 3; 24 never.
pub fn dropped(language: Language) -> Result<(), String> {
    let requests = [asks(TARGET, 0), message(22, &[0x00]), reports(0x00, OLD)];
    let mut host = Host::new(language, &CONFIG, PACKAGE);
    for phase in [None, Some(Ask), Some(Offer)] {
        if let Some(phase) = phase {
            host.come_to(phase);
        }
        let numbers: Vec<u8> = requests.iter().map(|request| host.give(request)).collect();
        expect("dropped", numbers, vec![9, 9, 0])?;
        expect("answered", host.codes(), vec![(24, Some(0x80))])?;
        if phase.is_none() {
            expect("an old answer to 19 before the start", host.give(&runs(TARGET)), 9)?;
        }
    }
    host.give(&message(20, &[0x00]));
    expect("fails", host.give(&message(22, &[0x07])), 0)?;
    expect("ended", (host.phase(), host.codes()), (Ended, vec![(22, Some(0x00))]))?;
    let numbers: Vec<u8> = requests.iter().map(|request| host.give(request)).collect();
    expect("dropped after ending 3", numbers, vec![9, 0, 0])?;
    expect("answered after ending 3", host.codes(), vec![(22, Some(0x80)), (24, Some(0x80))])?;
    expect("no message of PCP", host.give(b"hello"), 3)
}

/// Duty 20: no 23 after one was answered with 00, and later answers do not count.
pub fn order(language: Language) -> Result<(), String> {
    let mut host = Host::new(language, &CONFIG, PACKAGE);
    host.come_to(Serve);
    host.give(&message(22, &[0x00]));
    expect("answers and orders", host.codes(), vec![(22, Some(0x00)), (23, None)])?;
    host.wait(20);
    expect("orders again", host.codes(), vec![(23, None); 2])?;
    let saves = host.saves;
    expect("answered", host.give(&message(23, &[0x00])), 0)?;
    expect("saved", host.saves, saves + 1)?;
    expect("an answer to an older order", host.give(&message(23, &[0x01])), 9)?;
    host.give(&message(22, &[0x00]));
    host.codes();
    host.wait(500);
    expect("orders no more", (host.codes(), host.phase()), (vec![], Run))?;
    host.restart();
    host.wait(500);
    expect("nor after a restart", (host.codes(), host.phase()), (vec![], Run))?;
    host.give(&reports(0x00, TARGET));
    expect("reported", (host.codes(), host.outcome()), (vec![(24, Some(0x00))], SUCCESS))
}

/// What follows each ending: when, and with which size.
pub fn endings(language: Language) -> Result<(), String> {
    let (soon, later) = (30, 700);
    for (phase, last, after, size) in [
        (Offer, message(20, &[0x01]), later, 48),
        (Offer, message(20, &[0x02]), later, 48),
        (Offer, message(20, &[0x04]), later, 48),
        (Offer, message(20, &[0x7F]), later, 48),
        (Offer, message(20, &[0x03]), soon, 48),
        (Offer, message(20, &[0x05]), soon, 500),
        (Offer, message(20, &[0x09]), soon, 500),
        (Serve, message(22, &[0x07]), soon, 48),
        (Run, message(23, &[0x01]), later, 48),
        (Run, message(23, &[0x04]), later, 48),
        (Run, reports(0x01, OLD), later, 48),
        (Run, reports(0x04, OLD), later, 48),
        (Run, reports(0x0A, OLD), later, 48),
        (Run, reports(0x00, OLD), later, 48),
    ] {
        let mut host = Host::new(language, &CONFIG, PACKAGE);
        host.come_to(phase);
        host.give(&last);
        expect("ended", (host.phase(), host.end.look()[1]), (Ended, u32::from(last[8])))?;
        expect(&format!("after {:02X?}", &last[3..9]), host.next(), (after, size))?;
    }
    for (phase, last) in [(Ask, runs(TARGET)), (Run, reports(0x00, TARGET))] {
        let mut host = Host::new(language, &CONFIG, PACKAGE);
        host.come_to(phase);
        host.give(&last);
        expect("success", host.outcome(), SUCCESS)?;
    }
    Ok(())
}

/// Failed downloads and installations are counted, over gateways and restarts; a busy device is no failure.
pub fn failures(language: Language) -> Result<(), String> {
    let config = Config { failure_limit: 3, ..CONFIG };
    let mut host = Host::new(language, &config, PACKAGE);
    host.come_to(Run);
    host.give(&reports(0x01, OLD));
    host.come_to(Serve);
    host.give(&message(22, &[0x07]));
    host.come_to(Run);
    host.give(&reports(0x0A, OLD));
    host.restart();
    expect("goes on", host.outcome(), NONE)?;
    host.come_to(Run);
    host.give(&reports(0x7F, OLD));
    expect("gives up", (host.outcome(), host.end.look()[1]), (FAILED, 0x7F))
}

/// Sizes that a device refuses: less waste after 05, less map after 09, and none at last.
pub fn sizes(language: Language) -> Result<(), String> {
    let package = [0x5A; 1_001];
    let waste = |size: u16| (usize::from(size) - package.len() % usize::from(size)) % usize::from(size);
    let config = Config { size: 500, ..CONFIG };
    let mut host = Host::new(language, &config, &package);
    let mut tried = vec![500];
    loop {
        host.come_to(Offer);
        host.give(&message(20, &[0x05]));
        if host.outcome() != NONE {
            break;
        }
        tried.push(host.next().1);
    }
    for pair in tried.windows(2) {
        let half = waste(pair[0]) / 2;
        let expected = (32..=500).rev().find(|size| waste(*size) <= half);
        expect("less waste", Some(pair[1]), expected)?;
    }
    expect(
        "1,001 is 7 times 143",
        (host.outcome(), host.end.look()[1], tried.pop()),
        (NO_ROOM, 0x05, Some(143)),
    )?;

    let mut host = Host::new(language, &CONFIG, PACKAGE);
    host.come_to(Offer);
    host.give(&message(20, &[0x09]));
    expect("less map", host.next().1, 500)?;
    host.come_to(Offer);
    host.give(&message(20, &[0x09]));
    expect("none left", (host.outcome(), host.end.look()[1]), (NO_ROOM, 0x09))
}

/// No progress for the longest installation.
pub fn standstills(language: Language) -> Result<(), String> {
    let after = 600 + 30;
    // In Ask no other gateway would help. What was spent is saved.
    let mut host = Host::new(language, &CONFIG, PACKAGE);
    host.come_to(Ask);
    let saves = host.saves;
    host.wait(3_000);
    expect("one gateway in Ask", (host.gateways(), host.saves), (1, saves + 5))?;
    expect("asks in Ask", host.codes().len(), 300)?;

    for (size, next) in [(48, 48), (500, 500), (501, 500), (1_024, 500)] {
        let config = Config { size, ..CONFIG };
        let mut host = Host::new(language, &config, PACKAGE);
        host.come_to(Ask);
        host.give(&runs(OLD));
        expect("after Offer", host.next(), (after, next))?;
    }

    // In Serve, asked for nothing: the device may have been away, and keeps what it has. At the third time it may be in
    // Acked. Then the first size again.
    let mut host = Host::new(language, &CONFIG, PACKAGE);
    for next in [48, 48, 32, 32, 32, 48] {
        host.come_to(Serve);
        expect("after Serve, not asked", host.next(), (after, next))?;
    }
    host.come_to(Serve);
    host.give(&asks(TARGET, 0));
    host.wait(100);
    host.give(&asks(TARGET, 1));
    host.wait(100);
    host.give(&asks(TARGET, 1));
    expect("after Serve, asked", host.next(), (after - 100, 48))?;

    // Where it has said that it has all, it is in Acked, unless it did not hear the answer: then it says so again.
    let mut host = Host::new(language, &CONFIG, PACKAGE);
    host.come_to(Run);
    expect("after Run, not answered", host.next(), (after, 48))?;
    host.come_to(Serve);
    expect("after Serve, delivered", host.next(), (after, 32))?;
    host.come_to(Run);
    host.give(&message(23, &[0x01]));
    host.come_to(Serve);
    host.restart();
    expect("after ending 4", host.next(), (after, 48))?;
    host.come_to(Run);
    host.give(&message(23, &[0x00]));
    expect("after Run, answered", host.next(), (after, 48))?;

    // A report that comes during the wait counts.
    host.come_to(Run);
    host.give(&message(23, &[0x00]));
    host.wait(610);
    host.give(&reports(0x00, TARGET));
    expect("reported late", host.outcome(), SUCCESS)
}

/// One fragment asked for again and again, by two gateways: half the size, unless the map is too short for that.
pub fn stuck(language: Language) -> Result<(), String> {
    let config = Config { size: 100, ..CONFIG };
    let mut host = Host::new(language, &config, PACKAGE);
    for expected in [100, 50, 50, 50] {
        host.come_to(Serve);
        for _ in 0..20 {
            host.give(&asks(TARGET, 3));
            host.wait(10);
        }
        expect("stuck", host.next().1, expected)?;
    }
    host.come_to(Offer);
    host.give(&message(20, &[0x09]));
    expect("the guess is given up", host.next().1, 500)?;

    // Asked once or twice, the device has gone; and one that moved on is not stuck.
    let mut host = Host::new(language, &config, PACKAGE);
    for _ in 0..4 {
        host.come_to(Serve);
        host.give(&asks(TARGET, 3));
        host.give(&asks(TARGET, 3));
        expect("gone", host.next().1, 100)?;
        host.come_to(Serve);
        for index in [3, 4] {
            for _ in 0..9 {
                host.give(&asks(TARGET, index));
            }
        }
        expect("moved", host.next().1, 100)?;
    }

    // A restart forgets the fragment asked for: that it is asked for again does not count as another.
    let mut host = Host::new(language, &config, PACKAGE);
    for expected in [100, 50] {
        host.come_to(Serve);
        for round in 0..12 {
            if round == 6 {
                host.restart();
            }
            host.give(&asks(TARGET, 3));
            host.wait(10);
        }
        expect("stuck, with a restart", host.next().1, expected)?;
    }

    // Between two that were stuck one that brought the package.
    let mut host = Host::new(language, &config, PACKAGE);
    for between in [false, true, false] {
        host.come_to(if between { Run } else { Serve });
        if !between {
            for _ in 0..9 {
                host.give(&asks(TARGET, 3));
            }
        }
        expect("not in a row", host.next().1, 100)?;
    }
    Ok(())
}

/// Limits of gateways and of time; the time counts over restarts.
pub fn limits(language: Language) -> Result<(), String> {
    let config = Config { gateway_limit: 3, ..CONFIG };
    let mut host = Host::new(language, &config, PACKAGE);
    for _ in 0..3 {
        expect("under way", host.outcome(), NONE)?;
        host.come_to(Offer);
        host.give(&message(20, &[0x01]));
    }
    host.wait(700);
    expect("gateways", (host.outcome(), host.gateways()), (GATEWAYS, 3))?;

    let config = Config { time_limit: 3_000, ..CONFIG };
    let mut host = Host::new(language, &config, PACKAGE);
    host.wait(2_999);
    expect("before the time", host.outcome(), NONE)?;
    host.wait(1);
    expect("time", host.outcome(), TIME)?;

    let mut host = Host::new(language, &config, PACKAGE);
    host.wait(1_500);
    host.come_to(Run); // saves what was spent
    host.restart();
    host.wait(1_000);
    expect("before the time, restarted", host.outcome(), NONE)?;
    host.wait(500);
    expect("time, restarted", host.outcome(), TIME)?;
    // What was given up may still succeed.
    host.restart();
    expect("time is kept", host.outcome(), TIME)?;
    Ok(())
}

/// Waits begin anew, and what was known is known.
pub fn restarts(language: Language) -> Result<(), String> {
    let mut host = Host::new(language, &CONFIG, PACKAGE);
    host.wait(20);
    host.restart();
    expect("before the start", host.wake, Some(5 + 30))?;
    host.come_to(Ask);
    host.restart();
    expect("in Ask", (host.phase(), host.wake), (Ask, Some(5 + 10)))?;
    host.pass();
    host.give(&runs(OLD));
    host.wait(20);
    host.sent.clear();
    host.restart();
    expect("in Offer", (host.phase(), host.wake, host.codes()), (Offer, Some(5 + 30), vec![]))?;
    host.pass();
    host.give(&message(20, &[0x00]));
    host.restart();
    expect("in Serve", (host.phase(), host.wake), (Serve, Some(5 + 10)))?;
    host.wait(599);
    expect("in Serve, not asked", host.gateways(), 1)?;
    expect("the first time", host.next(), (31, 48))?;
    host.come_to(Serve);
    expect("the second time", host.next(), (630, 48))?;
    host.come_to(Serve);
    host.restart();
    expect("the third time, known after a restart", host.next(), (630, 32))?;
    for asked in [false, false, true, false, false] {
        host.come_to(Serve);
        if asked {
            host.give(&asks(TARGET, 0));
            host.restart();
        }
        expect("that it was asked is known", host.next(), (630, 32))?;
    }
    host.come_to(Run);
    host.give(&message(23, &[0x01]));
    host.wait(650);
    host.restart();
    expect("the longer wait begins anew", host.next(), (700, 32))?;
    host.come_to(Run);
    host.give(&reports(0x00, TARGET));
    host.restart();
    host.sent.clear();
    expect("success is kept", host.outcome(), SUCCESS)?;
    host.give(&reports(0x00, TARGET));
    expect("and reports are answered", host.codes(), vec![(24, Some(0x80))])
}

/// Saves that are torn, of another kind, version or package count as none.
pub fn foreign(language: Language) -> Result<(), String> {
    let mut host = Host::new(language, &CONFIG, PACKAGE);
    host.come_to(Serve);
    let save = host.slots.iter().max_by_key(|slot| slot[11]).expect("saves").clone();
    let started = |version: &[u8], package: &[u8], save: &[u8]| {
        let end = drivers::gateway(language, &CONFIG, version, package, [save, &[]], 0).expect("starts");
        (end.record()[0], end.look()[3])
    };
    expect("whole", started(TARGET, PACKAGE, &save), (Serve as u8, 1))?;
    expect("in a longer slot", started(TARGET, PACKAGE, &[&save[..], &[7; 9]].concat()), (Serve as u8, 1))?;
    expect("another version", started(b"V2.1", PACKAGE, &save), (Ask as u8, 0))?;
    expect("another length", started(TARGET, &PACKAGE[1..], &save), (Ask as u8, 0))?;
    let mut package = PACKAGE.to_vec();
    package[7] ^= 1;
    expect("another package", started(TARGET, &package, &save), (Ask as u8, 0))?;
    for length in 0..GATEWAY_STATE {
        expect("cut", started(TARGET, PACKAGE, &save[..length]), (Ask as u8, 0))?;
    }
    for bit in 0..8 * GATEWAY_STATE {
        let mut damaged = save.clone();
        damaged[bit / 8] ^= 1 << (bit % 8);
        expect("damaged", started(TARGET, PACKAGE, &damaged), (Ask as u8, 0))?;
    }
    for (at, byte) in [(0, b'D'), (1, 0), (1, 2), (13, 7), (42, 5), (43, 6)] {
        let mut other = save.clone();
        other[at] = byte;
        sealed(&mut other);
        expect("not of this driver", started(TARGET, PACKAGE, &other), (Ask as u8, 0))?;
    }
    // A new beginning is newer than what it replaces.
    let mut end = drivers::gateway(language, &CONFIG, b"V2.1", PACKAGE, [&save, &[]], 0).expect("starts");
    match end.poll(0) {
        Action::Save { slot, bytes } => {
            expect("newer", (slot, bytes[11]), (usize::from((save[11] + 1) % 2), save[11] + 1))
        }
        action => Err(format!("{:?} at first", action)),
    }
}

/// The end is told when no report has come for longer than a device is silent after a query; and then too reports are
/// answered.
pub fn end(language: Language) -> Result<(), String> {
    let mut host = Host::new(language, &CONFIG, PACKAGE);
    host.come_to(Run);
    host.give(&reports(0x00, TARGET));
    expect("lingers", host.wake, Some(host.now + 3 * 30 + 60))?;
    host.wait(50);
    host.codes();
    host.give(&reports(0x00, TARGET));
    expect("again", (host.codes(), host.wake), (vec![(24, Some(0x80))], Some(host.now + 3 * 30 + 60)))?;
    host.pass();
    expect("the end", host.wake, None)?;
    host.give(&reports(0x00, TARGET));
    expect("answered at the end too", host.codes(), vec![(24, Some(0x80))])?;

    // A report that comes after giving up.
    let config = Config { time_limit: 400, ..CONFIG };
    let mut host = Host::new(language, &config, PACKAGE);
    host.come_to(Run);
    host.give(&message(23, &[0x00]));
    host.wait(400);
    expect("gave up", host.outcome(), TIME)?;
    host.give(&reports(0x00, TARGET));
    expect("succeeds all the same", host.outcome(), SUCCESS)
}
