//! What a capture tells: its messages in order, with what each leads to at both ends, and its damages.

use super::fields::Fields;
use super::gateway::Inferred;
use pcp::capture::{Direction, Item, Reader, Record};
use pcp::{
    Code, Condition, Device, DevicePhase, Facts, Gateway, InstallCode, Refusal, Version, DEVICE_REPLY,
    GATEWAY_REPLY,
};
use std::ops::Range;

/// The device to which a capture is played.
#[derive(Clone, Copy, Debug, PartialEq, Eq)]
pub struct Played {
    pub running: Version,
    /// The lengths of its image and its map.
    pub image: usize,
    pub map: usize,
}

impl Played {
    /// The device of the replay program.
    pub fn replays() -> Played {
        Played { running: Version::new(b"V0.9").expect("a version text"), image: 16_384, map: 64 }
    }

    /// That device, as far as the recorded one was not another: with the version that this said first, and with memory for
    /// each announcement that it accepted.
    fn of(items: &[(Item, Option<Refusal>)]) -> Played {
        let mut played = Played::replays();
        let (mut announced, mut has_version) = ((0, 0), false);
        let records = items.iter().filter_map(|(item, _)| match item {
            Item::Record(record) if recognised(record.message) => Some(record),
            _ => None,
        });
        for record in records {
            match Fields::of(record.direction, record.message) {
                Fields::Announcement { size, total, .. } => announced = (size.into(), total.into()),
                Fields::Running { version, .. } if !has_version => {
                    played.running = version_of(version).unwrap_or(played.running);
                    has_version = true;
                }
                Fields::Result { code: Code::Announce, result: 0x00 } => {
                    let (size, total): (usize, usize) = announced;
                    played.image = played.image.max(size * total);
                    played.map = played.map.max((total + 7) / 8);
                }
                _ => {}
            }
        }
        played
    }
}

/// A version as messages have it, filled up with 00.
fn version_of(bytes: &[u8]) -> Option<Version> {
    let length = bytes.iter().position(|byte| *byte == 0).unwrap_or(bytes.len());
    Version::new(&bytes[..length]).ok()
}

/// A message on its way.
pub struct Passage {
    /// The record's number from 0, as replay counts; none for an answer that the capture does not have.
    pub record: Option<usize>,
    pub direction: Direction,
    pub message: Vec<u8>,
    /// Why the end that it goes to refuses it.
    pub refusal: Option<Refusal>,
    /// The device before and after it.
    pub before: Device,
    pub after: Device,
    /// The gateway before it, while it is on its way, and after it.
    pub gateway: [Inferred; 3],
    /// What the device answers to which this is played, where the capture has another answer; and what it reports of the
    /// download, where the capture has another report: the device recorded may have been given a digest.
    pub otherwise: Option<Vec<u8>>,
}

impl Passage {
    pub fn fields(&self) -> Fields<'_> {
        Fields::of(self.direction, &self.message)
    }
}

pub enum Event {
    Message(Box<Passage>),
    /// Bytes that are no record, and why not.
    Damage(Range<usize>, Refusal),
}

pub struct Story {
    pub events: Vec<Event>,
    /// How many records there are.
    pub records: usize,
    pub played: Played,
    /// The capture has what the device sent; otherwise the answers are those of replay's device.
    pub has_answers: bool,
    /// A report was taken as the installer's end.
    pub has_report: bool,
}

impl Story {
    pub fn of(capture: &[u8]) -> Story {
        let is_answer =
            |item: &Item| matches!(item, Item::Record(record) if record.direction == Direction::FromDevice);
        let items = items(capture);
        let played = Played::of(&items);
        let mut teller = Teller {
            story: Story {
                events: Vec::new(),
                records: 0,
                played,
                has_answers: items.iter().any(|(item, _)| is_answer(item)),
                has_report: false,
            },
            player: Player::new(&played),
            gateway: Inferred::default(),
            answer: None,
        };
        for (item, refusal) in items {
            match (item, refusal) {
                (Item::Record(record), _) => teller.record(record),
                (Item::Passed(bytes), refusal) => {
                    teller.story.events.push(Event::Damage(bytes, refusal.unwrap_or(Refusal::BadMark)));
                }
            }
        }
        teller.story
    }
}

/// What a mending reader gives, with the refusal of a plain one where bytes are passed over.
fn items(capture: &[u8]) -> Vec<(Item<'_>, Option<Refusal>)> {
    let mut reader = Reader::new(capture);
    let mut items = Vec::new();
    loop {
        let refusal = reader.clone().next_record().err();
        match reader.next_mended() {
            Some(item) => items.push((item, refusal)),
            None => return items,
        }
    }
}

/// A story while it is told.
struct Teller {
    story: Story,
    player: Player,
    gateway: Inferred,
    /// What the device has just answered to which this is played.
    answer: Option<Vec<u8>>,
}

impl Teller {
    fn record(&mut self, record: Record) {
        let number = self.story.records;
        self.story.records += 1;
        match record.direction {
            Direction::ToDevice => self.toward(number, record.message),
            Direction::FromDevice => {
                let answer = match Code::of(record.message) {
                    Some(Code::DownloadResult) => self.player.reports_download(),
                    _ => self.answer.take(),
                };
                let other = |answer: &Vec<u8>| {
                    answer[..] != *record.message && Code::of(answer) == Code::of(record.message)
                };
                self.from(Some(number), record.message, answer.filter(other));
            }
        }
    }

    fn toward(&mut self, number: usize, message: &[u8]) {
        let (gateway, before) = (self.gateway.clone(), self.player.device.clone());
        if recognised(message) {
            self.gateway.sends(&Fields::of(Direction::ToDevice, message));
        }
        let (refusal, answer) = self.player.takes(message);
        self.story.events.push(Event::Message(Box::new(Passage {
            record: Some(number),
            direction: Direction::ToDevice,
            message: message.to_vec(),
            refusal,
            before,
            after: self.player.device.clone(),
            gateway: [gateway, self.gateway.clone(), self.gateway.clone()],
            otherwise: None,
        })));
        self.answer = answer;
        if !self.story.has_answers {
            if let Some(answer) = self.answer.take() {
                self.from(None, &answer, None);
            }
        }
    }

    fn from(&mut self, record: Option<usize>, message: &[u8], otherwise: Option<Vec<u8>>) {
        let (gateway, before) = (self.gateway.clone(), self.player.device.clone());
        let refusal = refusal_at_gateway(message);
        // What the capture does not have, no gateway has heard.
        if refusal.is_none() && record.is_some() {
            let fields = Fields::of(Direction::FromDevice, message);
            self.gateway.hears(&fields);
            self.story.has_report |= self.player.reports(&fields);
        }
        self.story.events.push(Event::Message(Box::new(Passage {
            record,
            direction: Direction::FromDevice,
            message: message.to_vec(),
            refusal,
            before,
            after: self.player.device.clone(),
            gateway: [gateway.clone(), gateway, self.gateway.clone()],
            otherwise,
        })));
    }
}

fn recognised(message: &[u8]) -> bool {
    pcp::recognise(Facts::BOTH, message).is_ok()
}

/// Why no gateway would take it, in any phase: any gateway says so.
fn refusal_at_gateway(message: &[u8]) -> Option<Refusal> {
    let mut gateway = Gateway::start(b"-", pcp::SIZE_MIN, b"-", false).expect("a package");
    let answer = gateway.receive(Facts::BOTH, message, b"-", &mut [0; GATEWAY_REPLY]).err();
    answer.filter(|refusal| *refusal != Refusal::NoUse)
}

/// The device to which the capture is played, with its memory.
struct Player {
    device: Device,
    image: Vec<u8>,
    map: Vec<u8>,
}

impl Player {
    fn new(played: &Played) -> Player {
        Player {
            device: Device::new(played.running.as_bytes()).expect("a version text"),
            image: vec![0; played.image],
            map: vec![0; played.map],
        }
    }

    fn takes(&mut self, message: &[u8]) -> (Option<Refusal>, Option<Vec<u8>>) {
        let mut reply = [0; DEVICE_REPLY];
        let (image, map) = (&mut self.image, &mut self.map);
        match self.device.receive(Facts::BOTH, Condition::Ready, message, image, map, &mut reply) {
            Ok(answer) => (None, answer.reply.map(<[u8]>::to_vec)),
            Err(refusal) => (Some(refusal), None),
        }
    }

    /// What it says of a download that is complete.
    fn reports_download(&self) -> Option<Vec<u8>> {
        let mut message = [0; DEVICE_REPLY];
        let sent = self.device.next_message(&self.image, &self.map, &mut message).ok().flatten();
        sent.filter(|sent| Code::of(sent) == Some(Code::DownloadResult)).map(<[u8]>::to_vec)
    }

    /// There is no installer. Where the capture has the device's report, the installer had ended as it says.
    fn reports(&mut self, message: &Fields) -> bool {
        match message {
            Fields::UpgradeResult { result, .. } if self.device.phase() == DevicePhase::Installing => {
                InstallCode::try_from(*result)
                    .map_or(false, |code| self.device.install_finished(code).is_ok())
            }
            _ => false,
        }
    }
}
