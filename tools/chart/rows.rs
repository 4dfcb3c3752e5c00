//! The rows of a chart: a message each, or a run of fragments, or a damage.

use super::fields::{label, Fields};
use super::gateway::Inferred;
use super::runs;
use super::story::{Event, Passage, Story};
use pcp::capture::Direction;
use pcp::{Device, DevicePhase, Refusal};
use std::collections::BTreeSet;
use std::ops::Range;

/// How much a row stands out.
#[derive(Clone, Copy, Debug, PartialEq, Eq)]
pub enum Weight {
    Plain,
    /// An answer of replay's device.
    Supposed,
    Repeated,
    Refused,
}

/// What stands between the life lines.
#[derive(Debug, PartialEq, Eq)]
pub enum Body {
    Arrow {
        direction: Direction,
        label: String,
        weight: Weight,
    },
    /// Fragments in a row, and the requests among them; of which download they are.
    Run {
        lines: Vec<(Direction, String, Weight)>,
        download: usize,
    },
    Damage {
        line: String,
    },
}

/// A remark beside a row, with the number that it is about.
#[derive(Debug, PartialEq, Eq)]
pub struct Note {
    pub number: Option<Refusal>,
    pub text: String,
}

/// The gateway's phase from a row on.
#[derive(Clone, Debug, PartialEq, Eq)]
pub struct GatewayMove {
    pub to: Inferred,
    /// It is in that phase when it sends; otherwise it gets there by what it hears.
    pub before: bool,
    pub is_new: bool,
}

/// The device's phase from a row on, and of which download.
#[derive(Clone, Copy, Debug, PartialEq, Eq)]
pub struct DeviceMove {
    pub phase: DevicePhase,
    pub download: usize,
    pub code: Option<u16>,
}

#[derive(Debug, PartialEq, Eq)]
pub struct Row {
    /// The numbers of its first and its last record.
    pub records: Option<(usize, usize)>,
    pub body: Body,
    /// How often in a row.
    pub times: usize,
    pub notes: Vec<Note>,
    pub gateway: Option<GatewayMove>,
    pub device: Option<DeviceMove>,
}

/// From how many records on a run is one row.
const RUN_LENGTH: usize = 3;

pub fn rows(story: &Story) -> Vec<Row> {
    let mut rows = Vec::new();
    let mut download = Download::default();
    let mut rest = &story.events[..];
    while let Some(event) = rest.first() {
        let run = runs::run(rest);
        if run.len() >= RUN_LENGTH {
            rows.push(runs::row(&run, &mut download));
            rest = &rest[run.len()..];
            continue;
        }
        let row = match event {
            Event::Message(passage) => message_row(passage, &mut download),
            Event::Damage(bytes, refusal) => {
                download.is_whole = false;
                damage_row(bytes, *refusal)
            }
        };
        match rows.last_mut() {
            Some(last) if last.is_repeated_by(&row) => last.repeat(&row),
            _ => rows.push(row),
        }
        rest = &rest[1..];
    }
    rows
}

impl Row {
    /// The same message again, with the same outcome, and nothing has moved.
    fn is_repeated_by(&self, row: &Row) -> bool {
        let moves = |row: &Row| row.gateway.is_some() || row.device.is_some();
        self.body == row.body && self.notes == row.notes && !moves(self) && !moves(row)
    }

    fn repeat(&mut self, row: &Row) {
        self.times += 1;
        if let (Some((_, last)), Some((_, number))) = (&mut self.records, row.records) {
            *last = number;
        }
    }
}

/// What is kept of a download from row to row.
#[derive(Default)]
pub struct Download {
    /// Which it is.
    pub number: usize,
    /// What the device asked for.
    pub asked: BTreeSet<u16>,
    /// No damage since it began, so that all requests are known.
    is_whole: bool,
}

impl Download {
    fn begin(&mut self) {
        *self = Download { number: self.number + 1, asked: BTreeSet::new(), is_whole: true };
    }

    /// A fragment that the device did not ask for, though it asked for others.
    pub fn is_stray(&self, index: u16) -> bool {
        self.is_whole && !self.asked.is_empty() && !self.asked.contains(&index)
    }
}

fn message_row(passage: &Passage, download: &mut Download) -> Row {
    let fields = passage.fields();
    let begins = matches!(fields, Fields::Announcement { .. }) && passage.before != passage.after;
    let moves = begins || passage.before.phase() != passage.after.phase();
    let mut is_stray = false;
    match fields {
        Fields::Announcement { .. } if begins => download.begin(),
        Fields::Request { index, .. } => drop(download.asked.insert(index)),
        Fields::Fragment { result: 0x00, index, .. } => is_stray = download.is_stray(index),
        _ => {}
    }
    let weight = match passage.refusal {
        Some(Refusal::AlreadyStored) => Weight::Repeated,
        Some(_) => Weight::Refused,
        None if passage.record.is_none() => Weight::Supposed,
        None => Weight::Plain,
    };
    let mut text = label(passage.direction, &passage.message);
    if let Some(version) = passage.message.get(2).filter(|byte| fields != Fields::Other && **byte != 0x01) {
        text += &format!(", version byte {version:02X}");
    }
    let mut notes = Vec::new();
    if let Some(refusal) = passage.refusal {
        let place = if passage.direction == Direction::FromDevice { "at the gateway: " } else { "" };
        notes.push(Note { number: Some(refusal), text: format!("{place}{refusal}") });
    }
    notes.extend(effect(passage, &fields).map(plain));
    notes.extend(is_stray.then(|| plain("not asked for".to_string())));
    if let Some(other) = &passage.otherwise {
        notes.push(plain(format!("as played: {}", label(passage.direction, other))));
    }
    Row {
        records: record_numbers(&[passage]),
        body: Body::Arrow { direction: passage.direction, label: text, weight },
        times: 1,
        notes,
        gateway: gateway_move(passage),
        device: moves.then(|| DeviceMove {
            phase: passage.after.phase(),
            download: download.number,
            code: passage.after.check_code(),
        }),
    }
}

fn damage_row(bytes: &Range<usize>, refusal: Refusal) -> Row {
    let line = format!("bytes {} to {}, {} in all, are passed over", bytes.start, bytes.end - 1, bytes.len());
    Row {
        records: None,
        body: Body::Damage { line },
        times: 1,
        notes: vec![Note { number: Some(refusal), text: refusal.to_string() }],
        gateway: None,
        device: None,
    }
}

/// What a message that was handled has done to the download.
fn effect(passage: &Passage, fields: &Fields) -> Option<String> {
    let (before, after) = (&passage.before, &passage.after);
    let holds = matches!(before.phase(), DevicePhase::Loading | DevicePhase::Loaded | DevicePhase::Acked);
    match fields {
        _ if passage.refusal.is_some() => None,
        Fields::Announcement { .. } if after.phase() == DevicePhase::Loading && before != after => {
            Some(begun(before, after, holds))
        }
        Fields::Announcement { .. } if holds && resumed(before, fields) => {
            Some(format!("resumed: {}", progress(after)))
        }
        Fields::Fragment { result: 0x00, .. } => Some(match (after.phase(), after.check_code()) {
            (DevicePhase::Loaded, Some(code)) => {
                format!("{}, and their check is the code {code:04X}", progress(after))
            }
            (DevicePhase::Loaded, None) => format!("{}; there is no code to test", progress(after)),
            (DevicePhase::Failed, _) => format!("{}, but their check is not the code", progress(after)),
            _ => progress(after),
        }),
        Fields::Fragment { .. } | Fields::Result { .. }
            if after.phase() == DevicePhase::Idle && before.phase() != DevicePhase::Failed =>
        {
            Some("the download is given up".to_string()).filter(|_| holds)
        }
        _ => None,
    }
}

/// What an announcement begins, and what it ends.
fn begun(before: &Device, after: &Device, holds: bool) -> String {
    let same = |device: &Device| (device.target(), device.size(), device.total());
    match before.stored() {
        given_up if holds && given_up > 0 => {
            let why = match after.check_code() {
                None => "no code: ",
                Some(_) if same(before) == same(after) => "another code: ",
                Some(_) => "",
            };
            format!("{why}begins afresh, the {given_up} fragments stored are given up")
        }
        _ => format!("begins: 0 of {} stored", after.total()),
    }
}

/// Whether an announcement that changed nothing is of the download held: others that change nothing are answered no.
fn resumed(before: &Device, fields: &Fields) -> bool {
    match fields {
        Fields::Announcement { version, size, total, code } => {
            before.target().as_bytes() == *version
                && (before.size(), before.total()) == (*size, *total)
                && before.check_code() == Some(*code)
        }
        _ => false,
    }
}

pub fn progress(device: &Device) -> String {
    format!("{} of {} stored", device.stored(), device.total())
}

pub fn plain(text: String) -> Note {
    Note { number: None, text }
}

pub fn gateway_move(passage: &Passage) -> Option<GatewayMove> {
    let [before, meanwhile, after] = &passage.gateway;
    if before.is_as(after) {
        return None;
    }
    Some(GatewayMove {
        to: after.clone(),
        before: meanwhile.is_as(after),
        is_new: before.is_followed_by(after),
    })
}

pub fn record_numbers(run: &[&Passage]) -> Option<(usize, usize)> {
    let mut numbers = run.iter().filter_map(|passage| passage.record);
    let first = numbers.next()?;
    Some((first, numbers.next_back().unwrap_or(first)))
}
