//! Runs of fragments that are one row: those that a download stores, or finds stored already, or those that are refused
//! with one number; and the requests among them.

use super::fields::Fields;
use super::rows::{gateway_move, plain, progress, record_numbers, Body, Download, Note, Row, Weight};
use super::story::{Event, Passage};
use pcp::capture::Direction;
use pcp::{DevicePhase, Refusal};
use std::collections::BTreeSet;

#[derive(Clone, Copy, PartialEq, Eq)]
enum Kind {
    Request,
    Taken,
    Refused(Refusal),
}

/// What an event is in a run; nothing where it is worth a row of its own.
fn kind(passage: &Passage) -> Option<Kind> {
    let stays = passage.before.phase() == passage.after.phase();
    match (passage.fields(), passage.refusal) {
        (Fields::Request { .. }, None) => Some(Kind::Request),
        (Fields::Fragment { result: 0x00, .. }, None) if stays => {
            Some(Kind::Taken).filter(|_| passage.after.phase() == DevicePhase::Loading)
        }
        (Fields::Fragment { result: 0x00, .. }, Some(Refusal::AlreadyStored)) => Some(Kind::Taken),
        (Fields::Fragment { result: 0x00, .. }, Some(refusal)) if stays => Some(Kind::Refused(refusal)),
        _ => None,
    }
}

/// The run at the front, during which the gateway does not move; its first message may show where it is.
pub fn run(events: &[Event]) -> Vec<&Passage> {
    let mut run: Vec<&Passage> = Vec::new();
    let mut fragments = Kind::Request;
    for event in events {
        let passage = match event {
            Event::Message(passage) => passage,
            Event::Damage(..) => break,
        };
        let moves = !passage.gateway[0].is_as(&passage.gateway[2]);
        match kind(passage) {
            _ if moves && !run.is_empty() => break,
            None => break,
            Some(Kind::Request) => {}
            Some(kind) if fragments == Kind::Request || fragments == kind => fragments = kind,
            Some(_) => break,
        }
        run.push(passage);
    }
    run
}

/// The indexes of a run, by what became of them.
#[derive(Default)]
struct Indexes {
    requested: BTreeSet<u16>,
    requests: usize,
    came: BTreeSet<u16>,
    again: BTreeSet<u16>,
    stray: BTreeSet<u16>,
    lengths: BTreeSet<usize>,
    refusal: Option<Refusal>,
}

impl Indexes {
    fn of(run: &[&Passage], download: &mut Download) -> Indexes {
        let mut all = Indexes::default();
        for passage in run {
            match passage.fields() {
                Fields::Request { index, .. } => {
                    all.requests += 1;
                    all.requested.insert(index);
                    download.asked.insert(index);
                }
                Fields::Fragment { index, data, .. } => {
                    all.came.insert(index);
                    all.lengths.insert(data.len());
                    if download.is_stray(index) {
                        all.stray.insert(index);
                    }
                    match passage.refusal {
                        Some(Refusal::AlreadyStored) => drop(all.again.insert(index)),
                        refusal => all.refusal = refusal,
                    }
                }
                _ => {}
            }
        }
        all
    }

    fn lines(&self) -> Vec<(Direction, String, Weight)> {
        let mut lines = Vec::new();
        if self.requests > 0 {
            let times = match self.requests > self.requested.len() {
                true => format!(" {} times,", self.requests),
                false => String::new(),
            };
            let line = format!("21 asks{times} for {}", spans(&self.requested));
            lines.push((Direction::FromDevice, line, Weight::Plain));
        }
        if !self.came.is_empty() {
            let fragments = if self.came.len() == 1 { "fragment" } else { "fragments" };
            let line = format!("21 {fragments} {}, {}", spans(&self.came), bytes_each(&self.lengths));
            let weight = if self.refusal.is_some() { Weight::Refused } else { Weight::Plain };
            lines.push((Direction::ToDevice, line, weight));
        }
        lines
    }

    fn notes(&self) -> Vec<Note> {
        let again = Some(Refusal::AlreadyStored).filter(|_| !self.again.is_empty());
        let again =
            again.map(|number| Note { number: Some(number), text: format!("again: {}", spans(&self.again)) });
        let refused = self.refusal.map(|number| Note { number: Some(number), text: number.to_string() });
        let stray = Some(format!("not asked for: {}", spans(&self.stray))).filter(|_| !self.stray.is_empty());
        [again, refused, stray.map(plain)].into_iter().flatten().collect()
    }
}

pub fn row(run: &[&Passage], download: &mut Download) -> Row {
    let all = Indexes::of(run, download);
    let is_stored = !all.came.is_empty() && all.refusal.is_none();
    let progress = Some(progress(&run[run.len() - 1].after)).filter(|_| is_stored);
    Row {
        records: record_numbers(run),
        body: Body::Run { lines: all.lines(), download: download.number },
        times: 1,
        notes: progress.map(plain).into_iter().chain(all.notes()).collect(),
        gateway: gateway_move(run[0]),
        device: None,
    }
}

fn bytes_each(lengths: &BTreeSet<usize>) -> String {
    let (least, most) = (lengths.iter().min().unwrap_or(&0), lengths.iter().max().unwrap_or(&0));
    if least == most {
        format!("{most} bytes each")
    } else {
        format!("{least} to {most} bytes each")
    }
}

/// Indexes as `0 to 4, 6`; where they are very scattered, the first ones and how many there are.
fn spans(indexes: &BTreeSet<u16>) -> String {
    const MOST: usize = 5;
    let mut spans: Vec<(u16, u16)> = Vec::new();
    for index in indexes {
        match spans.last_mut() {
            Some((_, last)) if *last + 1 == *index => *last = *index,
            _ => spans.push((*index, *index)),
        }
    }
    let shown = spans.iter().take(MOST).map(|(first, last)| match last - first {
        0 => first.to_string(),
        1 => format!("{first}, {last}"),
        _ => format!("{first} to {last}"),
    });
    let text = shown.collect::<Vec<_>>().join(", ");
    if spans.len() > MOST {
        format!("{text}, .. ({} in all)", indexes.len())
    } else {
        text
    }
}
