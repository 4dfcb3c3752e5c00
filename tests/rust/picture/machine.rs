//! The phases of an end and what leads from one to another, found by making every call in every state that calls reach.

use crate::reading::number;
use std::collections::{BTreeMap, BTreeSet};

/// A phase as the picture names it.
pub type Phase = &'static str;

/// What one end is given: a message, its result if it carries one, and the case, where these and the phase do not decide
/// what follows.
#[derive(Clone, Copy, Debug, PartialEq, Eq, PartialOrd, Ord)]
pub struct Event {
    pub message: &'static str,
    pub result: &'static str,
    pub case: &'static str,
}

/// A call that was made.
pub struct Call<E> {
    pub event: Event,
    pub number: u8,
    /// The reply's result.
    pub answer: Option<u8>,
    pub after: E,
}

/// One end of the upgrade in some state.
pub trait End: Clone + PartialEq {
    fn phase(&self) -> Phase;
    /// What it sends when it is asked.
    fn sends(&self) -> Option<String>;
    /// The calls that can be made.
    fn calls(&self) -> Vec<Call<Self>>;
}

/// What an event leads to.
#[derive(Clone, Copy, Debug, PartialEq, Eq)]
struct Outcome {
    phase: Phase,
    has_reply: bool,
}

/// What calls do in each phase.
#[derive(Default)]
pub struct Machine {
    steps: BTreeMap<(Phase, Event), Outcome>,
    pub sends: BTreeMap<Phase, BTreeSet<String>>,
    /// The messages that change anything in some state.
    changing: BTreeSet<&'static str>,
}

/// Tells calls that are handled and answered, and a repeat that differs, from the others, of which it sees that they change
/// nothing.
fn moves<E: End>(before: &E, call: &Call<E>) -> Result<bool, String> {
    let moves =
        matches!(call.number, number::HANDLED | number::REPEAT_DIFFERS) && call.answer.unwrap_or(0) == 0;
    if moves || call.after == *before {
        Ok(moves)
    } else {
        Err(format!("{}: {:?} is refused, and changes something", before.phase(), call.event))
    }
}

impl Machine {
    pub fn explore<E: End>(start: E) -> Result<Machine, String> {
        let mut machine = Machine::default();
        let mut reached = vec![start];
        let mut at = 0;
        while at < reached.len() {
            let before = reached[at].clone();
            machine.sends.entry(before.phase()).or_default().extend(before.sends());
            for call in before.calls() {
                if moves(&before, &call)? {
                    machine.add(&before, &call)?;
                    if !reached.contains(&call.after) {
                        reached.push(call.after);
                    }
                }
            }
            at += 1;
        }
        Ok(machine)
    }

    /// A phase and an event must decide the phase that follows; otherwise the cases are too coarse.
    fn add<E: End>(&mut self, before: &E, call: &Call<E>) -> Result<(), String> {
        if call.after != *before {
            self.changing.insert(call.event.message);
        }
        let outcome = Outcome { phase: call.after.phase(), has_reply: call.answer.is_some() };
        let known = *self.steps.entry((before.phase(), call.event)).or_insert(outcome);
        if known == outcome {
            Ok(())
        } else {
            Err(format!("{}: {:?} has {:?} and {:?}", before.phase(), call.event, known, outcome))
        }
    }

    pub fn phases(&self) -> impl Iterator<Item = Phase> + '_ {
        self.sends.keys().copied()
    }

    /// The messages that every phase answers, and that never change anything.
    pub fn everywhere(&self) -> BTreeSet<&'static str> {
        let is_answered = |phase: Phase, message: &str| {
            self.steps.keys().any(|(at, event)| *at == phase && event.message == message)
        };
        let messages = self.steps.keys().map(|(_, event)| event.message);
        let unchanging = messages.filter(|message| !self.changing.contains(message));
        unchanging.filter(|message| self.phases().all(|phase| is_answered(phase, message))).collect()
    }

    /// What leads from a phase to a phase, in as few words as tell it from all else that can come.
    pub fn labels(&self, from: Phase, to: Phase) -> Vec<String> {
        let everywhere = self.everywhere();
        let here: Vec<(Event, Outcome)> = self
            .steps
            .iter()
            .filter(|((phase, event), _)| *phase == from && !everywhere.contains(event.message))
            .map(|((_, event), outcome)| (*event, *outcome))
            .collect();
        let messages: BTreeSet<&str> = here.iter().map(|(event, _)| event.message).collect();
        messages.iter().flat_map(|message| labels_of_message(&here, message, to)).collect()
    }

    pub fn arrows(&self) -> BTreeSet<(Phase, Phase)> {
        let arrows = self.steps.iter().map(|((from, _), outcome)| (*from, outcome.phase));
        arrows.filter(|(from, to)| from != to).collect()
    }
}

/// One label if all of a message leads there; otherwise one for each result, with the cases if the result does not decide.
fn labels_of_message(here: &[(Event, Outcome)], message: &str, to: Phase) -> Vec<String> {
    let of_message: Vec<_> = here.iter().filter(|(event, _)| event.message == message).collect();
    let arrives: Vec<_> = of_message.iter().filter(|(_, outcome)| outcome.phase == to).collect();
    let results: BTreeSet<&str> = arrives.iter().map(|(event, _)| event.result).collect();
    let reply = if arrives.iter().any(|(_, outcome)| outcome.has_reply) { " / 00" } else { "" };
    if results.len() > 1 && arrives.len() == of_message.len() {
        return vec![format!("{}{}", message, reply)];
    }
    let label = |result: &&str| {
        let decides =
            of_message.iter().all(|(event, outcome)| event.result != *result || outcome.phase == to);
        let of_result = arrives.iter().filter(|(event, _)| event.result == *result);
        let cases: Vec<&str> = of_result.map(|(event, _)| event.case).collect();
        let result = if result.is_empty() { String::new() } else { format!(" {}", result) };
        let case = if decides { String::new() } else { format!(" [{}]", cases.join(" or ")) };
        format!("{}{}{}{}", message, result, case, reply)
    };
    results.iter().map(label).collect()
}
