//! The gateway's phases and endings (01, "The gateway").

use super::machine::{Call, End, Event, Machine, Phase};
use super::plan::{along, right, route, Place, Plan};
use super::svg::Frame;
use crate::reading::gateway::{Gateway, ENDED};
use crate::reading::message::{
    ToGateway, ANNOUNCE_ANSWERS, BOTH_FACTS, DEVICE_ROOM, DOWNLOAD_RESULTS, EXECUTE_ANSWERS, GATEWAY_ROOM,
    UPGRADE_RESULTS,
};
use crate::support::version;

const ASK: Phase = "0 Ask";
const OFFER: Phase = "1 Offer";
const SERVE: Phase = "2 Serve";
const RUN: Phase = "3 Run";
const PHASES: [Phase; 4] = [ASK, OFFER, SERVE, RUN];

const SUCCESS: Phase = "0 success";
const ALREADY_RUNNING: Phase = "1 already running";
const NOT_ACCEPTED: Phase = "2 not accepted";
const DOWNLOAD_FAILED: Phase = "3 download failed";
const NOT_EXECUTED: Phase = "4 not executed";
const UPGRADE_FAILED: Phase = "5 upgrade failed";
const ENDINGS: [Phase; 6] =
    [SUCCESS, ALREADY_RUNNING, NOT_ACCEPTED, DOWNLOAD_FAILED, NOT_EXECUTED, UPGRADE_FAILED];

const TARGET: &str = "V1.0";
/// Two fragments, the last of them short.
const PACKAGE: [u8; 37] = [0x5A; 37];

impl End for Gateway {
    fn phase(&self) -> Phase {
        if self.phase == ENDED {
            ENDINGS[usize::from(self.ending)]
        } else {
            PHASES[usize::from(self.phase)]
        }
    }

    fn sends(&self) -> Option<String> {
        let message = self.next_message(&PACKAGE, GATEWAY_ROOM).reply;
        message.get(3).map(u8::to_string)
    }

    fn calls(&self) -> Vec<Call<Gateway>> {
        messages().iter().map(|message| given(self, message)).collect()
    }
}

fn given(gateway: &Gateway, message: &ToGateway) -> Call<Gateway> {
    let mut after = gateway.clone();
    let bytes = message.write(DEVICE_ROOM).expect("the message fits the table");
    let answer = after.receive(&bytes, BOTH_FACTS, &PACKAGE, GATEWAY_ROOM);
    Call { event: event(message), number: answer.number, answer: answer.reply.get(8).copied(), after }
}

fn event(message: &ToGateway) -> Event {
    let result_name = |result: &u8| if *result == 0x00 { "00" } else { "other" };
    let case = |running| if running == version(TARGET) { "target version" } else { "another version" };
    let (message, result, case) = match message {
        ToGateway::Query { version } => ("19", "", case(*version)),
        ToGateway::Announce { result } => ("20", result_name(result), ""),
        ToGateway::Fragment { .. } => ("21", "", ""),
        ToGateway::DownloadResult { result } => ("22", result_name(result), ""),
        ToGateway::Execute { result } => ("23", result_name(result), ""),
        ToGateway::UpgradeResult { result, version } => ("24", result_name(result), case(*version)),
    };
    Event { message, result, case }
}

fn messages() -> Vec<ToGateway> {
    let mut messages = Vec::new();
    for version in [version(TARGET), version("V0.9")] {
        messages.push(ToGateway::Query { version });
        messages.extend([0, 1, 2].map(|index| ToGateway::Fragment { version, index }));
        messages.extend(UPGRADE_RESULTS.map(|result| ToGateway::UpgradeResult { result, version }));
    }
    messages.extend(ANNOUNCE_ANSWERS.map(|result| ToGateway::Announce { result }));
    messages.extend(DOWNLOAD_RESULTS.map(|result| ToGateway::DownloadResult { result }));
    messages.extend(EXECUTE_ANSWERS.map(|result| ToGateway::Execute { result }));
    messages
}

pub fn draw() -> Result<String, String> {
    let (_, start) = Gateway::start(version(TARGET), 32, &PACKAGE, true);
    PLAN.draw(&Machine::explore(start)?)
}

const fn place(phase: Phase, top: i32, height: i32) -> Place {
    Place { phase, frame: Frame { left: 60, top, width: 190, height }, class: "plain" }
}

const fn ending(phase: Phase, top: i32, class: &'static str) -> Place {
    Place { phase, frame: Frame { left: 580, top, width: 190, height: 40 }, class }
}

const PLAN: Plan = Plan {
    title: "The gateway's phases and endings",
    size: (840, 704),
    group: Some(("4 Ended, with ending", Frame { left: 550, top: 20, width: 250, height: 604 })),
    places: &[
        place(ASK, 60, 60),
        place(OFFER, 190, 60),
        place(SERVE, 320, 60),
        place(RUN, 450, 160),
        ending(ALREADY_RUNNING, 70, "good"),
        ending(NOT_ACCEPTED, 200, "bad"),
        ending(DOWNLOAD_FAILED, 330, "bad"),
        ending(NOT_EXECUTED, 446, "bad"),
        ending(UPGRADE_FAILED, 508, "bad"),
        ending(SUCCESS, 570, "good"),
    ],
    routes: &[
        route(ASK, OFFER, &[(155, 120), (155, 190)], right((165, 160), 40)),
        route(OFFER, SERVE, &[(155, 250), (155, 320)], right((165, 290), 40)),
        route(SERVE, RUN, &[(155, 380), (155, 450)], right((165, 420), 40)),
        route(ASK, ALREADY_RUNNING, &[(250, 90), (580, 90)], along((400, 80), 40)),
        route(OFFER, NOT_ACCEPTED, &[(250, 220), (580, 220)], along((400, 210), 40)),
        route(SERVE, DOWNLOAD_FAILED, &[(250, 350), (580, 350)], along((400, 340), 40)),
        route(RUN, NOT_EXECUTED, &[(250, 466), (580, 466)], along((400, 456), 40)),
        route(RUN, UPGRADE_FAILED, &[(250, 528), (580, 528)], along((400, 502), 40)),
        route(RUN, SUCCESS, &[(250, 590), (580, 590)], along((400, 580), 40)),
    ],
};
