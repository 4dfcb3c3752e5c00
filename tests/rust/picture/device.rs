//! The device's phases (01, "The head").

use super::machine::{Call, End, Event, Machine, Phase};
use super::plan::{along, left, right, route, Place, Plan};
use super::svg::Frame;
use crate::reading::check::check;
use crate::reading::device::{Device, CONDITIONS};
use crate::reading::gateway::cut;
use crate::reading::md5::md5;
use crate::reading::message::{Announcement, ToDevice, ToGateway, BOTH_FACTS, DEVICE_ROOM, GATEWAY_ANSWERS};
use crate::reading::number;
use crate::support::messages::written;
use crate::support::version;

const IDLE: Phase = "0 Idle";
const LOADING: Phase = "1 Loading";
const LOADED: Phase = "2 Loaded";
const ACKED: Phase = "3 Acked";
const FAILED: Phase = "4 Failed";
const INSTALLING: Phase = "5 Installing";
const REPORTING: Phase = "6 Reporting";
const PHASES: [Phase; 7] = [IDLE, LOADING, LOADED, ACKED, FAILED, INSTALLING, REPORTING];

/// Two fragments, the last of them short.
const PACKAGE: [u8; 37] = [0x5A; 37];
const SIZE: u16 = 32;
const TOTAL: u16 = 2;
/// Room for ten fragments in the image, and for eight in the map.
const IMAGE: usize = 10 * SIZE as usize;
const MAP: usize = 1;

#[derive(Clone, PartialEq)]
struct Bench {
    device: Device,
    image: Vec<u8>,
    map: Vec<u8>,
}

impl End for Bench {
    fn phase(&self) -> Phase {
        PHASES[usize::from(self.device.phase)]
    }

    fn sends(&self) -> Option<String> {
        let message = self.device.next_message(&self.image, &self.map, DEVICE_ROOM).reply;
        match ToGateway::read(BOTH_FACTS, &message).ok()? {
            ToGateway::DownloadResult { result } => Some(format!("22 {:02X}", result)),
            _ => Some(message[3].to_string()),
        }
    }

    fn calls(&self) -> Vec<Call<Bench>> {
        let messages = messages();
        let given =
            CONDITIONS.iter().flat_map(|condition| messages.iter().map(move |message| (message, *condition)));
        let mut calls: Vec<Call<Bench>> =
            given.map(|(message, condition)| self.receive(message, condition)).collect();
        calls.extend(
            [(0x00, "00"), (0x0A, "other"), (0x02, "other")].map(|(code, name)| self.finish(code, name)),
        );
        calls.extend([md5(&PACKAGE), [0; 16]].map(|digest| self.give(digest)));
        calls
    }
}

impl Bench {
    fn fresh() -> Bench {
        Bench { device: Device::make(version("V0.9")).1, image: vec![0xEE; IMAGE], map: vec![0xFF; MAP] }
    }

    fn receive(&self, message: &ToDevice, condition: u8) -> Call<Bench> {
        let mut after = self.clone();
        let Bench { device, image, map } = &mut after;
        let answer = device.receive(&written(*message), BOTH_FACTS, condition, image, map, DEVICE_ROOM);
        let event = self.event(message, &after, answer.number);
        Call { event, number: answer.number, answer: answer.reply.get(8).copied(), after }
    }

    fn finish(&self, code: u8, result: &'static str) -> Call<Bench> {
        let mut after = self.clone();
        let number = after.device.install_finished(code);
        Call { event: Event { message: "installer's end", result, case: "" }, number, answer: None, after }
    }

    fn give(&self, digest: [u8; 16]) -> Call<Bench> {
        let mut after = self.clone();
        let number = after.device.give_digest(digest);
        Call { event: Event { message: "a digest given", result: "", case: "" }, number, answer: None, after }
    }

    fn event(&self, message: &ToDevice, after: &Bench, number: u8) -> Event {
        let (message, result, case) = match message {
            ToDevice::Query => ("19", "", ""),
            ToDevice::Announce(offer) => ("20", "", self.offer_case(offer)),
            ToDevice::Fragment { result: 0x00, .. } if number == number::REPEAT_DIFFERS => {
                ("21", "00", "stored with other bytes")
            }
            ToDevice::Fragment { result: 0x00, .. } => ("21", "00", after.fragment_case()),
            ToDevice::Fragment { result, .. } => ("21", result_name(*result), ""),
            ToDevice::DownloadResult { result } => ("22", result_name(*result), ""),
            ToDevice::Execute => ("23", "", ""),
            ToDevice::UpgradeResult { result } => ("24", result_name(*result), ""),
        };
        Event { message, result, case }
    }

    fn offer_case(&self, offer: &Announcement) -> &'static str {
        if *offer == self.device.held() && offer.code != 0 {
            "same package"
        } else {
            "other package, or no code"
        }
    }

    /// What a stored fragment has made of the download.
    fn fragment_case(&self) -> &'static str {
        let Device { stored, total, code, digest_set, digest, .. } = self.device;
        let bytes = &self.image[..PACKAGE.len()];
        if stored < total {
            "some missing"
        } else if (code == 0 || code == check(bytes)) && (digest_set == 0 || digest == md5(bytes)) {
            "complete, code and digest right or not set"
        } else {
            "complete, code or digest wrong"
        }
    }
}

fn result_name(result: u8) -> &'static str {
    match result {
        0x00 => "00",
        0x80 => "80",
        _ => "81",
    }
}

/// The announcements that resume, begin afresh, or are refused: the version that runs, image and map too short.
fn offers() -> Vec<Announcement> {
    let offer = |text, total, code| Announcement { version: version(text), size: SIZE, total, code };
    let code = check(&PACKAGE);
    vec![
        offer("V1.0", TOTAL, code),
        offer("V1.0", TOTAL, code ^ 1),
        offer("V1.0", TOTAL, 0),
        offer("V0.9", TOTAL, code),
        Announcement { size: 2 * SIZE, ..offer("V1.0", TOTAL, code) },
        offer("V1.0", 10, code),
    ]
}

fn messages() -> Vec<ToDevice<'static>> {
    let fragment = |index, data| ToDevice::Fragment { result: 0x00, index, data };
    let no_fragment = |result| ToDevice::Fragment { result, index: 0, data: &[] };
    let mut messages = vec![ToDevice::Query, ToDevice::Execute, no_fragment(0x80), no_fragment(0x81)];
    messages.extend(offers().into_iter().map(ToDevice::Announce));
    messages.extend((0..TOTAL).map(|index| fragment(index, cut(&PACKAGE, SIZE, index))));
    // Other bytes, a wrong length, and past the last.
    messages.extend([
        fragment(0, &[0xA5; SIZE as usize]),
        fragment(0, &[0x5A; 5]),
        fragment(TOTAL, &[0x5A; 5]),
    ]);
    messages.extend(GATEWAY_ANSWERS.map(|result| ToDevice::DownloadResult { result }));
    messages.extend(GATEWAY_ANSWERS.map(|result| ToDevice::UpgradeResult { result }));
    messages
}

pub fn draw() -> Result<String, String> {
    PLAN.draw(&Machine::explore(Bench::fresh())?)
}

const fn place(phase: Phase, left: i32, top: i32, height: i32) -> Place {
    Place { phase, frame: Frame { left, top, width: 220, height }, class: "plain" }
}

const PLAN: Plan = Plan {
    title: "The device's phases",
    size: (1020, 770),
    group: None,
    places: &[
        place(IDLE, 390, 36, 60),
        place(LOADING, 390, 196, 130),
        place(FAILED, 774, 196, 76),
        place(LOADED, 390, 436, 80),
        place(ACKED, 774, 436, 80),
        place(INSTALLING, 390, 616, 64),
        place(REPORTING, 30, 616, 64),
    ],
    routes: &[
        route(IDLE, LOADING, &[(460, 96), (460, 196)], left((450, 150), 30)),
        route(LOADING, IDLE, &[(540, 196), (540, 96)], right((550, 150), 30)),
        route(LOADING, LOADED, &[(460, 326), (460, 436)], left((450, 370), 18)),
        route(LOADED, LOADING, &[(540, 436), (540, 326)], right((550, 386), 18)),
        route(LOADING, FAILED, &[(610, 220), (774, 220)], along((700, 168), 30)),
        route(FAILED, LOADING, &[(774, 250), (610, 250)], along((692, 268), 30)),
        route(FAILED, IDLE, &[(884, 196), (884, 66), (610, 66)], along((747, 56), 30)),
        route(LOADED, ACKED, &[(610, 476), (774, 476)], along((692, 466), 30)),
        route(ACKED, LOADING, &[(884, 436), (884, 304), (610, 304)], along((747, 324), 40)),
        route(LOADED, IDLE, &[(390, 476), (280, 476), (280, 80), (390, 80)], right((290, 266), 30)),
        route(LOADED, INSTALLING, &[(500, 516), (500, 616)], right((510, 570), 30)),
        route(ACKED, INSTALLING, &[(884, 516), (884, 648), (610, 648)], along((747, 638), 30)),
        route(INSTALLING, REPORTING, &[(390, 648), (250, 648)], along((320, 638), 30)),
        route(REPORTING, IDLE, &[(140, 616), (140, 52), (390, 52)], right((150, 340), 30)),
    ],
};
