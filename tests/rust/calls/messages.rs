//! Messages for both ends: such as their phases wait for, such as the tables allow, and others.

use super::run::Ends;
use crate::reading::device::{self, is_stored};
use crate::reading::gateway::{self, cut};
use crate::reading::message::{
    encode, Announcement, ToGateway, Version, ANNOUNCE_ANSWERS, DEVICE_ROOM, DOWNLOAD_RESULTS,
    EXECUTE_ANSWERS, FRAGMENT, GATEWAY_ANSWERS, QUERY, SIZES, UPGRADE_RESULTS,
};
use crate::support::messages::{
    any_announce, download_result, execute, fragment, no_fragment, query, upgrade_result,
};
use crate::support::random::Random;
use crate::support::version;

/// Few, so that both ends often have the same one.
const TEXTS: [&str; 4] = ["V0.9", "V1.0", "V1.1", "sixteen_bytes-OK"];

/// Sizes at the edges of what is allowed, about the public platforms' most, and some further ones.
pub const SIZE_EDGES: [u16; 11] = [0, 31, 32, 33, 499, 500, 501, 1_023, 1_024, 1_025, 0xFFFF];

/// What a byte of a text is changed to: such as the text may hold, and such as it may not.
pub const TEXT_BYTES: [u8; 8] = [0x00, 0x20, 0x2E, 0x3A, 0x41, 0x60, 0x7A, 0xFF];

pub fn some_version(random: &mut Random) -> Version {
    version(random.pick(&TEXTS))
}

/// A message that brings the device on.
pub fn next_to_device(random: &mut Random, ends: &Ends) -> Vec<u8> {
    match ends.device.phase {
        device::IDLE => announcement(&offer_of(ends)),
        device::LOADING => missing_fragment(random, ends),
        device::LOADED if random.once_in(2) => download_result(0x00),
        device::FAILED => download_result(random.pick(&GATEWAY_ANSWERS)),
        device::REPORTING => upgrade_result(random.pick(&GATEWAY_ANSWERS)),
        _ => execute(),
    }
}

/// A message that brings the gateway on.
pub fn next_to_gateway(random: &mut Random, ends: &Ends) -> Vec<u8> {
    let target = ends.gateway.version;
    match (ends.gateway.phase, random.below(3)) {
        (gateway::ASK, _) => written(ToGateway::Query { version: some_version(random) }),
        (gateway::OFFER, _) => written(ToGateway::Announce { result: 0x00 }),
        (gateway::SERVE, 0) => written(ToGateway::DownloadResult { result: 0x00 }),
        (gateway::SERVE, _) | (gateway::RUN, 0) => fragment_request(random, ends),
        (_, 1) => written(ToGateway::UpgradeResult { result: 0x00, version: target }),
        _ => written(ToGateway::Execute { result: 0x00 }),
    }
}

/// A message of the device's table, or one with fields about its edges.
pub fn any_to_device(random: &mut Random, ends: &Ends) -> Vec<u8> {
    match random.below(16) {
        0 => query(),
        1 => execute(),
        2 => download_result(random.pick(&GATEWAY_ANSWERS)),
        3 => upgrade_result(random.pick(&GATEWAY_ANSWERS)),
        4 => no_fragment(random.pick(&[0x80, 0x81]), random.word()),
        5..=8 => announcement(&changed_offer(random, ends)),
        9..=13 => changed_fragment(random, ends),
        _ => any_data(random),
    }
}

/// The same of the gateway's table.
pub fn any_to_gateway(random: &mut Random, ends: &Ends) -> Vec<u8> {
    let version = if random.once_in(2) { ends.gateway.version } else { some_version(random) };
    match random.below(12) {
        0 => encode(QUERY, &[&[0x00], &version[..]].concat()),
        1 => written(ToGateway::Announce { result: random.pick(&ANNOUNCE_ANSWERS) }),
        2 | 3 => written(ToGateway::DownloadResult { result: random.pick(&DOWNLOAD_RESULTS) }),
        4 => written(ToGateway::Execute { result: random.pick(&EXECUTE_ANSWERS) }),
        5 | 6 => encode(24, &[&[random.pick(&UPGRADE_RESULTS)], &version[..]].concat()),
        7..=9 => {
            let index = changed_index(random, ends.total());
            encode(FRAGMENT, &[&version[..], &index.to_be_bytes()].concat())
        }
        _ => any_data(random),
    }
}

/// Data of about a right length, for about a right code.
fn any_data(random: &mut Random) -> Vec<u8> {
    let length = random.pick(&[0, 1, 2, 3, 4, 16, 17, 18, 19, 22, 23, 1_027, 1_028, 1_100]);
    let code = random.between(18..=25) as u8;
    let mut data = if random.once_in(2) { vec![0x30; length] } else { filler(random, length) };
    if let Some(first) = data.first_mut() {
        let any = random.byte();
        *first = random.pick(&[0x00, 0x01, 0x03, 0x06, 0x0A, 0x7F, 0x80, 0x81, any]);
    }
    encode(code, &data)
}

/// Bytes that need few draws, so that given bytes last longer.
pub fn filler(random: &mut Random, length: usize) -> Vec<u8> {
    Random::new(random.word().into()).bytes(length)
}

fn written(message: ToGateway) -> Vec<u8> {
    message.write(DEVICE_ROOM).unwrap_or_default()
}

fn announcement(offer: &Announcement) -> Vec<u8> {
    any_announce(offer.version, offer.size, offer.total, offer.code)
}

/// What the gateway announces, or what the device holds where the gateway's record tells no total.
fn offer_of(ends: &Ends) -> Announcement {
    if SIZES.contains(&ends.gateway.size) {
        ends.gateway.announcement()
    } else {
        ends.device.held()
    }
}

/// An announcement with one field changed, often by little: to the next value, or to the edge of what fits.
fn changed_offer(random: &mut Random, ends: &Ends) -> Announcement {
    let mut offer = if random.once_in(3) { ends.device.held() } else { offer_of(ends) };
    let fitting = (ends.image / usize::from(offer.size.max(1))).min(65_534) as u16;
    match random.below(16) {
        0 => offer.version = some_version(random),
        1 => offer.version = ends.device.running,
        2 => offer.version[random.below(16)] = random.pick(&TEXT_BYTES),
        3 => offer.size = near(random, offer.size),
        4 => offer.size = random.pick(&SIZE_EDGES),
        5 => offer.total = near(random, offer.total),
        6 => offer.total = random.pick(&[0, 1, 255, 256, 0xFFFF]),
        7 => offer.total = fitting + random.below(2) as u16,
        8 => offer.total = (ends.map * 8).min(65_534) as u16 + random.below(2) as u16,
        9 => offer.code = near(random, offer.code),
        10 => offer.code = 0,
        _ => {}
    }
    offer
}

/// A value and its neighbours, now and then any.
pub fn near(random: &mut Random, value: u16) -> u16 {
    let any = random.word();
    random.pick(&[value.wrapping_sub(1), value, value.wrapping_add(1), any])
}

/// A fragment that the device has not stored, with the package's bytes where its download is the gateway's.
fn missing_fragment(random: &mut Random, ends: &Ends) -> Vec<u8> {
    let total = ends.device.total;
    let first = random.below(usize::from(total.max(1))) as u16;
    let stored = |index: &u16| usize::from(*index) / 8 < ends.map && is_stored(&ends.memory.map, *index);
    let index = (first..total).chain(0..first).find(|index| !stored(index)).unwrap_or(first);
    let data = data_for(random, ends, index);
    fragment(index, &data)
}

/// The data that the device expects; the last fragment's is as long as the package's.
fn data_for(random: &mut Random, ends: &Ends, index: u16) -> Vec<u8> {
    let size = usize::from(ends.device.size.clamp(1, *SIZES.end()));
    if !ends.is_same_download() || index >= ends.device.total {
        return filler(random, size);
    }
    let package = &ends.memory.package[..ends.gateway.length];
    cut(package, ends.gateway.size, index).to_vec()
}

fn changed_index(random: &mut Random, total: u16) -> u16 {
    let any = random.word();
    let below = random.below(usize::from(total.max(1))) as u16;
    random.pick(&[below, below, 0, total.wrapping_sub(1), total, total.wrapping_add(1), any])
}

fn changed_fragment(random: &mut Random, ends: &Ends) -> Vec<u8> {
    let index = changed_index(random, ends.device.total);
    let mut data = data_for(random, ends, index);
    match random.below(16) {
        0 => drop(data.pop()),
        1 => data.push(random.byte()),
        2 => data.truncate(1),
        3 => data = filler(random, usize::from(ends.device.size.min(1_100))),
        4 => data.truncate(random.below(data.len() + 1)),
        5 => data.first_mut().into_iter().for_each(|byte| *byte ^= 1),
        6 => data.last_mut().into_iter().for_each(|byte| *byte ^= 0x80),
        _ => {}
    }
    let result = random.pick(&[0x00, 0x00, 0x00, 0x00, 0x00, 0x00, 0x80, 0x81, 0x01]);
    encode(FRAGMENT, &[&[result][..], &index.to_be_bytes(), &data].concat())
}

fn fragment_request(random: &mut Random, ends: &Ends) -> Vec<u8> {
    let index = changed_index(random, ends.total());
    written(ToGateway::Fragment { version: ends.gateway.version, index })
}
