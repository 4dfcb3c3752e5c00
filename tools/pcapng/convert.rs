//! A capture as a pcapng file: a packet for each record, as it passed the device's interface, and, on an interface of its
//! own, one for each stretch of a damaged capture that is no record, or for its front. A capture has no times: they are
//! all 0.
//!
//! A packet is the message alone, under a link type that is left to private use: whatever network the exchange passed is
//! not known, and any message up to 65,535 bytes has room. The direction is a flag of the packet.

use pcp::capture::{Direction, Item, Reader};

/// The link types USER0, of messages, and USER1, of other bytes.
const MESSAGES: u16 = 147;
const DAMAGE: u16 = 148;

/// The kinds of blocks.
const SECTION_HEADER: u32 = 0x0A0D_0D0A;
const INTERFACE: u32 = 1;
const PACKET: u32 = 6;

/// Options: a comment; of the section the program; of an interface name and description; of a packet its flags.
const COMMENT: u16 = 1;
const PROGRAM: u16 = 4;
const NAME: u16 = 2;
const DESCRIPTION: u16 = 3;
const FLAGS: u16 = 2;

/// The flags of a packet that comes in at the device, and of one that goes out.
const INBOUND: u32 = 1;
const OUTBOUND: u32 = 2;

/// The file, and a line for each stretch that is no record: its start and its length.
pub fn converted(capture: &[u8]) -> (Vec<u8>, String) {
    let mut file = section_header();
    let mut told = String::new();
    file.extend(interface(MESSAGES, "device", "PCP messages, as they come to a device and go out from it"));
    let mut reader = Reader::new(capture);
    loop {
        let refusal = reader.clone().next_record().err();
        match reader.next_mended() {
            None => return (file, told),
            Some(Item::Record(record)) => {
                let flags = if record.direction == Direction::ToDevice { INBOUND } else { OUTBOUND };
                file.extend(packet(0, record.message, &option(FLAGS, &flags.to_le_bytes())));
            }
            Some(Item::Passed(bytes)) => {
                if told.is_empty() {
                    file.extend(interface(DAMAGE, "damage", "bytes of the capture that are no record"));
                }
                let why = refusal.map_or(String::new(), |refusal| format!(": {refusal}"));
                let comment = format!("from byte {} of the capture on{why}", bytes.start);
                told += &format!("{} {}\n", bytes.start, bytes.len());
                file.extend(packet(1, &capture[bytes], &option(COMMENT, comment.as_bytes())));
            }
        }
    }
}

fn section_header() -> Vec<u8> {
    const BYTE_ORDER: u32 = 0x1A2B_3C4D;
    const VERSION: [u16; 2] = [1, 0];
    const LENGTH_UNKNOWN: u64 = u64::MAX;
    let mut body = BYTE_ORDER.to_le_bytes().to_vec();
    body.extend(VERSION.map(u16::to_le_bytes).concat());
    body.extend(LENGTH_UNKNOWN.to_le_bytes());
    body.extend(option(COMMENT, b"converted from a PCP capture, which has no times"));
    body.extend(option(PROGRAM, format!("libpcp {}", pcp::VERSION).as_bytes()));
    block(SECTION_HEADER, body)
}

fn interface(link_type: u16, name: &str, description: &str) -> Vec<u8> {
    const NO_LIMIT: u32 = 0;
    let mut body = [link_type, 0].map(u16::to_le_bytes).concat();
    body.extend(NO_LIMIT.to_le_bytes());
    body.extend(option(NAME, name.as_bytes()));
    body.extend(option(DESCRIPTION, description.as_bytes()));
    block(INTERFACE, body)
}

/// No message is longer, and Wireshark takes none that is much longer: of other bytes the front is kept.
const MOST: usize = pcp::capture::MESSAGE_MOST;

fn packet(interface: u32, bytes: &[u8], options: &[u8]) -> Vec<u8> {
    let kept = &bytes[..bytes.len().min(MOST)];
    let (time_high, time_low) = (0, 0);
    let lengths = [kept.len(), bytes.len()].map(|length| u32::try_from(length).unwrap_or(u32::MAX));
    let mut body = [interface, time_high, time_low, lengths[0], lengths[1]].map(u32::to_le_bytes).concat();
    body.extend(kept);
    fill_up(&mut body);
    body.extend(options);
    block(PACKET, body)
}

/// A block says its length before and behind its body, and ends its options.
fn block(kind: u32, mut body: Vec<u8>) -> Vec<u8> {
    body.extend([0; 4]);
    let length = (body.len() as u32 + 12).to_le_bytes();
    [&kind.to_le_bytes(), &length, &body[..], &length].concat()
}

fn option(code: u16, value: &[u8]) -> Vec<u8> {
    let mut option = [code, value.len() as u16].map(u16::to_le_bytes).concat();
    option.extend(value);
    fill_up(&mut option);
    option
}

/// Everything begins at a multiple of four bytes.
fn fill_up(bytes: &mut Vec<u8>) {
    while bytes.len() % 4 != 0 {
        bytes.push(0);
    }
}
