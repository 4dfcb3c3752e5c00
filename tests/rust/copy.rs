//! A copy of the library's behaviour: the archive's symbols over the reading. It stands in the library's place where
//! the tests themselves are tested, with a fault seeded into it (tests/faults).

mod reading;

use reading::boundary::{Boundary, Reading};
use std::slice::{from_raw_parts, from_raw_parts_mut};

#[no_mangle]
pub unsafe extern "C" fn pcp_check(bytes: *const u8, length: usize) -> u16 {
    Reading.check(from_raw_parts(bytes, length))
}

#[no_mangle]
pub unsafe extern "C" fn pcp_message_check(message: *const u8, length: usize) -> u16 {
    Reading.message_check(from_raw_parts(message, length))
}

#[no_mangle]
pub unsafe extern "C" fn pcp_recognise(supported: u8, pcp: u8, message: *const u8, length: usize) -> u8 {
    Reading.recognise([supported, pcp], from_raw_parts(message, length))
}

#[no_mangle]
pub unsafe extern "C" fn pcp_raw_device_new(
    record: *mut u8,
    record_length: usize,
    version: *const u8,
    version_length: usize,
) -> u8 {
    Reading.device_new(from_raw_parts_mut(record, record_length), from_raw_parts(version, version_length))
}

#[no_mangle]
pub unsafe extern "C" fn pcp_raw_device_receive(
    record: *mut u8,
    record_length: usize,
    supported: u8,
    pcp: u8,
    condition: u8,
    message: *const u8,
    message_length: usize,
    image: *mut u8,
    image_length: usize,
    map: *mut u8,
    map_length: usize,
    reply: *mut u8,
    reply_length: usize,
) -> u32 {
    Reading.device_receive(
        from_raw_parts_mut(record, record_length),
        [supported, pcp],
        condition,
        from_raw_parts(message, message_length),
        from_raw_parts_mut(image, image_length),
        from_raw_parts_mut(map, map_length),
        from_raw_parts_mut(reply, reply_length),
    )
}

#[no_mangle]
pub unsafe extern "C" fn pcp_raw_device_next_message(
    record: *const u8,
    record_length: usize,
    image: *const u8,
    image_length: usize,
    map: *const u8,
    map_length: usize,
    reply: *mut u8,
    reply_length: usize,
) -> u32 {
    Reading.device_next_message(
        from_raw_parts(record, record_length),
        from_raw_parts(image, image_length),
        from_raw_parts(map, map_length),
        from_raw_parts_mut(reply, reply_length),
    )
}

#[no_mangle]
pub unsafe extern "C" fn pcp_raw_device_install_finished(
    record: *mut u8,
    record_length: usize,
    code: u8,
) -> u8 {
    Reading.device_install_finished(from_raw_parts_mut(record, record_length), code)
}

#[no_mangle]
pub unsafe extern "C" fn pcp_raw_device_give_digest(
    record: *mut u8,
    record_length: usize,
    digest: *const u8,
    digest_length: usize,
) -> u8 {
    Reading
        .device_give_digest(from_raw_parts_mut(record, record_length), from_raw_parts(digest, digest_length))
}

#[no_mangle]
pub unsafe extern "C" fn pcp_raw_gateway_start(
    record: *mut u8,
    record_length: usize,
    version: *const u8,
    version_length: usize,
    size: u16,
    package: *const u8,
    package_length: usize,
    checked: u8,
) -> u8 {
    Reading.gateway_start(
        from_raw_parts_mut(record, record_length),
        from_raw_parts(version, version_length),
        size,
        from_raw_parts(package, package_length),
        checked,
    )
}

#[no_mangle]
pub unsafe extern "C" fn pcp_raw_gateway_receive(
    record: *mut u8,
    record_length: usize,
    supported: u8,
    pcp: u8,
    message: *const u8,
    message_length: usize,
    package: *const u8,
    package_length: usize,
    reply: *mut u8,
    reply_length: usize,
) -> u32 {
    Reading.gateway_receive(
        from_raw_parts_mut(record, record_length),
        [supported, pcp],
        from_raw_parts(message, message_length),
        from_raw_parts(package, package_length),
        from_raw_parts_mut(reply, reply_length),
    )
}

#[no_mangle]
pub unsafe extern "C" fn pcp_raw_gateway_next_message(
    record: *const u8,
    record_length: usize,
    package: *const u8,
    package_length: usize,
    reply: *mut u8,
    reply_length: usize,
) -> u32 {
    Reading.gateway_next_message(
        from_raw_parts(record, record_length),
        from_raw_parts(package, package_length),
        from_raw_parts_mut(reply, reply_length),
    )
}

#[no_mangle]
pub unsafe extern "C" fn pcp_raw_capture_kind(capture: *const u8, capture_length: usize, at: usize) -> u8 {
    Reading.capture_kind(from_raw_parts(capture, capture_length), at)
}

#[no_mangle]
pub unsafe extern "C" fn pcp_raw_capture_next(capture: *const u8, capture_length: usize, at: usize) -> usize {
    Reading.capture_next(from_raw_parts(capture, capture_length), at)
}

#[no_mangle]
pub unsafe extern "C" fn pcp_raw_capture_mended(
    capture: *const u8,
    capture_length: usize,
    at: usize,
) -> usize {
    Reading.capture_mended(from_raw_parts(capture, capture_length), at)
}

#[no_mangle]
pub unsafe extern "C" fn pcp_raw_capture_write(
    toward: u8,
    message: *const u8,
    message_length: usize,
    buffer: *mut u8,
    buffer_length: usize,
    at: usize,
) -> u8 {
    Reading.capture_write(
        toward,
        from_raw_parts(message, message_length),
        from_raw_parts_mut(buffer, buffer_length),
        at,
    )
}

#[no_mangle]
pub unsafe extern "C" fn pcp_raw_md5(
    bytes: *const u8,
    length: usize,
    digest: *mut u8,
    digest_length: usize,
) -> u8 {
    Reading.md5(from_raw_parts(bytes, length), from_raw_parts_mut(digest, digest_length))
}

#[no_mangle]
pub unsafe extern "C" fn pcp_raw_md5_new(state: *mut u8, state_length: usize) -> u8 {
    Reading.md5_new(from_raw_parts_mut(state, state_length))
}

#[no_mangle]
pub unsafe extern "C" fn pcp_raw_md5_feed(
    state: *mut u8,
    state_length: usize,
    piece: *const u8,
    piece_length: usize,
) -> u8 {
    Reading.md5_feed(from_raw_parts_mut(state, state_length), from_raw_parts(piece, piece_length))
}

#[no_mangle]
pub unsafe extern "C" fn pcp_raw_md5_finish(
    state: *const u8,
    state_length: usize,
    digest: *mut u8,
    digest_length: usize,
) -> u8 {
    Reading.md5_finish(from_raw_parts(state, state_length), from_raw_parts_mut(digest, digest_length))
}
