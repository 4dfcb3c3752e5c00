//! The archive's calls over slices of any length: also a record buffer that is too short, or that holds any bytes.
//! Facts are `[supported, pcp]`, 0 for no and anything else for yes. A host calls [`Device`](crate::Device),
//! [`Gateway`](crate::Gateway), [`capture`](crate::capture) and [`md5`](crate::md5) instead; these are for tests.

/// The archive's symbols. Their declarations are those of `include/pcp.h`, `include/pcp_capture.h` and
/// `include/pcp_md5.h`.
mod archive {
    extern "C" {
        pub fn pcp_check(bytes: *const u8, length: usize) -> u16;
        pub fn pcp_message_check(message: *const u8, length: usize) -> u16;
        pub fn pcp_recognise(supported: u8, pcp: u8, message: *const u8, length: usize) -> u8;
        pub fn pcp_raw_device_new(
            record: *mut u8,
            record_length: usize,
            version: *const u8,
            version_length: usize,
        ) -> u8;
        pub fn pcp_raw_device_receive(
            record: *mut u8,
            record_length: usize,
            supported: u8,
            pcp: u8,
            condition: u8,
            message: *const u8,
            message_length: usize,
            image: *mut u8,
            image_length: usize,
            map: *mut u8,
            map_length: usize,
            reply: *mut u8,
            reply_length: usize,
        ) -> u32;
        pub fn pcp_raw_device_next_message(
            record: *const u8,
            record_length: usize,
            image: *const u8,
            image_length: usize,
            map: *const u8,
            map_length: usize,
            reply: *mut u8,
            reply_length: usize,
        ) -> u32;
        pub fn pcp_raw_device_install_finished(record: *mut u8, record_length: usize, code: u8) -> u8;
        pub fn pcp_raw_device_give_digest(
            record: *mut u8,
            record_length: usize,
            digest: *const u8,
            digest_length: usize,
        ) -> u8;
        pub fn pcp_raw_gateway_start(
            record: *mut u8,
            record_length: usize,
            version: *const u8,
            version_length: usize,
            size: u16,
            package: *const u8,
            package_length: usize,
            checked: u8,
        ) -> u8;
        pub fn pcp_raw_gateway_receive(
            record: *mut u8,
            record_length: usize,
            supported: u8,
            pcp: u8,
            message: *const u8,
            message_length: usize,
            package: *const u8,
            package_length: usize,
            reply: *mut u8,
            reply_length: usize,
        ) -> u32;
        pub fn pcp_raw_gateway_next_message(
            record: *const u8,
            record_length: usize,
            package: *const u8,
            package_length: usize,
            reply: *mut u8,
            reply_length: usize,
        ) -> u32;
        pub fn pcp_raw_capture_kind(capture: *const u8, capture_length: usize, at: usize) -> u8;
        pub fn pcp_raw_capture_next(capture: *const u8, capture_length: usize, at: usize) -> usize;
        pub fn pcp_raw_capture_mended(capture: *const u8, capture_length: usize, at: usize) -> usize;
        pub fn pcp_raw_capture_write(
            toward: u8,
            message: *const u8,
            message_length: usize,
            buffer: *mut u8,
            buffer_length: usize,
            at: usize,
        ) -> u8;
        pub fn pcp_raw_md5(bytes: *const u8, length: usize, digest: *mut u8, digest_length: usize) -> u8;
        pub fn pcp_raw_md5_new(state: *mut u8, state_length: usize) -> u8;
        pub fn pcp_raw_md5_feed(
            state: *mut u8,
            state_length: usize,
            piece: *const u8,
            piece_length: usize,
        ) -> u8;
        pub fn pcp_raw_md5_finish(
            state: *const u8,
            state_length: usize,
            digest: *mut u8,
            digest_length: usize,
        ) -> u8;
    }
}

/// What a call with a reply gives: 0 or why it was refused, and the reply's length.
#[derive(Clone, Copy, Debug, PartialEq, Eq)]
pub struct Answer {
    pub number: u8,
    pub length: usize,
}

impl Answer {
    /// The archive gives both in one.
    fn new(answer: u32) -> Answer {
        Answer { number: (answer % 256) as u8, length: (answer / 256) as usize }
    }
}

// SAFETY, of each call below: the pointers and lengths are those of slices, so they are not null and the bytes are
// there; what the archive writes is borrowed mutably, so that it overlaps nothing and nobody else uses it meanwhile;
// and the archive takes any bytes and keeps no pointer.

#[inline]
pub fn check(bytes: &[u8]) -> u16 {
    // SAFETY: slices, see above.
    unsafe { archive::pcp_check(bytes.as_ptr(), bytes.len()) }
}

#[inline]
pub fn message_check(message: &[u8]) -> u16 {
    // SAFETY: slices, see above.
    unsafe { archive::pcp_message_check(message.as_ptr(), message.len()) }
}

#[inline]
pub fn recognise([supported, pcp]: [u8; 2], message: &[u8]) -> u8 {
    // SAFETY: slices, see above.
    unsafe { archive::pcp_recognise(supported, pcp, message.as_ptr(), message.len()) }
}

#[inline]
pub fn device_new(record: &mut [u8], version: &[u8]) -> u8 {
    // SAFETY: slices, see above.
    unsafe { archive::pcp_raw_device_new(record.as_mut_ptr(), record.len(), version.as_ptr(), version.len()) }
}

#[inline]
pub fn device_receive(
    record: &mut [u8],
    [supported, pcp]: [u8; 2],
    condition: u8,
    message: &[u8],
    image: &mut [u8],
    map: &mut [u8],
    reply: &mut [u8],
) -> Answer {
    // SAFETY: slices, see above.
    Answer::new(unsafe {
        archive::pcp_raw_device_receive(
            record.as_mut_ptr(),
            record.len(),
            supported,
            pcp,
            condition,
            message.as_ptr(),
            message.len(),
            image.as_mut_ptr(),
            image.len(),
            map.as_mut_ptr(),
            map.len(),
            reply.as_mut_ptr(),
            reply.len(),
        )
    })
}

#[inline]
pub fn device_next_message(record: &[u8], image: &[u8], map: &[u8], reply: &mut [u8]) -> Answer {
    // SAFETY: slices, see above.
    Answer::new(unsafe {
        archive::pcp_raw_device_next_message(
            record.as_ptr(),
            record.len(),
            image.as_ptr(),
            image.len(),
            map.as_ptr(),
            map.len(),
            reply.as_mut_ptr(),
            reply.len(),
        )
    })
}

#[inline]
pub fn device_install_finished(record: &mut [u8], code: u8) -> u8 {
    // SAFETY: slices, see above.
    unsafe { archive::pcp_raw_device_install_finished(record.as_mut_ptr(), record.len(), code) }
}

#[inline]
pub fn device_give_digest(record: &mut [u8], digest: &[u8]) -> u8 {
    // SAFETY: slices, see above.
    unsafe {
        archive::pcp_raw_device_give_digest(record.as_mut_ptr(), record.len(), digest.as_ptr(), digest.len())
    }
}

#[inline]
pub fn gateway_start(record: &mut [u8], version: &[u8], size: u16, package: &[u8], checked: u8) -> u8 {
    // SAFETY: slices, see above.
    unsafe {
        archive::pcp_raw_gateway_start(
            record.as_mut_ptr(),
            record.len(),
            version.as_ptr(),
            version.len(),
            size,
            package.as_ptr(),
            package.len(),
            checked,
        )
    }
}

#[inline]
pub fn gateway_receive(
    record: &mut [u8],
    [supported, pcp]: [u8; 2],
    message: &[u8],
    package: &[u8],
    reply: &mut [u8],
) -> Answer {
    // SAFETY: slices, see above.
    Answer::new(unsafe {
        archive::pcp_raw_gateway_receive(
            record.as_mut_ptr(),
            record.len(),
            supported,
            pcp,
            message.as_ptr(),
            message.len(),
            package.as_ptr(),
            package.len(),
            reply.as_mut_ptr(),
            reply.len(),
        )
    })
}

#[inline]
pub fn gateway_next_message(record: &[u8], package: &[u8], reply: &mut [u8]) -> Answer {
    // SAFETY: slices, see above.
    Answer::new(unsafe {
        archive::pcp_raw_gateway_next_message(
            record.as_ptr(),
            record.len(),
            package.as_ptr(),
            package.len(),
            reply.as_mut_ptr(),
            reply.len(),
        )
    })
}

#[inline]
pub fn capture_kind(capture: &[u8], at: usize) -> u8 {
    // SAFETY: slices, see above.
    unsafe { archive::pcp_raw_capture_kind(capture.as_ptr(), capture.len(), at) }
}

#[inline]
pub fn capture_next(capture: &[u8], at: usize) -> usize {
    // SAFETY: slices, see above.
    unsafe { archive::pcp_raw_capture_next(capture.as_ptr(), capture.len(), at) }
}

#[inline]
pub fn capture_mended(capture: &[u8], at: usize) -> usize {
    // SAFETY: slices, see above.
    unsafe { archive::pcp_raw_capture_mended(capture.as_ptr(), capture.len(), at) }
}

#[inline]
pub fn capture_write(toward: u8, message: &[u8], buffer: &mut [u8], at: usize) -> u8 {
    // SAFETY: slices, see above.
    unsafe {
        archive::pcp_raw_capture_write(
            toward,
            message.as_ptr(),
            message.len(),
            buffer.as_mut_ptr(),
            buffer.len(),
            at,
        )
    }
}

#[inline]
pub fn md5(bytes: &[u8], digest: &mut [u8]) -> u8 {
    // SAFETY: slices, see above.
    unsafe { archive::pcp_raw_md5(bytes.as_ptr(), bytes.len(), digest.as_mut_ptr(), digest.len()) }
}

#[inline]
pub fn md5_new(state: &mut [u8]) -> u8 {
    // SAFETY: slices, see above.
    unsafe { archive::pcp_raw_md5_new(state.as_mut_ptr(), state.len()) }
}

#[inline]
pub fn md5_feed(state: &mut [u8], piece: &[u8]) -> u8 {
    // SAFETY: slices, see above.
    unsafe { archive::pcp_raw_md5_feed(state.as_mut_ptr(), state.len(), piece.as_ptr(), piece.len()) }
}

#[inline]
pub fn md5_finish(state: &[u8], digest: &mut [u8]) -> u8 {
    // SAFETY: slices, see above.
    unsafe { archive::pcp_raw_md5_finish(state.as_ptr(), state.len(), digest.as_mut_ptr(), digest.len()) }
}
