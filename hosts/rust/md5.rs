//! MD5 digests (RFC 1321): of bytes in one slice, or of bytes that come in pieces. A package's digest is what
//! [`Device::give_digest`](crate::Device::give_digest) takes.
//!
//! MD5 helps against accidents, and not against someone who means harm: that one can make two packages of the same
//! digest. A host that needs such a guard verifies a signature (for example) over the image's first
//! [`image_length`](crate::Device::image_length) bytes before it installs.
//!
//! ```
//! use pcp::md5::{digest, Md5};
//!
//! let mut md5 = Md5::new();
//! for piece in [&b"message"[..], b" ", b"digest"] {
//!     md5.feed(piece);
//! }
//! assert_eq!(md5.finish(), digest(b"message digest"));
//! ```

use crate::{done, raw, DIGEST_LENGTH};

/// A state, in bytes.
pub const STATE_LENGTH: usize = 88;

/// The digest of some bytes.
pub fn digest(bytes: &[u8]) -> [u8; DIGEST_LENGTH] {
    let mut digest = [0; DIGEST_LENGTH];
    handled(raw::md5(bytes, &mut digest));
    digest
}

/// The digest of bytes that come in pieces; how they are cut does not matter to it.
#[derive(Clone, Debug, PartialEq, Eq)]
pub struct Md5 {
    state: [u8; STATE_LENGTH],
}

impl Md5 {
    /// Before the first piece.
    pub fn new() -> Md5 {
        let mut state = [0; STATE_LENGTH];
        handled(raw::md5_new(&mut state));
        Md5 { state }
    }

    /// From a state that was put away. Any bytes are one: those that are no state of [`new`](Md5::new) and
    /// [`feed`](Md5::feed) give some digest, of which nothing can be said, and nothing tells them from others. So put a check of
    /// your own beside a state.
    pub fn from_state(state: [u8; STATE_LENGTH]) -> Md5 {
        Md5 { state }
    }

    /// The state, to be put away: the words A to D, 4 bytes each, the number of bytes so far modulo 2^64, 8 bytes, both
    /// high byte first, and the block of 64 bytes that is not whole yet. It holds no pointers.
    pub fn state(&self) -> &[u8; STATE_LENGTH] {
        &self.state
    }

    /// A piece more, of any length.
    pub fn feed(&mut self, piece: &[u8]) {
        handled(raw::md5_feed(&mut self.state, piece));
    }

    /// The digest of all pieces so far. More may follow.
    pub fn finish(&self) -> [u8; DIGEST_LENGTH] {
        let mut digest = [0; DIGEST_LENGTH];
        handled(raw::md5_finish(&self.state, &mut digest));
        digest
    }
}

impl Default for Md5 {
    fn default() -> Md5 {
        Md5::new()
    }
}

/// The archive refuses buffers of another length alone.
fn handled(number: u8) {
    done(number).expect("the buffers have their lengths");
}
