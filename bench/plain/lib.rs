//! Both ends of PCP in plain Rust, for the library to be measured against: what an engineer would write who has only
//! 01's rules to keep. It has the same duties in each call: the tests of record and lent memory, recognition with the
//! check, the tests of the data, storing, and the reply. It shares no code with the library or with the tests' readings.
//!
//! It is a crate of its own, so that its calls stay calls, as those of the library do.

#![forbid(unsafe_code)]

pub mod capture;
pub mod check;
pub mod device;
pub mod gateway;
pub mod message;
pub mod search;

pub use device::Device;
pub use gateway::Gateway;

/// A reply, empty if there is none, or 01's number of why the call was refused.
pub type Answer<'a> = Result<&'a [u8], u8>;

/// 01's numbers.
pub mod number {
    pub const UNSUPPORTED: u8 = 1;
    pub const OTHER_PROTOCOL: u8 = 2;
    pub const BAD_START: u8 = 3;
    pub const BAD_PROTOCOL_VERSION: u8 = 4;
    pub const BAD_CODE: u8 = 5;
    pub const BAD_CHECK: u8 = 6;
    pub const BAD_LENGTH: u8 = 7;
    pub const BAD_DATA: u8 = 8;
    pub const NO_USE: u8 = 9;
    pub const BAD_INDEX: u8 = 10;
    pub const BAD_FRAGMENT_LENGTH: u8 = 11;
    pub const ALREADY_STORED: u8 = 12;
    pub const REPEAT_DIFFERS: u8 = 23;
    pub const UNKNOWN_CONDITION: u8 = 13;
    pub const BAD_MEMORY: u8 = 14;
    pub const SHORT_REPLY: u8 = 15;
    pub const BAD_INSTALL_CODE: u8 = 16;
    pub const BAD_VERSION: u8 = 17;
    pub const BAD_SIZE: u8 = 18;
    pub const BAD_PACKAGE: u8 = 19;
    pub const BAD_RECORD: u8 = 29;
}

/// Nothing if it holds, else the number.
fn require(holds: bool, number: u8) -> Result<(), u8> {
    if holds {
        Ok(())
    } else {
        Err(number)
    }
}
