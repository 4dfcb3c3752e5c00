//! A reading of the scope paper (01) in plain Rust. It was written from the paper's text and shares nothing with the
//! library that it is compared with. Being easy to hold against the paper comes before speed.

// Each test program uses a part of the reading.
#![allow(dead_code)]

pub mod boundary;
pub mod capture;
pub mod check;
pub mod decode;
pub mod device;
pub mod gateway;
pub mod layout;
pub mod md5;
pub mod message;
pub mod replay;

/// The numbers that calls return (01, "Numbers returned").
pub mod number {
    pub const HANDLED: u8 = 0;
    pub const UNSUPPORTED: u8 = 1;
    pub const NOT_PCP: u8 = 2;
    pub const START: u8 = 3;
    pub const PROTOCOL_VERSION: u8 = 4;
    pub const MESSAGE_CODE: u8 = 5;
    pub const CHECK: u8 = 6;
    pub const DATA_LENGTH: u8 = 7;
    pub const DATA: u8 = 8;
    pub const NO_USE: u8 = 9;
    pub const INDEX: u8 = 10;
    pub const FRAGMENT_LENGTH: u8 = 11;
    pub const ALREADY_STORED: u8 = 12;
    pub const CONDITION: u8 = 13;
    pub const LENT_MEMORY: u8 = 14;
    pub const REPLY_BUFFER: u8 = 15;
    pub const INSTALLER_CODE: u8 = 16;
    pub const VERSION_TEXT: u8 = 17;
    pub const FRAGMENT_SIZE: u8 = 18;
    pub const PACKAGE: u8 = 19;
    pub const MARK: u8 = 20;
    pub const CUT_SHORT: u8 = 21;
    pub const DOES_NOT_FIT: u8 = 22;
    pub const REPEAT_DIFFERS: u8 = 23;
    pub const RECORD: u8 = 29;
}

/// What a call gives back. The reply is empty if there is none.
#[derive(Clone, Debug, PartialEq, Eq)]
pub struct Answer {
    pub number: u8,
    pub reply: Vec<u8>,
}

impl From<Result<Vec<u8>, u8>> for Answer {
    fn from(outcome: Result<Vec<u8>, u8>) -> Answer {
        match outcome {
            Ok(reply) => Answer { number: number::HANDLED, reply },
            Err(number) => Answer { number, reply: Vec::new() },
        }
    }
}

/// The number of an outcome: 0 if the call was handled.
pub fn number_of<T>(outcome: &Result<T, u8>) -> u8 {
    match outcome {
        Ok(_) => number::HANDLED,
        Err(number) => *number,
    }
}

/// One test of a list in which the first failure gives the number.
fn require(holds: bool, number: u8) -> Result<(), u8> {
    if holds {
        Ok(())
    } else {
        Err(number)
    }
}
