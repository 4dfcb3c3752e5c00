//! The drivers of both ends, in Rust and, by tests/c/driver_calls.c, in C, behind the same calls.

// Each test program uses a part of it.
#![allow(dead_code, unused_imports)]

mod c;
mod rust;

pub use c::has_same_defaults;
use pcp::driver::Config;

/// In which language a driver is written.
#[derive(Clone, Copy, Debug, PartialEq, Eq)]
pub enum Language {
    Rust,
    C,
}

/// What a driver tells its host to do. An outcome is its number, as it is saved.
#[derive(Debug, PartialEq, Eq)]
pub enum Action<'a> {
    Wait(u64),
    Write { at: usize, bytes: &'a [u8] },
    Save { slot: usize, bytes: &'a [u8] },
    Send(&'a [u8]),
    Install(&'a [u8]),
    End(u8),
}

pub trait DeviceEnd {
    fn receive(&mut self, now: u64, condition: u8, message: &[u8]) -> u8;
    fn installed(&mut self, code: u8);
    fn poll(&mut self, now: u64) -> Action<'_>;
    fn record(&self) -> Vec<u8>;
    /// What can be looked at beside the record.
    fn look(&self) -> Vec<u32>;
}

pub trait GatewayEnd {
    fn receive(&mut self, now: u64, message: &[u8]) -> u8;
    fn poll(&mut self, now: u64) -> Action<'_>;
    fn record(&self) -> Vec<u8>;
    /// Outcome, said, fault, gateways, served, total.
    fn look(&self) -> Vec<u32>;
}

/// Starts a device's driver, with this image and a state of this length; or tells why not.
pub fn device(
    language: Language,
    config: &Config,
    version: &[u8],
    image: Vec<u8>,
    state_length: usize,
    slots: [&[u8]; 2],
    now: u64,
) -> Result<Box<dyn DeviceEnd>, u8> {
    match language {
        Language::Rust => rust::Device::start(config, version, image, state_length, slots, now),
        Language::C => c::Device::start(config, version, image, state_length, slots, now),
    }
}

/// Starts a gateway's driver, or tells why not.
pub fn gateway<'p>(
    language: Language,
    config: &Config,
    version: &[u8],
    package: &'p [u8],
    slots: [&[u8]; 2],
    now: u64,
) -> Result<Box<dyn GatewayEnd + 'p>, u8> {
    match language {
        Language::Rust => rust::Gateway::start(config, version, package, slots, now),
        Language::C => c::Gateway::start(config, version, package, slots, now),
    }
}
