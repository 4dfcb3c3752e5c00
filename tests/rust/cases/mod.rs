//! What the manual says of the drivers, case by case.

mod device;
mod gateway;
pub mod messages;

use crate::drivers::Language;
use pcp::driver::Config;

/// A case, and why it failed.
pub type Case = fn(Language) -> Result<(), String>;

pub const ALL: &[(&str, Case)] = &[
    ("gateway: the waits", gateway::waits),
    ("gateway: what is dropped", gateway::dropped),
    ("gateway: the order to install", gateway::order),
    ("gateway: the endings", gateway::endings),
    ("gateway: the failures", gateway::failures),
    ("gateway: the sizes", gateway::sizes),
    ("gateway: the standstills", gateway::standstills),
    ("gateway: fragments that do not get through", gateway::stuck),
    ("gateway: the limits", gateway::limits),
    ("gateway: restarts", gateway::restarts),
    ("gateway: foreign saves", gateway::foreign),
    ("gateway: the end", gateway::end),
    ("device: a new one", device::new),
    ("device: asking", device::asking),
    ("device: silence after a query", device::silence),
    ("device: the order of actions", device::order),
    ("device: when it saves", device::saves),
    ("device: a digest", device::digest),
    ("device: a digest known later", device::later_digest),
    ("device: a digest, without a code", device::digest_without_code),
    ("device: a repeat that differs", device::repeat),
    ("device: restarts in Installing", device::installing),
    ("device: other restarts", device::restarts),
    ("device: the newest save", device::newest),
    ("device: a clock that goes back", device::clock),
];

/// Times that are all different.
pub const CONFIG: Config = Config {
    retry: 10,
    quiet: 30,
    installation: 600,
    later: 700,
    linger: 60,
    time_limit: 0,
    gateway_limit: 0,
    failure_limit: 0,
    size: 48,
    size_most: 500,
    save_every: 16,
    install_limit: 3,
    digest: None,
};

pub fn expect<T: std::fmt::Debug + PartialEq>(what: &str, given: T, expected: T) -> Result<(), String> {
    if given == expected {
        Ok(())
    } else {
        Err(format!("{}: {:?}, not {:?}", what, given, expected))
    }
}
