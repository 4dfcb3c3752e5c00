//! Prints the version of the library, and what each number and each outcome of the gateway's driver means, as the crate
//! for Rust has them. tests/c/reasons.c prints the same by the headers.

use pcp::driver::Outcome::{Failed, Gateways, NoRoom, Package, Success, Time};
use pcp::Refusal;

/// The crate has no refusal for 0, nor for a number that no call gives.
fn reason(number: u8) -> String {
    match Refusal::try_from(number) {
        Ok(refusal) => refusal.to_string(),
        Err(_) if number == 0 => "handled".to_string(),
        Err(_) => "unknown number".to_string(),
    }
}

fn main() {
    println!("version {}", pcp::VERSION);
    for number in 0..=255 {
        println!("{number} {}", reason(number));
    }
    for outcome in [Success, NoRoom, Failed, Gateways, Time, Package] {
        println!("outcome {} {outcome}", outcome as u8);
    }
}
