//! `pcapng` converts the capture on standard input to a pcapng file on standard output. Bytes of a damaged capture that are
//! no record are told on standard error as mend tells them, by a line with their start and their length.

mod convert;
#[path = "../streams.rs"]
mod streams;

use std::process::ExitCode;

fn main() -> ExitCode {
    let converted = streams::read().and_then(|capture| {
        let (file, told) = convert::converted(&capture);
        streams::write(&file)?;
        streams::tell(&told)
    });
    streams::exit_code("pcapng", converted)
}
