//! The standard streams of the programs here, and how they tell that one of them fails.

// Each program uses a part of it.
#![allow(dead_code)]

use std::io::{self, Read, Write};
use std::process::ExitCode;

/// All of standard input.
pub fn read() -> Result<Vec<u8>, String> {
    let mut bytes = Vec::new();
    io::stdin().lock().read_to_end(&mut bytes).map_err(|error| format!("standard input: {error}"))?;
    Ok(bytes)
}

/// To standard output, all of it.
pub fn write(bytes: &[u8]) -> Result<(), String> {
    let mut output = io::stdout().lock();
    output.write_all(bytes).and_then(|()| output.flush()).map_err(|error| format!("standard output: {error}"))
}

/// To standard error, beside what the program is for.
pub fn tell(text: &str) -> Result<(), String> {
    io::stderr().write_all(text.as_bytes()).map_err(|error| format!("standard error: {error}"))
}

/// A failure is told under the program's name; where even that fails, the exit status is left.
pub fn exit_code(program: &str, outcome: Result<(), String>) -> ExitCode {
    match outcome {
        Ok(()) => ExitCode::SUCCESS,
        Err(error) => {
            drop(tell(&format!("{program}: {error}\n")));
            ExitCode::FAILURE
        }
    }
}
