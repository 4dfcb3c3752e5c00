//! `program_check NAME PROGRAM [SEED]` runs the program of this name, replay, mend or decode, on many inputs over a pipe and
//! compares what it writes to standard output and standard error with the reading.

mod reading;
mod support;

use reading::capture::mend;
use reading::decode::decode;
use reading::replay::{hex, replay};
use std::ffi::{OsStr, OsString};
use std::io::{self, Write};
use std::process::{self, ChildStdin, Command, Output, Stdio};
use std::sync::atomic::{AtomicUsize, Ordering};
use std::sync::Mutex;
use std::time::Duration;
use std::{env, fs, thread};
use support::inputs::{all_cases, not_reached, Case};

const DEFAULT_SEED: u64 = 1;

/// What a program writes for an input: to standard output, and to standard error.
type Expected = fn(&[u8]) -> (Vec<u8>, String);

fn expected_of(name: &OsStr) -> Option<Expected> {
    match name.to_str()? {
        "replay" => Some(|input| (replay(input).into_bytes(), String::new())),
        "mend" => Some(mend),
        "decode" => Some(|input| (decode(input).into_bytes(), String::new())),
        _ => None,
    }
}

/// Both in one text, for people; what is no text as hex.
fn shown(output: &[u8], told: &[u8]) -> String {
    let output = String::from_utf8(output.to_vec()).unwrap_or_else(|_| hex(output) + "\n");
    output + &String::from_utf8_lossy(told)
}

/// Runs the program on one input.
fn run(program: &OsStr, case: &Case) -> io::Result<Output> {
    let mut child = Command::new(program)
        .stdin(Stdio::piped())
        .stdout(Stdio::piped())
        .stderr(Stdio::piped())
        .spawn()?;
    let stdin = child.stdin.take().expect("the child's input is a pipe");
    thread::scope(|scope| {
        scope.spawn(|| feed(stdin, case));
        child.wait_with_output()
    })
}

/// Writes the input and closes it. The program may stop reading past its limit, so a failed write is no fault.
fn feed(mut stdin: ChildStdin, case: &Case) {
    match case.pieces {
        None => drop(stdin.write_all(&case.input)),
        Some(length) => {
            for piece in case.input.chunks(length) {
                drop(stdin.write_all(piece));
                thread::sleep(Duration::from_micros(300));
            }
        }
    }
}

/// A case whose output is not the expected one.
struct Difference {
    case: usize,
    expected: String,
    printed: String,
}

/// Runs all cases on a few threads; the differences are in the order of the cases.
fn compare(program: &OsStr, expected: Expected, cases: &[Case]) -> io::Result<Vec<Difference>> {
    let next = AtomicUsize::new(0);
    let found = Mutex::new(Vec::new());
    let workers = thread::available_parallelism().map_or(2, |count| count.get());
    thread::scope(|scope| {
        let workers: Vec<_> =
            (0..workers).map(|_| scope.spawn(|| work(program, expected, cases, &next, &found))).collect();
        workers.into_iter().try_for_each(|worker| worker.join().expect("a worker does not panic"))
    })?;
    let mut differences = found.into_inner().expect("a worker does not panic");
    differences.sort_by_key(|difference: &Difference| difference.case);
    Ok(differences)
}

fn work(
    program: &OsStr,
    expected: Expected,
    cases: &[Case],
    next: &AtomicUsize,
    found: &Mutex<Vec<Difference>>,
) -> io::Result<()> {
    loop {
        let number = next.fetch_add(1, Ordering::Relaxed);
        let case = match cases.get(number) {
            Some(case) => case,
            None => return Ok(()),
        };
        let output = run(program, case)?;
        let (written, told) = expected(&case.input);
        let ended = output.status.code().is_some();
        if output.stdout != written || output.stderr != told.as_bytes() || !ended {
            let mut printed = shown(&output.stdout, &output.stderr);
            if !ended {
                printed.push_str("(ended by a signal)\n");
            }
            found.lock().expect("a worker does not panic").push(Difference {
                case: number,
                expected: shown(&written, told.as_bytes()),
                printed,
            });
        }
    }
}

/// The first difference: where it is, and in files the input as hex and both outputs.
fn show(case: &Case, difference: &Difference) -> io::Result<()> {
    let folder = env::temp_dir();
    let (expected, printed) = (&difference.expected, &difference.printed);
    println!("input {}: {}", difference.case, case.name);
    for (name, text) in [("hex", &hex(&case.input)), ("expected", expected), ("printed", printed)] {
        let path = folder.join(format!("program-difference.{}", name));
        fs::write(&path, text)?;
        println!("see {}", path.display());
    }
    let same = lines(expected).zip(lines(printed)).take_while(|(one, other)| one == other).count();
    println!("line {}", same + 1);
    println!("expected: {}", some_lines(expected, same));
    println!("printed:  {}", some_lines(printed, same));
    Ok(())
}

/// The lines with their ends.
fn lines(text: &str) -> impl Iterator<Item = &str> {
    text.split_inclusive('\n')
}

/// A few lines of an output, in quotes.
fn some_lines(text: &str, first: usize) -> String {
    let lines: Vec<String> = lines(text).skip(first).take(3).map(|line| format!("{:?}", line)).collect();
    if lines.is_empty() {
        "nothing more".to_string()
    } else {
        lines.join("\n          ")
    }
}

/// The program's name, the program and the seed.
fn arguments() -> Option<(OsString, OsString, u64)> {
    let mut arguments = env::args_os().skip(1);
    let name = arguments.next()?;
    let program = arguments.next()?;
    let seed = match arguments.next() {
        Some(seed) => seed.to_str()?.parse().ok()?,
        None => DEFAULT_SEED,
    };
    Some((name, program, seed))
}

fn main() -> io::Result<()> {
    let wrong = || -> ! {
        eprintln!("usage: program_check replay|mend|decode PROGRAM [SEED]");
        process::exit(2)
    };
    let (name, program, seed) = arguments().unwrap_or_else(|| wrong());
    let expected = expected_of(&name).unwrap_or_else(|| wrong());
    let name = name.to_string_lossy();
    let cases = all_cases(seed);
    let missing = not_reached(&cases);
    if !missing.is_empty() {
        println!("{name}: no input brings {}", missing.join(", "));
        process::exit(1);
    }
    let differences = compare(&program, expected, &cases).unwrap_or_else(|error| {
        eprintln!("program_check: {}: {}", program.to_string_lossy(), error);
        process::exit(2);
    });
    if let Some(first) = differences.first() {
        println!("seed {}", seed);
        show(&cases[first.case], first)?;
    }
    println!("{name}: {} compared, {} different", cases.len(), differences.len());
    process::exit(i32::from(!differences.is_empty()));
}
