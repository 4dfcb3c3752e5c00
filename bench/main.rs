//! `bench FOLDER` measures the speed of the library against plain Rust, see docs/BENCHMARKS.md, and draws what the check
//! costs for each byte, and an upgrade for each fragment. Before anything is timed, both have given the same results.
//! `bench FOLDER check` measures the check alone, `bench FOLDER md5` digests alone.

mod calls;
mod ends;
mod md5;
mod measure;
mod plot;
mod upgrade;

use measure::Times;
use pcp::{SIZE_MAX, SIZE_MIN, SIZE_PUBLIC};
use plot::{Chart, Line};
use std::{env, fs};

fn main() {
    let folder = env::args().nth(1).expect("usage: bench FOLDER [check | md5]");
    let alone = env::args().nth(2);
    let draw = |picture: &str, chart: Chart| {
        fs::write(format!("{folder}/{picture}.svg"), chart.drawn()).expect("the picture is written");
    };
    println!("{:<36} {:>12} {:>12} {:>7} {:>8}", "", "library", "plain", "ratio", "quartiles");
    if alone.as_deref() != Some("md5") {
        draw("check-by-length", checks());
    }
    if alone.as_deref() != Some("check") {
        digests();
    }
    if alone.is_some() {
        return;
    }
    for size in [SIZE_PUBLIC, SIZE_MAX] {
        println!("one fragment of {size} bytes, ns for each call");
        let package = bytes(200 * usize::from(size) + 1);
        print_row("device receives it", &calls::fragment_received(size, &package));
        print_row("gateway is asked for it", &calls::fragment_served(size, &package));
    }
    println!("device is asked for its next message, ns for each call");
    let total = 60_000;
    let package = bytes(total * usize::from(SIZE_MIN));
    for (stored, times) in calls::asking(SIZE_MIN, &package, &[0, 600, 6_000, 30_000, 59_999]) {
        print_row(&format!("{stored} of {total} stored"), &times);
    }
    println!("the same with the last missing, against plain searches alone");
    for (search, times) in calls::searched(SIZE_MIN, &package) {
        print_row(search, &times);
    }
    println!("what follows damage in a capture of 32 KiB is passed over, ns");
    print_row("zeros", &calls::passed_over(&vec![0; 32 << 10]));
    print_row("each eighth place a candidate", &calls::passed_over(&calls::hostile_capture(32 << 10)));
    println!("a whole upgrade, ns for each fragment of {SIZE_PUBLIC} bytes");
    let mut lines = vec![Line::new("library"), Line::new("plain Rust")];
    for (kib, rounds) in [(64, 101), (256, 61), (1 << 10, 41), (4 << 10, 25), (8 << 10, 21), (16 << 10, 15)] {
        for (ends, times) in upgrade::compared(SIZE_PUBLIC, &bytes(kib << 10), rounds) {
            print_row(&format!("{kib:>5} KiB, {ends}"), &times);
            if ends == upgrade::BOTH {
                lines[0].points.push((kib, times.library));
                lines[1].points.push((kib, times.plain));
            }
        }
    }
    draw(
        "cost-per-fragment",
        Chart {
            title: format!("A whole upgrade, both ends: cost for each fragment of {SIZE_PUBLIC} bytes"),
            along: "package",
            unit: ("µs", 1e3),
            named: |kib| named(kib << 10),
            lines,
        },
    );
}

/// The check at lengths that tell, and then at all that are drawn.
fn checks() -> Chart {
    for (against, check) in calls::CHECKS {
        println!("the check, ns for each byte, against plain Rust {against}");
        for length in [16, 500, 8 << 20] {
            print_row(&format!("{length} bytes"), &calls::check(&bytes(length), check));
        }
    }
    let mut lines: Vec<Line> =
        ["library", "by the table", "folded too", "reading alone"].map(Line::new).into();
    for length in (3..=23).map(|power| 1 << power) {
        for (at, (_, check)) in calls::CHECKS.into_iter().enumerate() {
            let times = calls::check(&bytes(length), check);
            lines[at + 1].points.push((length, times.plain));
            if at == 0 {
                lines[0].points.push((length, times.library));
            }
        }
    }
    let title = "The check, and plain Rust: cost for each byte".to_string();
    Chart { title, along: "bytes", unit: ("ns", 1.0), named, lines }
}

/// MD5, and what it adds where a download is completed.
fn digests() {
    println!("MD5, ns for each byte, against OpenSSL");
    for length in [16, 500, 64 << 10, 8 << 20] {
        print_row(&format!("{length} bytes"), &calls::digest(&bytes(length)));
    }
    println!("the last fragment is received, ns for each byte of the image, with a digest against none");
    for size in [SIZE_PUBLIC, SIZE_MAX] {
        let times = calls::completed(size, &bytes(8 << 20));
        print_row(&format!("{} bytes, in fragments of {size}", 8 << 20), &times);
    }
}

fn print_row(name: &str, times: &Times) {
    let (low, high) = times.quartiles;
    println!(
        "  {name:<34} {:>12} {:>12} {:>7} {:>6} {}",
        figures(times.library),
        figures(times.plain),
        figures(times.ratio),
        figures(low),
        figures(high)
    );
}

/// Two figures behind the point, three of what is small.
fn figures(value: f64) -> String {
    let places = if value < 0.1 { 3 } else { 2 };
    format!("{value:.places$}")
}

fn named(bytes: usize) -> String {
    match bytes {
        0..=0x3FF => format!("{bytes}"),
        0x400..=0xF_FFFF => format!("{} KiB", bytes >> 10),
        _ => format!("{} MiB", bytes >> 20),
    }
}

/// Bytes that do not repeat with the fragments.
fn bytes(length: usize) -> Vec<u8> {
    (0..length as u32).map(|i| (i.wrapping_mul(2_654_435_761) >> 24) as u8).collect()
}
