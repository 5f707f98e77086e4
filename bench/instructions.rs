//! The instructions of each call, counted by callgrind, which don't depend on what else the machine does.
//!
//! The bench runs itself once more under valgrind with the argument `counted`. There each call is made once inside
//! `counted_call`; callgrind counts only there, and writes a file with the total each time it is left.

use crate::calls::{Buffers, Call, Outcome, Row};
use std::hint::black_box;
use std::path::Path;
use std::process::Command;

/// Where callgrind writes: parts.1, parts.2 and so on.
const FOLDER: &str = "target/bench/callgrind";

/// A few dozen instructions are counted in addition to those of the call.
#[no_mangle]
#[inline(never)]
fn counted_call(call: Call, buffers: &mut Buffers) -> Outcome {
    call(buffers)
}

/// What the bench does under callgrind.
pub fn make_counted_calls(rows: &mut [Row]) {
    for row in rows {
        for call in row.sides {
            row.buffers.set();
            black_box(counted_call(black_box(call), &mut row.buffers));
        }
    }
}

/// All instructions of a call, and those that clear memory (`memset`) among them.
#[derive(Clone, Copy)]
pub struct Count {
    pub all: u64,
    pub clearing: u64,
}

/// The instructions of each row: of the library, and of plain Rust.
pub fn count(rows: usize) -> Result<Vec<[Count; 2]>, String> {
    // What an earlier run left must not be read.
    if Path::new(FOLDER).exists() {
        std::fs::remove_dir_all(FOLDER).map_err(|error| format!("{FOLDER}: {error}"))?;
    }
    std::fs::create_dir_all(FOLDER).map_err(|error| format!("{FOLDER}: {error}"))?;
    run_callgrind()?;
    (0..rows).map(|row| Ok([read(2 * row + 1)?, read(2 * row + 2)?])).collect()
}

fn run_callgrind() -> Result<(), String> {
    let bench = std::env::current_exe().map_err(|error| error.to_string())?;
    let run = Command::new("valgrind")
        .args(["--tool=callgrind", "--collect-atstart=no", "--compress-strings=no"])
        .args(["--toggle-collect=counted_call", "--dump-after=counted_call"])
        .arg(format!("--callgrind-out-file={FOLDER}/parts"))
        .arg(bench)
        .arg("counted")
        .output()
        .map_err(|error| format!("valgrind: {error}"))?;
    if !run.status.success() {
        return Err(String::from_utf8_lossy(&run.stderr).into_owned());
    }
    Ok(())
}

/// The counts of a part.
fn read(part: usize) -> Result<Count, String> {
    let path = format!("{FOLDER}/parts.{part}");
    let text = std::fs::read_to_string(&path).map_err(|error| format!("{path}: {error}"))?;
    let total = text.lines().find_map(|line| line.strip_prefix("totals: ")?.trim().parse().ok());
    let all = total.filter(|total| *total > 0).ok_or(format!("{path}: nothing was counted"))?;
    Ok(Count { all, clearing: clearing(&text) })
}

/// What the functions called memset count themselves. A line of costs begins with a place, in full or by its distance,
/// and ends with the count; the one after `calls=` is that of the function called.
fn clearing(text: &str) -> u64 {
    let (mut total, mut clears, mut called) = (0, false, false);
    for line in text.lines() {
        if let Some(name) = line.strip_prefix("fn=") {
            clears = name.contains("memset");
        } else if line.starts_with("calls=") {
            called = true;
        } else if line.starts_with(|first: char| first.is_ascii_digit() || "+-*".contains(first)) {
            let count = line.rsplit(' ').next().and_then(|word| word.parse::<u64>().ok());
            total += count.filter(|_| clears && !called).unwrap_or(0);
            called = false;
        }
    }
    total
}
