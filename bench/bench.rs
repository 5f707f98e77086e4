//! The proved library compared with plain Rust written for speed (`bench/fast`): times and instructions of each call. Run by
//! `bench/run`.

mod calls;
mod instructions;
#[allow(dead_code)]
#[path = "../tests/differential/common/library.rs"]
mod library;
mod sheets;
mod words;

use calls::{Buffers, Call, Outcome, Row, Sides};
use instructions::Count;
use std::time::{Duration, Instant};

/// One call on buffers that were set anew, outside the time.
fn timed(buffers: &mut Buffers, call: Call) -> (Duration, Outcome) {
    buffers.set();
    let start = Instant::now();
    let outcome = call(buffers);
    (start.elapsed(), outcome)
}

/// Both sides must answer and leave the same.
fn compare(buffers: &mut Buffers, [library, plain]: Sides) -> Result<Outcome, String> {
    let (_, ours) = timed(buffers, library);
    let (sheet, scratch) = (buffers.sheet.clone(), buffers.scratch.clone());
    let (_, theirs) = timed(buffers, plain);
    if ours != theirs || sheet != buffers.sheet || scratch != buffers.scratch {
        return Err(format!("the two sides differ: {ours:?}, {theirs:?}"));
    }
    Ok(ours)
}

/// All calls are compared on all inputs, also those that are not measured.
fn compare_all(rows: &mut [Row]) -> Result<(), String> {
    for row in rows.iter_mut().chain(&mut calls::compared_only()) {
        for (call, sides) in calls::ALL_CALLS {
            compare(&mut row.buffers, sides).map_err(|error| format!("input of {}, {call}: {error}", row.name))?;
        }
    }
    Ok(())
}

/// The median time of each side in microseconds, over rounds in which both are called and the first changes, and the number
/// of rounds.
fn median_times(row: &mut Row, rounds: usize) -> ([f64; 2], usize) {
    let mut times = [vec![], vec![]];
    let start = Instant::now();
    while times[0].len() < rounds && (times[0].len() < 21 || start.elapsed() < Duration::from_millis(1000)) {
        let first = times[0].len() % 2;
        for side in [first, 1 - first] {
            times[side].push(timed(&mut row.buffers, row.sides[side]).0);
        }
    }
    let done = times[0].len();
    let median = times.map(|mut times| {
        times.sort_unstable();
        times[done / 2].as_nanos() as f64 / 1000.0
    });
    (median, done)
}

fn print_head(rounds: usize) {
    println!("Both sides answered and left the same in every row. Times are medians of up to {rounds} rounds");
    println!("(at least 21, about a second each), both sides in each, either first; before each call, outside the time, the sheet");
    println!("is copied anew and the 16,384 bytes of scratch or output are filled. Instructions are those of one");
    println!("call, by callgrind, all of them and without those that clear memory (memset). The sheets of the");
    println!("region are checked one after the other: the time is that of them all, the instructions are those of");
    println!("one sheet on average. In the rows of words and names the other side is the reference of the tests.");
    println!();
    println!("{:<36} | {:^37} | {:^29} | {:^29}", "", "microseconds", "instructions a call", "without clearing");
    let sides = format!("{:>10} {:>10} {:>7}", "library", "plain Rust", "ratio");
    println!("{:<27} {:<8} | {sides} {:>7} | {sides} | {sides}", "call", "answer", "rounds");
}

/// Two counts and how many times the second the first is.
fn beside([library, plain]: [u64; 2]) -> String {
    format!("{library:>10} {plain:>10} {:>7.2}", library as f64 / plain as f64)
}

fn print_row(row: &mut Row, counts: [Count; 2], rounds: usize) -> Result<(), String> {
    let [number, place, ..] = compare(&mut row.buffers, row.sides)?;
    let calls = row.sheets().max(1) as u64;
    let answer = if row.sheets() == 0 { format!("{number:02} {place:05}") } else { format!("{number} done") };
    let ([ours, theirs], done) = median_times(row, rounds);
    let times = format!("{ours:>10.2} {theirs:>10.2} {:>7.2} {done:>7}", ours / theirs);
    let all = beside(counts.map(|count| count.all / calls));
    let uncleared = beside(counts.map(|count| (count.all - count.clearing) / calls));
    println!("{:<27} {answer:<8} | {times} | {all} | {uncleared}", row.name);
    Ok(())
}

fn run() -> Result<(), String> {
    let mut rows = calls::rows();
    let argument = std::env::args().nth(1);
    if argument.as_deref() == Some("counted") {
        instructions::make_counted_calls(&mut rows);
        return Ok(());
    }
    let rounds = argument.map_or(5000, |text| text.parse().expect("a number of rounds"));
    compare_all(&mut rows)?;
    let counts = instructions::count(rows.len())?;
    print_head(rounds);
    for (row, count) in rows.iter_mut().zip(counts) {
        print_row(row, count, rounds)?;
    }
    Ok(())
}

fn main() {
    if let Err(error) = run() {
        eprintln!("{error}");
        std::process::exit(1);
    }
}
