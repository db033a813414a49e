//! The library's speed beside the plain model's, and the limit that plain copying sets.
//!
//! `bench list` prints the names of the rows. `bench time <row>` prints the library's nanoseconds
//! and the model's; a limit has one figure. `bench do <row> <library|model> <times>` only does the
//! operation, to be counted from outside; a limit is the same for both.

mod naming;
mod operation;

use std::process::ExitCode;
use std::time::{Duration, Instant};

use model::Model;
use operation::{Operation, Prepare, LIMITS, OPERATIONS};
use zeradok::Library;

const BATCH: Duration = Duration::from_millis(15);
const BATCHES: usize = 15;

fn main() -> ExitCode {
    let arguments: Vec<String> = std::env::args().skip(1).collect();
    let arguments: Vec<&str> = arguments.iter().map(String::as_str).collect();
    match arguments[..] {
        ["list"] => {
            rows().for_each(|(name, _)| println!("{name}"));
            Some(())
        }
        ["time", name] => time(name),
        ["do", name, subject, times] => repeat(name, subject, times),
        _ => None,
    }
    .map_or_else(usage, |()| ExitCode::SUCCESS)
}

fn usage() -> ExitCode {
    eprintln!("usage: bench list | time <row> | do <row> <library|model> <times>");
    ExitCode::FAILURE
}

/// All rows, the limits last.
fn rows() -> impl Iterator<Item = &'static (&'static str, Prepare)> {
    OPERATIONS.iter().chain(&naming::OPERATIONS).chain(&LIMITS)
}

/// The operation of a row, ready to be done.
fn prepared(name: &str) -> Option<Operation> {
    rows().find(|(known, _)| *known == name).map(|(_, prepare)| prepare())
}

fn repeat(name: &str, subject: &str, times: &str) -> Option<()> {
    let mut operation = prepared(name)?;
    let times = times.parse().ok()?;
    match subject {
        "library" => operation.repeat::<Library>(times),
        "model" => operation.repeat::<Model>(times),
        _ => return None,
    }
    Some(())
}

/// Times both in turns and takes the best batch of each.
fn time(name: &str) -> Option<()> {
    let mut operation = prepared(name)?;
    let library = |operation: &mut Operation, times| operation.repeat::<Library>(times);
    let model = |operation: &mut Operation, times| operation.repeat::<Model>(times);
    let library_times = calibrate(&mut operation, library);
    let model_times = calibrate(&mut operation, model);
    let mut best = [f64::INFINITY; 2];
    for _ in 0..BATCHES {
        best[0] = best[0].min(nanoseconds(&mut operation, library, library_times));
        best[1] = best[1].min(nanoseconds(&mut operation, model, model_times));
    }
    if LIMITS.iter().any(|(limit, _)| *limit == name) {
        println!("{:.1}", best[0].min(best[1]));
    } else {
        println!("{:.1}\t{:.1}", best[0], best[1]);
    }
    Some(())
}

/// How many times fill a batch.
fn calibrate(operation: &mut Operation, repeat: impl Fn(&mut Operation, u32)) -> u32 {
    let mut times = 1;
    loop {
        let start = Instant::now();
        repeat(operation, times);
        if start.elapsed() >= BATCH || times > u32::MAX / 2 {
            return times;
        }
        times *= 2;
    }
}

fn nanoseconds(operation: &mut Operation, repeat: impl Fn(&mut Operation, u32), times: u32) -> f64 {
    let start = Instant::now();
    repeat(operation, times);
    start.elapsed().as_nanos() as f64 / f64::from(times)
}
