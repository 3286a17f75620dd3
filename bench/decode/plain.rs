//! The job of `bundle_codec::decode` in plain Rust, to be measured against: judges the bundle that bytes begin with.
//!
//! `plain FILE ROUNDS` prints the least time of a round in nanoseconds, and how many operations and bytes the bundle has.

#[path = "../judging.rs"]
mod judging;

use judging::{FRONT, Reader};
use std::env;
use std::fs;
use std::process::ExitCode;
use std::time::{Duration, Instant};

fn main() -> ExitCode {
    let words: Vec<String> = env::args().collect();
    let bytes = fs::read(&words[1]).expect("a file");
    let rounds: u32 = words[2].parse().expect("a number of rounds");
    let mut least = Duration::MAX;
    let mut found = (0, 0);
    for _ in 0..rounds {
        let start = Instant::now();
        let mut length = FRONT;
        let count = match (Reader { rest: &bytes }).bundle(|op| length += op.bytes.len()) {
            Ok(count) => count,
            Err((number, details)) => {
                eprintln!("fault {number}{details}");
                return ExitCode::FAILURE;
            }
        };
        least = least.min(start.elapsed());
        found = (count, length);
    }
    println!("{} {} {}", least.as_nanos(), found.0, found.1);
    ExitCode::SUCCESS
}
