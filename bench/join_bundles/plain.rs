//! The job of `bundle_codec::join_bundles` in plain Rust, to be measured against: judges two bundles, and writes the
//! bundle of their union out of the bytes that spell its operations.
//!
//! `plain FIRST SECOND ROUNDS` prints the least time of a round in nanoseconds, and the length and a sum of the joined
//! bytes.

#[path = "../operations.rs"]
mod operations;

use operations::judging::FRONT;
use operations::{Fault, join, whole_bundle, write_front};
use std::env;
use std::fs;
use std::process::ExitCode;
use std::time::{Duration, Instant};

fn join_bundles(first: &[u8], second: &[u8]) -> Result<Vec<u8>, Fault> {
    let left = whole_bundle(first)?;
    let right = whole_bundle(second)?;
    let mut bytes = Vec::with_capacity(first.len() + second.len());
    bytes.extend_from_slice(&[0; FRONT]);
    let mut count = 0;
    let mut is_second = false;
    join(&left, &right, |op| {
        bytes.extend_from_slice(op.bytes);
        count += 1;
        is_second |= op.text().is_none();
    })?;
    write_front(&mut &mut bytes[..FRONT], is_second, count).expect("room");
    Ok(bytes)
}

fn main() -> ExitCode {
    let words: Vec<String> = env::args().collect();
    let first = fs::read(&words[1]).expect("the first file");
    let second = fs::read(&words[2]).expect("the second file");
    let rounds: u32 = words[3].parse().expect("a number of rounds");
    let mut least = Duration::MAX;
    let (mut length, mut sum) = (0, 0u64);
    for _ in 0..rounds {
        let start = Instant::now();
        let joined = match join_bundles(&first, &second) {
            Ok(joined) => joined,
            Err((number, details)) => {
                eprintln!("fault {number}{details}");
                return ExitCode::FAILURE;
            }
        };
        least = least.min(start.elapsed());
        length = joined.len();
        sum = joined.iter().fold(0, |sum, byte| sum.wrapping_mul(31).wrapping_add(u64::from(*byte)));
    }
    println!("{} {length} {sum}", least.as_nanos());
    ExitCode::SUCCESS
}
