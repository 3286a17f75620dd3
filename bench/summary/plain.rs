//! The job of `Replica::summary` in plain Rust, to be measured against.
//!
//! `plain BUNDLES ROUNDS` takes in bundles that come one after the other, and makes the summary of all. It prints the
//! least time of a round in nanoseconds, and the length and a sum of the summary's bytes.

#[path = "../held.rs"]
mod held;

use held::{Held, Summary, sum_of};
use std::env;
use std::fs;
use std::hint::black_box;
use std::time::{Duration, Instant};

/// The bytes of a summary.
fn summary_bytes(summary: &Summary<'_>) -> Vec<u8> {
    let mut bytes = b"USFMSS1\n".to_vec();
    bytes.extend((summary.len() as u64).to_be_bytes());
    for (name, ranges) in summary {
        bytes.push(name.len() as u8);
        bytes.extend_from_slice(name);
        bytes.extend((ranges.len() as u64).to_be_bytes());
        for (first, last) in ranges {
            bytes.extend(first.to_be_bytes());
            bytes.extend(last.to_be_bytes());
        }
    }
    bytes
}

fn main() {
    let words: Vec<String> = env::args().collect();
    let bundles = fs::read(&words[1]).expect("the bundles");
    let rounds: u32 = words[2].parse().expect("a number of rounds");
    let mut held = Held::default();
    let mut rest = bundles.as_slice();
    while !rest.is_empty() {
        rest = held.receive(rest).expect("a bundle").1;
    }
    let mut least = Duration::MAX;
    for _ in 0..rounds {
        let start = Instant::now();
        black_box(held.summary());
        least = least.min(start.elapsed());
    }
    black_box((held.shown_ids(), held.delta(&held.summary())));
    let bytes = summary_bytes(&held.summary());
    println!("{} {} {}", least.as_nanos(), bytes.len(), sum_of(&bytes));
}
