//! The jobs of `Replica::delta` and `Replica::receive` in plain Rust, to be measured against.
//!
//! `plain PROJECT EDITS JOB ROUNDS`, with two bundles: one holds the project and the edits, the other one the project
//! alone. The job `delta` writes what the second lacks, the job `receive` takes that in. It prints the least time of a
//! round in nanoseconds, the length and a sum of the delta, and how many operations were new.

#[path = "../held.rs"]
mod held;

use held::{Held, sum_of};
use std::env;
use std::fs;
use std::hint::black_box;
use std::time::{Duration, Instant};

fn holding<'a>(bundles: &[&'a [u8]]) -> Held<'a> {
    let mut held = Held::default();
    for bundle in bundles {
        held.receive(bundle).expect("a bundle");
    }
    held
}

fn main() {
    let words: Vec<String> = env::args().collect();
    let project = fs::read(&words[1]).expect("the project");
    let edits = fs::read(&words[2]).expect("the edits");
    let rounds: u32 = words[4].parse().expect("a number of rounds");
    let ana = holding(&[&project, &edits]);
    let mut ben = holding(&[&project]);
    let summary = ben.summary();
    let delta = ana.delta(&summary);
    let mut least = Duration::MAX;
    let mut new = 0;
    for _ in 0..rounds {
        let start;
        if words[3] == "delta" {
            start = Instant::now();
            black_box(ana.delta(&summary));
        } else {
            ben = holding(&[&project]);
            start = Instant::now();
            new = ben.receive(&delta).expect("a delta").0;
        }
        least = least.min(start.elapsed());
    }
    black_box(ben.shown_ids() + ana.shown_ids());
    println!("{} {} {} {new}", least.as_nanos(), delta.len(), sum_of(&delta));
}
