//! A plain search in USFM books, to which the proved one is compared: std alone. It is run as
//! `plain SHEET FILE NEEDLE ROUNDS`, and prints the least time of a search in nanoseconds, how many hits there are,
//! and the sum of their ends and of the numbers of their keys.

#[path = "../plain_leaves.rs"]
mod plain_leaves;

use plain_leaves::{Key, Sheet, plain_leaves};
use std::time::{Duration, Instant};
use std::{env, fs};

struct Hit<'a> {
    key: Key,
    start: usize,
    text: &'a str,
}

fn find<'a>(text: &'a str, sheet: &Sheet<'_>, needle: &str) -> Vec<Hit<'a>> {
    let mut hits = Vec::new();
    if !text.contains(needle) {
        return hits;
    }
    plain_leaves(text, sheet, |start, leaf, key| {
        for (at, found) in leaf.match_indices(needle) {
            hits.push(Hit { key, start: start + at, text: found });
        }
    });
    hits
}

fn main() {
    let words: Vec<String> = env::args().skip(1).collect();
    let sheet_text = fs::read_to_string(&words[0]).unwrap();
    let text = fs::read_to_string(&words[1]).unwrap();
    let sheet = Sheet::read(&sheet_text);
    let mut time = Duration::MAX;
    let (mut count, mut sum) = (0, 0);
    for _ in 0..words[3].parse::<u32>().unwrap() {
        let start = Instant::now();
        let hits = find(&text, &sheet, &words[2]);
        time = time.min(start.elapsed());
        count = hits.len();
        sum = 0;
        for hit in &hits {
            let verse = u64::from(hit.key.1.saturating_sub(1));
            sum += (hit.start + hit.text.len()) as u64 + u64::from(hit.key.0) + verse;
        }
    }
    println!("{} {count} {sum}", time.as_nanos());
}
