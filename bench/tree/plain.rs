//! A plain reader of style sheets and of the trees of USFM texts, to which the proved one is compared.
//! It is run as `plain SHEET FILE ROUNDS`, and prints the least times of reading the sheet and the tree
//! in nanoseconds, and what is in the tree.

#[path = "../plain_tree.rs"]
mod plain_tree;

use plain_tree::{Kind, Node, Sheet, read_tree};
use std::time::{Duration, Instant};
use std::{env, fs};

#[allow(dead_code)]
#[derive(Debug, Default)]
struct Tally {
    texts: u64,
    paras: u64,
    chars: u64,
    notes: u64,
    milestones: u64,
    leaves: u64,
    closes: u64,
    starts: u64,
    bytes: u64,
}

fn count(counts: &mut Tally, nodes: &[Node<'_>]) {
    for node in nodes {
        let (start, length) = match node {
            Node::Text(start, slice) => {
                counts.texts += 1;
                (*start, slice.len())
            }
            Node::Leaf(start, mark) => {
                counts.leaves += 1;
                (*start, mark.slice.len())
            }
            Node::Branch(branch) => {
                match branch.kind {
                    Kind::Paragraph => counts.paras += 1,
                    Kind::Character => counts.chars += 1,
                    Kind::Note => counts.notes += 1,
                    Kind::Milestone => counts.milestones += 1,
                }
                counts.closes += u64::from(branch.close.is_some());
                count(counts, &branch.kids);
                (branch.start, branch.slice.len())
            }
        };
        counts.starts += start as u64;
        counts.bytes += length as u64;
    }
}

fn main() {
    let words: Vec<String> = env::args().skip(1).collect();
    let sheet_text = fs::read_to_string(&words[0]).unwrap();
    let text = fs::read_to_string(&words[1]).unwrap();
    let (mut sheet_time, mut tree_time) = (Duration::MAX, Duration::MAX);
    let mut counts = Tally::default();
    for _ in 0..words[2].parse::<u32>().unwrap() {
        let start = Instant::now();
        let sheet = Sheet::read(&sheet_text).unwrap();
        sheet_time = sheet_time.min(start.elapsed());
        let start = Instant::now();
        let tree = read_tree(&text, &sheet);
        tree_time = tree_time.min(start.elapsed());
        counts = Tally::default();
        count(&mut counts, &tree);
    }
    println!("{} {} {counts:?}", sheet_time.as_nanos(), tree_time.as_nanos());
}
