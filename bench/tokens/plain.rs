//! A plain tokenizer of USFM texts, to which the proved one is compared: the same tokens with the
//! same parts, by a search of 16 bytes at a time, a table for the bytes of names, and splits without
//! a test. It is run as `plain FILE ROUNDS`, and prints the least time of a round in nanoseconds,
//! and what a round counted.

#[path = "../backslash.rs"]
mod backslash;

use backslash::find_backslash;
use std::env;
use std::fs;
use std::hint::black_box;
use std::time::Instant;

#[derive(Clone, Copy)]
struct Mark<'a> {
    slice: &'a str,
    name: &'a str,
    nested: bool,
    closing: bool,
}

#[derive(Clone, Copy)]
enum Token<'a> {
    Mark(Mark<'a>),
    Text(&'a str),
}

struct Tokens<'a> {
    rest: &'a str,
}

/// Which bytes a name may have.
static IS_NAME_BYTE: [bool; 256] = {
    let mut table = [false; 256];
    let mut byte = 0;
    while byte < 128 {
        let it = byte as u8;
        table[byte] = it.is_ascii_alphanumeric() || it == b'-' || it == b'_';
        byte += 1;
    }
    table
};

/// The text before a place and from it on. The place is beside an ASCII byte, or an end of the text.
fn split(text: &str, at: usize) -> (&str, &str) {
    unsafe { (text.get_unchecked(..at), text.get_unchecked(at..)) }
}

impl<'a> Iterator for Tokens<'a> {
    type Item = Token<'a>;

    fn next(&mut self) -> Option<Token<'a>> {
        let text = self.rest;
        let bytes = text.as_bytes();
        if bytes.is_empty() {
            return None;
        }
        if bytes[0] != b'\\' {
            let (front, rest) = split(text, find_backslash(bytes).unwrap_or(bytes.len()));
            self.rest = rest;
            return Some(Token::Text(front));
        }
        let nested = bytes.get(1) == Some(&b'+');
        let name_start = if nested { 2 } else { 1 };
        let name_end = bytes[name_start..]
            .iter()
            .position(|&b| !IS_NAME_BYTE[usize::from(b)])
            .map_or(bytes.len(), |n| name_start + n);
        let closing = bytes.get(name_end) == Some(&b'*');
        let (slice, rest) = split(text, name_end + usize::from(closing));
        self.rest = rest;
        Some(Token::Mark(Mark {
            slice,
            name: split(split(slice, name_end).0, name_start).1,
            nested,
            closing,
        }))
    }
}

#[derive(Debug, Default)]
struct Tally {
    marks: u64,
    mark_bytes: u64,
    name_bytes: u64,
    nested: u64,
    closing: u64,
    texts: u64,
    text_bytes: u64,
}

#[inline(never)]
fn count_tokens(text: &str) -> Tally {
    let mut counts = Tally::default();
    for token in (Tokens { rest: text }) {
        match token {
            Token::Mark(mark) => {
                counts.marks += 1;
                counts.mark_bytes += mark.slice.len() as u64;
                counts.name_bytes += mark.name.len() as u64;
                counts.nested += u64::from(mark.nested);
                counts.closing += u64::from(mark.closing);
            }
            Token::Text(text) => {
                counts.texts += 1;
                counts.text_bytes += text.len() as u64;
            }
        }
    }
    counts
}

fn main() {
    let words: Vec<String> = env::args().collect();
    let text = fs::read_to_string(&words[1]).expect("a USFM text");
    let rounds: u32 = words[2].parse().expect("a number of rounds");
    let mut least = u128::MAX;
    let mut counts = Tally::default();
    for _ in 0..rounds {
        let start = Instant::now();
        counts = count_tokens(black_box(&text));
        least = least.min(start.elapsed().as_nanos());
    }
    println!("{least} {counts:?}");
}
