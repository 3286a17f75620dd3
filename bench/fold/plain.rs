//! The job of `usfm_team fold BOOK` in plain Rust, to be measured against: reads bundles from standard input, joins
//! them, and writes the book's picked texts by rising key. Each bundle is judged, and then all are walked side by side
//! over their bytes. Names and texts are lent by these, and no operations are kept but those of the one book.
//!
//! `plain BOOK < stream`.

#[path = "../operations.rs"]
mod operations;

use operations::judging::Judged;
use operations::{Fault, Id, Op, Reader, export};
use std::cmp::Reverse;
use std::collections::BinaryHeap;
use std::collections::binary_heap::PeekMut;
use std::io::{self, Read, Write};
use std::iter::Peekable;
use std::process::ExitCode;

const LONGEST_INPUT: usize = 268_435_456;

/// Hands on the union of bundles, by rising ids. Of clashes that one is reported which joining the bundles in turn meets
/// first: the least of the first bundle that has one.
fn merge<'a>(bundles: Vec<Judged<'a>>, mut each: impl FnMut(Op<'a>)) -> Result<(), Fault> {
    let mut bundles: Vec<Peekable<Judged>> = bundles.into_iter().map(Iterator::peekable).collect();
    let firsts = bundles.iter_mut().enumerate().filter_map(|(place, ops)| Some(Reverse((ops.peek()?.id, place))));
    let mut next: BinaryHeap<Reverse<(Id, usize)>> = firsts.collect();
    let mut last: Option<Op> = None;
    let mut clash = None;
    while let Some(mut least) = next.peek_mut() {
        let place = least.0.1;
        let op = bundles[place].next().expect("what was peeked at");
        match bundles[place].peek() {
            Some(after) => least.0.0 = after.id,
            None => _ = PeekMut::pop(least),
        }
        match last {
            Some(held) if held.id == op.id => match held.meet(op) {
                Ok(both) => last = Some(both),
                Err(fault) if clash.as_ref().is_none_or(|(first, _)| place < *first) => clash = Some((place, fault)),
                Err(_) => {}
            },
            _ => last.replace(op).into_iter().for_each(&mut each),
        }
    }
    last.into_iter().for_each(each);
    clash.map_or(Ok(()), |(_, fault)| Err(fault))
}

/// The operations of a book in the union of bundles one after another. A clash comes before a fault of a later bundle.
fn union_in(book: [u8; 3], input: &[u8]) -> Result<Vec<Op<'_>>, Fault> {
    let mut reader = Reader { rest: input };
    let mut bundles = Vec::new();
    let mut read = Ok(());
    while read.is_ok() && !reader.rest.is_empty() {
        read = reader.judged().map(|ops| bundles.push(ops));
    }
    let mut ops = Vec::new();
    merge(bundles, |op| {
        if op.book() == book {
            ops.push(op);
        }
    })?;
    read.map(|()| ops)
}

fn fold(input: &[u8], book: [u8; 3]) -> Result<Vec<u8>, Fault> {
    if input.len() > LONGEST_INPUT {
        return Err((121, String::new()));
    }
    export(&union_in(book, input)?)
}

fn main() -> io::Result<ExitCode> {
    let word = std::env::args().nth(1).unwrap_or_default();
    let Ok(book) = <[u8; 3]>::try_from(word.as_bytes()) else {
        eprintln!("plain BOOK < stream");
        return Ok(ExitCode::from(2));
    };
    let mut input = Vec::new();
    io::stdin().take(LONGEST_INPUT as u64 + 1).read_to_end(&mut input)?;
    match fold(&input, book) {
        Ok(text) => {
            io::stdout().write_all(&text)?;
            Ok(ExitCode::SUCCESS)
        }
        Err((number, details)) => {
            eprintln!("fault {number}{details}");
            Ok(ExitCode::from(1))
        }
    }
}
