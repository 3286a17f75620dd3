//! Sets of operations in plain Rust: what the plain programs that hold operations have in common. The operations lend
//! what the bundles have that they were read from.

// No program uses all of it.
#![allow(dead_code)]

#[path = "judging.rs"]
pub mod judging;

pub use judging::{Fault, Id, Op, Reader, fitting};

use fitting::{Key, Place};
use judging::{MAGIC, SECOND_MAGIC};
use std::borrow::Cow;
use std::cmp::Ordering;
use std::collections::{BTreeMap, BTreeSet, HashSet};
use std::io::{self, Write};

impl<'a> Op<'a> {
    pub fn book(&self) -> [u8; 3] {
        let [one, two, three, ..] = self.segment();
        [one, two, three]
    }

    pub fn key(&self) -> Key {
        let [_, _, _, high, low, kind, verse_high, verse_low, letter] = self.segment();
        let chapter = u16::from_be_bytes([high, low]);
        let verse = u16::from_be_bytes([verse_high, verse_low]);
        let place = if kind == 0 { Place::Head } else { Place::Verse(verse, letter) };
        Key { chapter, place }
    }

    /// The one of two operations of one id that stands for both: the one without a text, if there is one.
    pub fn meet(self, other: Op<'a>) -> Result<Op<'a>, Fault> {
        let is_left_out = self.text().is_none() || other.text().is_none();
        if self.bytes == other.bytes || is_left_out && self.head() == other.head() {
            Ok(if other.text().is_none() { other } else { self })
        } else {
            Err((51, format!(" {} {}", self.id.number, String::from_utf8_lossy(self.id.name))))
        }
    }
}

impl<'a> Reader<'a> {
    /// Judges a bundle that nothing follows, and hands on each operation.
    pub fn whole_bundle(mut self, each: impl FnMut(Op<'a>)) -> Result<u64, Fault> {
        let count = self.bundle(each)?;
        if self.rest.is_empty() { Ok(count) } else { Err((70, String::new())) }
    }
}

/// The operations of a bundle that nothing follows.
pub fn whole_bundle(bytes: &[u8]) -> Result<Vec<Op<'_>>, Fault> {
    let mut ops = Vec::new();
    Reader { rest: bytes }.whole_bundle(|op| ops.push(op))?;
    Ok(ops)
}

/// Hands on the union of two lists that rise by id.
pub fn join<'a>(held: &[Op<'a>], other: &[Op<'a>], mut each: impl FnMut(Op<'a>)) -> Result<(), Fault> {
    let (mut i, mut j) = (0, 0);
    while i < held.len() && j < other.len() {
        let order = held[i].id.cmp(&other[j].id);
        each(match order {
            Ordering::Less => held[i],
            Ordering::Greater => other[j],
            Ordering::Equal => held[i].meet(other[j])?,
        });
        i += usize::from(order.is_le());
        j += usize::from(order.is_ge());
    }
    held[i..].iter().chain(&other[j..]).for_each(|op| each(*op));
    Ok(())
}

/// Writes the front of a bundle.
pub fn write_front(out: &mut impl Write, is_second: bool, count: u64) -> io::Result<()> {
    out.write_all(if is_second { SECOND_MAGIC } else { MAGIC })?;
    out.write_all(&count.to_be_bytes())
}

pub fn left_out(ops: &[Op]) -> usize {
    ops.iter().filter(|op| op.text().is_none()).count()
}

/// Writes the bundle of operations that rise by id.
pub fn write_bundle(out: &mut impl Write, ops: &[Op]) -> io::Result<()> {
    write_front(out, left_out(ops) > 0, ops.len() as u64)?;
    ops.iter().try_for_each(|op| out.write_all(op.bytes))
}

/// Of the operations of a book, which rise by id, those that each segment shows.
pub fn shown_in<'a>(ops: impl IntoIterator<Item = Op<'a>>) -> BTreeMap<Key, Vec<Op<'a>>> {
    let mut segments: BTreeMap<Key, Vec<Op>> = BTreeMap::new();
    for op in ops {
        segments.entry(op.key()).or_default().push(op);
    }
    for ops in segments.values_mut().filter(|ops| ops.len() > 1) {
        let replaced: HashSet<Id> = ops.iter().flat_map(Op::replaced).collect();
        ops.retain(|op| !replaced.contains(&op.id));
    }
    segments
}

/// The picked text of each segment of a book, of operations that rise by id: that of the greatest id, which no other
/// operation names, since it would have a greater one. A chapter with a verse has its line, where no text of its head is
/// picked.
pub fn picked<'a>(ops: &[Op<'a>]) -> BTreeMap<Key, Cow<'a, [u8]>> {
    let text_of = |op: &Op<'a>| Cow::Borrowed(op.text().unwrap_or(b""));
    let mut texts: BTreeMap<Key, Cow<[u8]>> = BTreeMap::new();
    for op in ops {
        texts.insert(op.key(), text_of(op));
    }
    let verses = texts.iter().filter(|(key, text)| key.place != Place::Head && !text.is_empty());
    let mut with_verses: BTreeSet<u16> = verses.map(|(key, _)| key.chapter).collect();
    with_verses.remove(&0);
    for chapter in with_verses {
        let place = Place::Head;
        let head = texts.entry(Key { chapter, place }).or_default();
        if head.is_empty() {
            *head = Cow::Owned(format!("\\c {chapter}\n").into_bytes());
        }
    }
    texts
}

/// The text of a book, of operations that rise by id: what is picked, by rising key.
pub fn export(ops: &[Op]) -> Result<Vec<u8>, Fault> {
    if ops.is_empty() {
        return Err((82, String::new()));
    }
    Ok(picked(ops).into_values().collect::<Vec<_>>().concat())
}
