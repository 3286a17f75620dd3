//! What a replica holds, in plain Rust: operations in the order of their ids, and what each segment shows. It takes
//! bundles in, and gives its summary and what lies outside another one's. The bundles lend their bytes for as long as
//! the replica is there. Names are numbered as they come, since their bytes lie far apart.

#[path = "operations.rs"]
mod operations;

use operations::judging::Segment;
use operations::{Fault, Id, Op, Reader, left_out, write_bundle};
use std::collections::{HashMap, HashSet};

/// Names, rising by their bytes, each with ranges of numbers.
pub type Summary<'a> = Vec<(&'a [u8], Vec<(u64, u64)>)>;

/// An operation, and the number of its name.
#[derive(Clone, Copy)]
struct Kept<'a> {
    op: Op<'a>,
    name: usize,
}

#[derive(Default)]
pub struct Held<'a> {
    ops: Vec<Kept<'a>>,
    names: HashMap<&'a [u8], usize>,
    shown: HashMap<Segment, Vec<Id<'a>>>,
    /// What is named in a segment and has not come.
    awaited: HashSet<(Segment, Id<'a>)>,
}

impl<'a> Held<'a> {
    /// Takes in the bundle at the front of some bytes. Answers how many of its operations are new, and the bytes after
    /// it.
    pub fn receive(&mut self, bytes: &'a [u8]) -> Result<(usize, &'a [u8]), Fault> {
        let mut reader = Reader { rest: bytes };
        let mut ops = Vec::new();
        reader.bundle(|op| ops.push(op))?;
        let mut new = Vec::with_capacity(ops.len());
        let mut met = Vec::new();
        for op in ops {
            match self.place(&op.id) {
                Err(_) => new.push(op),
                Ok(at) => met.push((at, self.ops[at].op.meet(op)?)),
            }
        }
        for (at, both) in met {
            self.ops[at].op = both;
        }
        self.add(&new);
        Ok((new.len(), reader.rest))
    }

    /// Where an operation of this id is, or would be. Most that come are after all that are held.
    fn place(&self, id: &Id) -> Result<usize, usize> {
        match self.ops.last() {
            Some(last) if *id <= last.op.id => self.ops.binary_search_by(|held| held.op.id.cmp(id)),
            _ => Err(self.ops.len()),
        }
    }

    /// Adds operations that are not held, and rise by id.
    fn add(&mut self, new: &[Op<'a>]) {
        let is_after = match (self.ops.last(), new.first()) {
            (Some(last), Some(first)) => last.op.id < first.id,
            _ => true,
        };
        for op in new {
            let next = self.names.len();
            let name = *self.names.entry(op.id.name).or_insert(next);
            self.ops.push(Kept { op: *op, name });
        }
        if !is_after {
            self.ops.sort_by_key(|kept| kept.op.id);
        }
        new.iter().for_each(|op| self.note(op));
    }

    /// Shows a held operation in its segment, in place of those that it names, if none that came names it.
    fn note(&mut self, op: &Op<'a>) {
        let segment = op.segment();
        let shown = self.shown.entry(segment).or_default();
        for named in op.replaced() {
            if let Some(at) = shown.iter().position(|id| *id == named) {
                shown.remove(at);
            } else if self.ops.binary_search_by(|held| held.op.id.cmp(&named)).is_err() {
                self.awaited.insert((segment, named));
            }
        }
        if !self.awaited.remove(&(segment, op.id)) {
            let at = shown.partition_point(|id| *id < op.id);
            shown.insert(at, op.id);
        }
    }

    /// How many ids all segments show.
    pub fn shown_ids(&self) -> usize {
        self.shown.values().map(Vec::len).sum()
    }

    pub fn summary(&self) -> Summary<'a> {
        let mut ranges: Vec<Vec<(u64, u64)>> = vec![Vec::new(); self.names.len()];
        for kept in &self.ops {
            let (ranges, number) = (&mut ranges[kept.name], kept.op.id.number);
            match ranges.last_mut() {
                Some(last) if last.1 + 1 == number => last.1 = number,
                _ => ranges.push((number, number)),
            }
        }
        let ranges_of = |(name, at): (&&'a [u8], &usize)| (*name, std::mem::take(&mut ranges[*at]));
        let mut summary: Summary = self.names.iter().map(ranges_of).collect();
        summary.sort_by_key(|(name, _)| *name);
        summary
    }

    /// The operations outside a summary. The ranges of a name are walked beside its numbers, which rise.
    fn outside(&self, summary: &Summary<'_>) -> Vec<Op<'a>> {
        let mut known: Vec<&[(u64, u64)]> = vec![&[]; self.names.len()];
        for (name, ranges) in summary {
            if let Some(at) = self.names.get(name) {
                known[*at] = ranges;
            }
        }
        let mut due = Vec::new();
        for kept in &self.ops {
            let (known, number) = (&mut known[kept.name], kept.op.id.number);
            while known.first().is_some_and(|range| range.1 < number) {
                *known = &known[1..];
            }
            if known.first().is_none_or(|range| number < range.0) {
                due.push(kept.op);
            }
        }
        due
    }

    /// The bundle of the operations outside a summary, and of all of a segment where one of these has no text.
    pub fn delta(&self, summary: &Summary<'_>) -> Vec<u8> {
        let mut due = self.outside(summary);
        if left_out(&due) > 0 {
            let ids: HashSet<Id> = due.iter().map(|op| op.id).collect();
            let open: HashSet<Segment> = due.iter().filter(|op| op.text().is_none()).map(Op::segment).collect();
            let all = self.ops.iter().map(|kept| kept.op);
            due = all.filter(|op| ids.contains(&op.id) || open.contains(&op.segment())).collect();
        }
        let mut bytes = Vec::with_capacity(16 + due.iter().map(|op| op.bytes.len()).sum::<usize>());
        write_bundle(&mut bytes, &due).expect("room");
        bytes
    }
}

pub fn sum_of(bytes: &[u8]) -> u64 {
    bytes.iter().fold(0, |sum, byte| u64::wrapping_add(u64::wrapping_mul(sum, 31), u64::from(*byte)))
}
