//! The jobs of `call_times index` in plain Rust, to be measured against: sets of operations with what each segment shows,
//! made by single inserts and joined. Names and texts are lent by whoever makes an operation.

use std::collections::{HashMap, HashSet};
use std::time::{Duration, Instant};

#[derive(Clone, Copy, PartialEq, Eq, PartialOrd, Ord, Hash)]
struct Id {
    number: u64,
    name: &'static [u8],
}

type Segment = ([u8; 3], u16, u16);

#[derive(PartialEq)]
struct Op {
    id: Id,
    segment: Segment,
    replaced: Vec<Id>,
    text: &'static str,
}

/// What a segment shows, and what was named in it before it came.
#[derive(Default)]
struct Register {
    shown: Vec<Id>,
    named: HashSet<Id>,
}

/// Operations that rise by id, and what each segment shows.
#[derive(Default)]
struct Set {
    ops: Vec<Op>,
    registers: HashMap<Segment, Register>,
}

/// Where an operation of an id is, or would be. Most that come are after all that are held.
fn place(ops: &[Op], id: Id) -> Result<usize, usize> {
    match ops.last() {
        Some(last) if id <= last.id => ops.binary_search_by_key(&id, |op| op.id),
        _ => Err(ops.len()),
    }
}

impl Set {
    /// Shows an operation that is not held, in place of those that it names, if none that is held names it.
    fn note(&mut self, op: &Op) {
        let register = self.registers.entry(op.segment).or_default();
        for named in &op.replaced {
            if let Some(at) = register.shown.iter().position(|id| id == named) {
                register.shown.remove(at);
            } else if place(&self.ops, *named).is_err() {
                register.named.insert(*named);
            }
        }
        if !register.named.remove(&op.id) {
            let at = register.shown.partition_point(|id| *id < op.id);
            register.shown.insert(at, op.id);
        }
    }

    fn insert(&mut self, op: Op) {
        match place(&self.ops, op.id) {
            Ok(at) => assert!(self.ops[at] == op, "a clash"),
            Err(at) => {
                self.note(&op);
                self.ops.insert(at, op);
            }
        }
    }

    /// Takes in a set: its registers too where nothing is held; else its operations, by one merge of the two lists.
    fn join(&mut self, other: Set) {
        if self.ops.is_empty() {
            *self = other;
            return;
        }
        let mut new = Vec::new();
        for op in other.ops {
            match place(&self.ops, op.id) {
                Ok(at) => assert!(self.ops[at] == op, "a clash"),
                Err(_) => {
                    self.note(&op);
                    new.push(op);
                }
            }
        }
        self.ops.append(&mut new);
        self.ops.sort_by_key(|op| op.id);
    }

    fn sum(&self) -> u64 {
        let ranks = |book: &[u8; 3]| BOOKS.iter().position(|known| known.as_bytes() == book);
        let mut segments: Vec<_> = self.registers.iter().collect();
        segments.sort_by_key(|(segment, _)| (ranks(&segment.0), segment.1, segment.2));
        let ids = segments.iter().flat_map(|(_, register)| &register.shown);
        ids.fold(0, |sum, id| sum.wrapping_mul(31).wrapping_add(id.number))
    }
}

const BOOKS: [&str; 8] = ["MAT", "MRK", "LUK", "JHN", "ACT", "ROM", "1CO", "2CO"];
const NAMES: [&str; 4] = ["ana", "ben", "cy", "dan-2"];

fn id_of(number: u64) -> Id {
    let name = NAMES[(number % 4) as usize].as_bytes();
    Id { number, name }
}

fn op_of(number: u64, at: u64, places: u64, before: u64) -> Op {
    let in_book = at % (places / 8).max(1);
    let book = BOOKS[(at * 8 / places) as usize].as_bytes().try_into().unwrap();
    Op {
        id: id_of(number),
        segment: (book, (in_book / 40 % 999) as u16, (in_book % 40) as u16),
        replaced: (before > 0).then(|| id_of(before)).into_iter().collect(),
        text: "",
    }
}

fn set_of(count: u64, from: u64, to: u64) -> Set {
    let places = count * 2 / 3 + 1;
    let mut shown = vec![0; places as usize];
    let mut set = Set::default();
    let mut random = 12345u64;
    for number in 1..=to {
        random = random.wrapping_mul(6364136223846793005).wrapping_add(1442695040888963407);
        let at = if number <= places { number - 1 } else { random / 65536 % places };
        let before = std::mem::replace(&mut shown[at as usize], number);
        if number > from {
            set.insert(op_of(number, at, places, before));
        }
    }
    set
}

fn join_three(count: u64, tenths: [u64; 6]) -> (Set, Duration, Duration) {
    let bound = |tenth: u64| count / 10 * tenth;
    let [one, two, three] = [0, 2, 4].map(|i| set_of(count, bound(tenths[i]), bound(tenths[i + 1])));
    let mut set = Set::default();
    let start = Instant::now();
    set.join(one);
    let first = start.elapsed();
    set.join(two);
    set.join(three);
    (set, first, start.elapsed())
}

fn main() {
    let mut words = std::env::args().skip(1);
    let count: u64 = words.next().unwrap().parse().unwrap();
    let rounds: u32 = words.next().unwrap().parse().unwrap();
    let mut least = [Duration::MAX; 4];
    for round in 0..rounds {
        let start = Instant::now();
        let set = set_of(count, 0, count);
        least[0] = least[0].min(start.elapsed());
        let by_inserts = set.sum();
        drop(set);
        let (set, one, all) = join_three(count, [0, 6, 6, 9, 9, 10]);
        least[1] = least[1].min(one);
        least[2] = least[2].min(all);
        let by_joins = set.sum();
        drop(set);
        let (set, _, all) = join_three(count, [0, 6, 3, 9, 5, 10]);
        least[3] = least[3].min(all);
        if round == 0 {
            println!("{} {} {} {}", set.ops.len(), set.sum(), by_joins, by_inserts);
        }
    }
    let [inserts, first, apart, overlapping] = least.map(|time| time.as_micros());
    println!("inserts {inserts} first {first} apart {apart} overlapping {overlapping}");
}
