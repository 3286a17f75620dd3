//! Judging bundles of either format in plain Rust: what the plain programs that read operations have in common. What is
//! handed on is lent by the bytes: nothing is copied out of them.

// No program uses all of it.
#![allow(dead_code)]

#[path = "fitting.rs"]
pub mod fitting;
#[path = "reading.rs"]
mod reading;

use fitting::{Key, fits};
pub use reading::{Fault, Reader};

pub const MAGIC: &[u8; 8] = b"USFMSR1\n";
/// Of a bundle in which a text was left out.
pub const SECOND_MAGIC: &[u8; 8] = b"USFMSR2\n";

/// The bytes of a bundle before its operations: the magic ones, and how many operations there are.
pub const FRONT: usize = 16;

/// A book and a key, as they are spelled.
pub type Segment = [u8; 9];

#[derive(Clone, Copy, PartialEq, Eq, PartialOrd, Ord, Hash)]
pub struct Id<'a> {
    pub number: u64,
    pub name: &'a [u8],
}

/// An operation of which all was judged. What is seldom asked is read again, so that many of them take little room.
#[derive(Clone, Copy)]
pub struct Op<'a> {
    pub id: Id<'a>,
    /// All that spells it.
    pub bytes: &'a [u8],
    /// How many of these come before the tag of the text.
    head: usize,
}

impl<'a> Op<'a> {
    /// What spells it after its id, without the text.
    fn after_id(&self) -> &'a [u8] {
        &self.head()[9 + self.id.name.len()..]
    }

    pub fn segment(&self) -> Segment {
        self.after_id()[..9].try_into().unwrap()
    }

    /// What spells all but the text.
    pub fn head(&self) -> &'a [u8] {
        &self.bytes[..self.head]
    }

    /// None where it was left out.
    pub fn text(&self) -> Option<&'a [u8]> {
        self.bytes.get(self.head + 9..)
    }

    /// The ids that it names.
    pub fn replaced(&self) -> impl Iterator<Item = Id<'a>> {
        let mut rest = &self.after_id()[17..];
        std::iter::from_fn(move || {
            let (number, after) = rest.split_first_chunk()?;
            let (length, after) = after.split_first()?;
            let (name, after) = after.split_at((*length).into());
            rest = after;
            let number = u64::from_be_bytes(*number);
            Some(Id { number, name })
        })
    }
}

/// An operation without a text, and whether one of its segment names it.
struct LeftOut<'a> {
    place: u64,
    id: Id<'a>,
    segment: Segment,
    is_named: bool,
}

/// Adds the next operation of a bundle to those without a text, which rise by id.
fn note<'a>(left_out: &mut Vec<LeftOut<'a>>, place: u64, op: &Op<'a>) {
    for named in op.replaced() {
        if let Ok(at) = left_out.binary_search_by(|one| one.id.cmp(&named)) {
            left_out[at].is_named |= left_out[at].segment == op.segment();
        }
    }
    if op.text().is_none() {
        let (id, segment) = (op.id, op.segment());
        left_out.push(LeftOut { place, id, segment, is_named: false });
    }
}

/// Most texts are ASCII, which is quicker to see.
fn is_utf8(text: &[u8]) -> bool {
    text.is_ascii() || std::str::from_utf8(text).is_ok()
}

impl<'a> Reader<'a> {
    fn id(&mut self, bad: impl Fn() -> Fault) -> Result<Id<'a>, Fault> {
        let number = self.u64()?;
        if !(1..=1_000_000_000_000_000).contains(&number) {
            return Err(bad());
        }
        let name = self.name(bad)?;
        Ok(Id { number, name })
    }

    fn replaced(&mut self, own: u64, bad: impl Fn() -> Fault + Copy) -> Result<(), Fault> {
        let mut before = None;
        for _ in 0..self.u64()? {
            let id = self.id(bad)?;
            if id.number >= own || before.is_some_and(|before| before >= id) {
                return Err(bad());
            }
            before = Some(id);
        }
        Ok(())
    }

    /// A text that fits, or none where it may be left out.
    fn text(&mut self, book: &[u8; 3], key: Key, is_second: bool, told: impl Fn(u32) -> Fault) -> Result<(), Fault> {
        match self.u8()? {
            0 if is_second => return Ok(()),
            1 => {}
            _ => return Err(told(66)),
        }
        let length = self.u64()?;
        let text = self.take(length)?;
        if !is_utf8(text) {
            return Err(told(67));
        }
        if fits(book, key, text) { Ok(()) } else { Err(told(68)) }
    }

    fn operation<const SECOND: bool>(&mut self, place: u64, before: Option<Id<'a>>) -> Result<Op<'a>, Fault> {
        let told = |number: u32| (number, format!(" {place}"));
        let start = self.rest;
        let id = self.id(|| told(63))?;
        if before.is_some_and(|before| before >= id) {
            return Err(told(62));
        }
        let book: [u8; 3] = self.take(3)?.try_into().unwrap();
        if !book.iter().all(|b| b.is_ascii_uppercase() || b.is_ascii_digit()) {
            return Err(told(64));
        }
        let key = self.key(|| told(64))?;
        self.replaced(id.number, || told(65))?;
        let head = start.len() - self.rest.len();
        self.text(&book, key, SECOND, told)?;
        let bytes = &start[..start.len() - self.rest.len()];
        Ok(Op { id, bytes, head })
    }

    /// Reads which format a bundle has: whether it is the second.
    fn is_second(&mut self) -> Result<bool, Fault> {
        let front = &self.rest[..self.rest.len().min(MAGIC.len())];
        if !MAGIC.starts_with(front) && !SECOND_MAGIC.starts_with(front) {
            return Err((60, String::new()));
        }
        Ok(self.take(MAGIC.len() as u64)? == SECOND_MAGIC)
    }

    /// The operations of a bundle of the first format, or of the second.
    fn operations<const SECOND: bool>(&mut self, mut each: impl FnMut(u64, Op<'a>)) -> Result<u64, Fault> {
        let count = self.u64()?;
        let mut before = None;
        for place in 0..count {
            let op = self.operation::<SECOND>(place + 1, before)?;
            before = Some(op.id);
            each(place + 1, op);
        }
        Ok(count)
    }

    /// Judges the bundle at the front. Its operations can then be read without judging them again.
    pub fn judged(&mut self) -> Result<Judged<'a>, Fault> {
        let bytes = self.rest;
        self.bundle(|_| {})?;
        Ok(Judged { rest: &bytes[FRONT..bytes.len() - self.rest.len()] })
    }

    /// Judges the bundle at the front, and hands on each operation as soon as it is judged. Answers how many there are.
    pub fn bundle(&mut self, mut each: impl FnMut(Op<'a>)) -> Result<u64, Fault> {
        if !self.is_second()? {
            return self.operations::<false>(|_, op| each(op));
        }
        let mut left_out = Vec::new();
        let count = self.operations::<true>(|place, op| {
            note(&mut left_out, place, &op);
            each(op);
        })?;
        if left_out.is_empty() {
            return Err((69, " 0".to_owned()));
        }
        match left_out.iter().find(|one| !one.is_named) {
            Some(one) => Err((69, format!(" {}", one.place))),
            None => Ok(count),
        }
    }
}

/// The operations of a bundle that was judged, read again from their bytes.
pub struct Judged<'a> {
    rest: &'a [u8],
}

impl<'a> Iterator for Judged<'a> {
    type Item = Op<'a>;

    fn next(&mut self) -> Option<Op<'a>> {
        let bytes = self.rest;
        let u64_at = |at: usize| u64::from_be_bytes(bytes[at..][..8].try_into().unwrap());
        if bytes.is_empty() {
            return None;
        }
        let name = &bytes[9..][..bytes[8].into()];
        let id = Id { number: u64_at(0), name };
        let count = 9 + name.len() + 9;
        let mut head = count + 8;
        for _ in 0..u64_at(count) {
            head += 9 + usize::from(bytes[head + 8]);
        }
        let length = if bytes[head] == 0 { 1 } else { 9 + u64_at(head + 1) as usize };
        let (bytes, rest) = bytes.split_at(head + length);
        self.rest = rest;
        Some(Op { id, bytes, head })
    }
}
