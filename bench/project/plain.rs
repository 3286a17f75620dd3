//! The jobs of `usfm_team` on a project in plain Rust, to be measured against: loads the project's file, imports a book
//! into it, receives a bundle or exports a book, and writes the file anew where it was changed. Names and texts are
//! lent by the files that were read. All operations are judged, and an import or an export then leaves those of other
//! books alone; a receive joins the bytes of the operations.
//!
//! `plain import PROJECT FILE`, `plain receive PROJECT BUNDLE`, `plain export PROJECT BOOK`. Beside these, `plain load
//! PROJECT` only loads, and `plain index PROJECT` then makes a register of what each segment shows, as a replica that
//! is asked again and again would keep it: what the two take apart is the share of an index.

#[path = "../operations.rs"]
mod operations;
#[path = "../projects.rs"]
mod projects;

use operations::fitting::{Key, Place, after_backslashes, code_ends, code_of_head, key_at};
use operations::{Fault, Id, Op, export, picked, shown_in, whole_bundle};
use projects::{Project, answer, fault, read, receive};
use std::collections::{BTreeMap, BTreeSet, HashMap};
use std::io::{self, Write};
use std::process::ExitCode;

const GREATEST_NUMBER: u64 = 1_000_000_000_000_000;

/// The text of a file, and the code of the book that it begins with.
fn book_in(file: &[u8]) -> Result<([u8; 3], &str), Fault> {
    let text = std::str::from_utf8(file).map_err(|error| (10, format!(" {}", error.valid_up_to())))?;
    Ok((book_of(text)?, text))
}

fn book_of(text: &str) -> Result<[u8; 3], Fault> {
    let code = code_of_head(text.as_bytes()).ok_or(fault(30))?;
    let (book, after) = code.split_first_chunk().ok_or(fault(20))?;
    if code_ends(after) && book.iter().all(|b| b.is_ascii_uppercase() || b.is_ascii_digit()) {
        Ok(*book)
    } else {
        Err(fault(20))
    }
}

/// The pieces of a book: each begins at a mark whose key is greater than all before it, and the first at the front.
fn cut(text: &str) -> BTreeMap<Key, &str> {
    let mut pieces = BTreeMap::new();
    let mut chapter = 0;
    let mut start = 0;
    let mut last = Key { chapter, place: Place::Head };
    for after in after_backslashes(text.as_bytes()) {
        let Some(key) = key_at(after, chapter) else {
            continue;
        };
        let at = text.len() - after.len() - 1;
        chapter = chapter.max(key.chapter);
        if key > last {
            pieces.insert(last, &text[start..at]);
            start = at;
            last = key;
        }
    }
    pieces.insert(last, &text[start..]);
    pieces
}

/// A text for a segment, and the ids that it shows.
struct Change<'a> {
    key: Key,
    replaced: Vec<Id<'a>>,
    text: &'a str,
}

/// What makes the text of a book the one of these pieces: a change at each key whose picked text is another. A head
/// without a text of its own, which is picked as its chapter's line, is changed too where there is no verse that would
/// go on giving it that line.
fn changes<'a>(ops: Vec<Op<'a>>, pieces: &BTreeMap<Key, &'a str>) -> Vec<Change<'a>> {
    let picked = picked(&ops);
    let shown = shown_in(ops);
    let verses = pieces.keys().filter(|key| key.place != Place::Head);
    let with_verses: BTreeSet<u16> = verses.map(|key| key.chapter).collect();
    let keys: BTreeSet<Key> = picked.keys().chain(pieces.keys()).copied().collect();
    let mut changes = Vec::new();
    for key in keys {
        let text = pieces.get(&key).copied().unwrap_or("");
        let before = picked.get(&key).map_or(&b""[..], |text| text);
        let held = shown.get(&key).map_or(&[][..], |ops| ops);
        let has_text = held.last().and_then(Op::text).is_some_and(|text| !text.is_empty());
        if text.as_bytes() != before || !(text.is_empty() || has_text || with_verses.contains(&key.chapter)) {
            let replaced = held.iter().map(|op| op.id).collect();
            changes.push(Change { key, replaced, text });
        }
    }
    changes
}

/// Makes the text of a book the one of a file, by an operation for each change, after all that the project holds.
fn import(path: &str, file: &str) -> Result<String, Fault> {
    let bytes = read(path)?;
    let file = read(file)?;
    let project = Project::new(&bytes)?;
    let read = book_in(&file);
    let book = read.as_ref().ok().map(|(book, _)| *book);
    let mut ops = Vec::new();
    let mut last = 0;
    let held = project.judge(|op| {
        last = op.id.number;
        if Some(op.book()) == book {
            ops.push(op);
        }
    })?;
    let (book, text) = read?;
    let changes = changes(ops, &cut(text));
    let count = changes.len() as u64;
    if last + count > GREATEST_NUMBER {
        return Err(fault(81));
    }
    if count > 0 {
        let (magic, rest) = project.bundle.split_at(8);
        project.replace(path, |out| {
            out.write_all(magic)?;
            out.write_all(&(held + count).to_be_bytes())?;
            out.write_all(&rest[8..])?;
            let mut made = (last + 1..).map(|number| Id { number, name: project.name }).zip(&changes);
            made.try_for_each(|(id, change)| write_change(out, id, book, change))
        })?;
    }
    Ok(format!("added {count}\n"))
}

fn write_id(out: &mut impl Write, id: Id<'_>) -> io::Result<()> {
    out.write_all(&id.number.to_be_bytes())?;
    out.write_all(&[id.name.len() as u8])?;
    out.write_all(id.name)
}

fn write_change(out: &mut impl Write, id: Id<'_>, book: [u8; 3], change: &Change<'_>) -> io::Result<()> {
    write_id(out, id)?;
    out.write_all(&book)?;
    write_key(out, change.key)?;
    out.write_all(&(change.replaced.len() as u64).to_be_bytes())?;
    change.replaced.iter().try_for_each(|id| write_id(out, *id))?;
    out.write_all(&[1])?;
    out.write_all(&(change.text.len() as u64).to_be_bytes())?;
    out.write_all(change.text.as_bytes())
}

fn write_key(out: &mut impl Write, key: Key) -> io::Result<()> {
    let (kind, verse, letter) = match key.place {
        Place::Head => (0, 0, 0),
        Place::Verse(verse, letter) => (1, verse, letter),
    };
    out.write_all(&key.chapter.to_be_bytes())?;
    out.write_all(&[kind])?;
    out.write_all(&verse.to_be_bytes())?;
    out.write_all(&[letter])
}

fn export_book(path: &str, book: [u8; 3]) -> Result<Vec<u8>, Fault> {
    let bytes = read(path)?;
    let mut ops = Vec::new();
    Project::new(&bytes)?.judge(|op| {
        if op.book() == book {
            ops.push(op);
        }
    })?;
    export(&ops)
}

/// How many ids are shown, counted in a register for each segment.
fn shown_ids(ops: &[Op]) -> usize {
    let mut registers: HashMap<_, Vec<Id>> = HashMap::new();
    for op in ops {
        let shown = registers.entry(op.segment()).or_default();
        shown.retain(|id| op.replaced().all(|named| named != *id));
        shown.push(op.id);
    }
    registers.values().map(Vec::len).sum()
}

/// Counts in the operations of a project.
fn counted(path: &str, count: impl Fn(&[Op]) -> usize) -> Result<Vec<u8>, Fault> {
    let bytes = read(path)?;
    let ops = whole_bundle(Project::new(&bytes)?.bundle)?;
    Ok(format!("{}\n", count(&ops)).into_bytes())
}

/// What a line of words writes, or none where it asks for nothing that is known.
fn run(words: &[&str]) -> Option<Result<Vec<u8>, Fault>> {
    match *words {
        ["import", project, file] => Some(import(project, file).map(String::into_bytes)),
        ["receive", project, bundle] => Some(receive(project, bundle).map(String::into_bytes)),
        ["export", project, book] => Some(export_book(project, book.as_bytes().try_into().ok()?)),
        ["load", project] => Some(counted(project, |ops| ops.len())),
        ["index", project] => Some(counted(project, shown_ids)),
        _ => None,
    }
}

fn main() -> io::Result<ExitCode> {
    let words: Vec<String> = std::env::args().skip(1).collect();
    let words: Vec<&str> = words.iter().map(String::as_str).collect();
    match run(&words) {
        Some(said) => answer(said),
        None => {
            eprintln!("plain import|receive PROJECT FILE, plain export PROJECT BOOK, plain load|index PROJECT");
            Ok(ExitCode::from(2))
        }
    }
}
