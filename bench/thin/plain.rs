//! The jobs of `usfm_team` on a project with texts left out in plain Rust, to be measured against.
//!
//! `plain thin PROJECT` leaves out the texts that were replaced, `plain receive PROJECT BUNDLE` receives a bundle, and
//! `plain send PROJECT` writes the bundle of all operations. Names and texts are lent by the files that were read, and
//! operations are written by their bytes. A project has the bytes that `send` writes, so it only judges them.

#[path = "../operations.rs"]
mod operations;
#[path = "../projects.rs"]
mod projects;

use operations::{Fault, Op, whole_bundle, write_front};
use projects::{Project, answer, fault, read, receive};
use std::io::{self, Write};
use std::process::ExitCode;

/// Which operations another one of their segment names. They rise by id.
fn past(ops: &[Op]) -> Vec<bool> {
    let mut past = vec![false; ops.len()];
    for op in ops {
        for named in op.replaced() {
            if let Ok(at) = ops.binary_search_by(|one| one.id.cmp(&named)) {
                past[at] |= ops[at].segment() == op.segment();
            }
        }
    }
    past
}

/// Leaves out each text that was replaced.
fn thin(path: &str) -> Result<String, Fault> {
    let bytes = read(path)?;
    let project = Project::new(&bytes)?;
    let ops = whole_bundle(project.bundle)?;
    let past = past(&ops);
    let count = ops.iter().zip(&past).filter(|(op, is_past)| **is_past && op.text().is_some()).count();
    if count > 0 {
        project.replace(path, |out| {
            write_front(out, true, ops.len() as u64)?;
            ops.iter().zip(&past).try_for_each(|(op, is_past)| write_op(out, op, *is_past))
        })?;
    }
    Ok(format!("thinned {count}\n"))
}

fn write_op(out: &mut impl Write, op: &Op, is_past: bool) -> io::Result<()> {
    if !is_past {
        return out.write_all(op.bytes);
    }
    out.write_all(op.head())?;
    out.write_all(&[0])
}

fn send(path: &str) -> Result<String, Fault> {
    let bytes = read(path)?;
    let project = Project::new(&bytes)?;
    project.judge(|_| {})?;
    io::stdout().write_all(project.bundle).map_err(|_| fault(90))?;
    Ok(String::new())
}

fn main() -> io::Result<ExitCode> {
    let words: Vec<String> = std::env::args().skip(1).collect();
    let words: Vec<&str> = words.iter().map(String::as_str).collect();
    let said = match *words {
        ["thin", project] => thin(project),
        ["receive", project, bundle] => receive(project, bundle),
        ["send", project] => send(project),
        _ => {
            eprintln!("plain thin PROJECT, plain receive PROJECT BUNDLE, plain send PROJECT");
            return Ok(ExitCode::from(2));
        }
    };
    answer(said)
}
