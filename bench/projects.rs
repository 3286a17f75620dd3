//! The file of a project in plain Rust: what the plain programs of whole projects have in common.

// No program uses all of it.
#![allow(dead_code)]

use crate::operations::{Fault, Op, Reader, join, left_out, whole_bundle, write_bundle};
use std::fs::{self, File};
use std::io::{self, BufWriter, Write};
use std::process::ExitCode;

const MAGIC: &[u8] = b"USFMPJ1\n";

const LONGEST_FILE: usize = 268_435_456;

const BUFFER: usize = 65_536;

pub fn fault(number: u32) -> Fault {
    (number, String::new())
}

/// The file of a project, of which the front was judged.
pub struct Project<'a> {
    pub name: &'a [u8],
    pub bundle: &'a [u8],
    front: &'a [u8],
}

impl<'a> Project<'a> {
    pub fn new(bytes: &'a [u8]) -> Result<Project<'a>, Fault> {
        let rest = bytes.strip_prefix(MAGIC).ok_or(fault(110))?;
        let mut reader = Reader { rest };
        let name = reader.name(|| fault(110)).map_err(|_| fault(110))?;
        let bundle = reader.rest;
        let front = &bytes[..bytes.len() - bundle.len()];
        Ok(Project { name, bundle, front })
    }

    /// Judges all, and hands on each operation.
    pub fn judge(&self, each: impl FnMut(Op<'a>)) -> Result<u64, Fault> {
        Reader { rest: self.bundle }.whole_bundle(each)
    }

    /// Replaces the file, by the project's front and what is written after it.
    pub fn replace(&self, path: &str, write: impl FnOnce(&mut BufWriter<File>) -> io::Result<()>) -> Result<(), Fault> {
        replace(path, self.front, write).map_err(|_| fault(130))
    }
}

/// Replaces a file, by one beside it that is renamed when it is whole.
fn replace(path: &str, front: &[u8], write: impl FnOnce(&mut BufWriter<File>) -> io::Result<()>) -> io::Result<()> {
    let new = format!("{path}.new");
    let mut out = BufWriter::with_capacity(BUFFER, File::create(&new)?);
    out.write_all(front)?;
    write(&mut out)?;
    out.into_inner()?.sync_all()?;
    fs::rename(new, path)
}

pub fn read(path: &str) -> Result<Vec<u8>, Fault> {
    let bytes = fs::read(path).map_err(|_| fault(120))?;
    if bytes.len() > LONGEST_FILE { Err(fault(121)) } else { Ok(bytes) }
}

/// Joins the operations of a bundle to a project's, and saves it where one is new or a text is left out. Both files are
/// read before anything is judged.
pub fn receive(path: &str, bundle: &str) -> Result<String, Fault> {
    let bytes = read(path)?;
    let bundle = read(bundle)?;
    let project = Project::new(&bytes)?;
    let held = whole_bundle(project.bundle)?;
    let other = whole_bundle(&bundle)?;
    let mut ops = Vec::with_capacity(held.len() + other.len());
    join(&held, &other, |op| ops.push(op))?;
    let new = ops.len() - held.len();
    if new > 0 || left_out(&ops) > left_out(&held) {
        project.replace(path, |out| write_bundle(out, &ops))?;
    }
    Ok(format!("new {new}\n"))
}

/// Prints what a command writes, or the line of its fault.
pub fn answer(said: Result<impl AsRef<[u8]>, Fault>) -> io::Result<ExitCode> {
    match said {
        Ok(bytes) => {
            io::stdout().write_all(bytes.as_ref())?;
            Ok(ExitCode::SUCCESS)
        }
        Err((number, details)) => {
            eprintln!("fault {number}{details}");
            Ok(ExitCode::from(1))
        }
    }
}
