//! Reading the fields of bundles in plain Rust, each judged when it is read.

use super::fitting::{Key, Place};

/// A number of the table of faults, and its details.
pub type Fault = (u32, String);

/// The bytes that are still to be judged.
pub struct Reader<'a> {
    pub rest: &'a [u8],
}

fn cut() -> Fault {
    (61, String::new())
}

impl<'a> Reader<'a> {
    pub fn take(&mut self, count: u64) -> Result<&'a [u8], Fault> {
        let count = usize::try_from(count).map_err(|_| cut())?;
        let (front, rest) = self.rest.split_at_checked(count).ok_or_else(cut)?;
        self.rest = rest;
        Ok(front)
    }

    pub fn u8(&mut self) -> Result<u8, Fault> {
        Ok(self.take(1)?[0])
    }

    pub fn u16(&mut self) -> Result<u16, Fault> {
        Ok(u16::from_be_bytes(self.take(2)?.try_into().unwrap()))
    }

    pub fn u64(&mut self) -> Result<u64, Fault> {
        Ok(u64::from_be_bytes(self.take(8)?.try_into().unwrap()))
    }

    /// The name of a replica, its length before it.
    pub fn name(&mut self, bad: impl Fn() -> Fault) -> Result<&'a [u8], Fault> {
        let length = self.u8()?;
        if !(1..=32).contains(&length) {
            return Err(bad());
        }
        let name = self.take(length.into())?;
        if !name.iter().all(|b| b.is_ascii_lowercase() || b.is_ascii_digit() || *b == b'-') {
            return Err(bad());
        }
        Ok(name)
    }

    pub fn key(&mut self, bad: impl Fn() -> Fault) -> Result<Key, Fault> {
        let chapter = self.u16()?;
        if chapter > 999 {
            return Err(bad());
        }
        let kind = self.u8()?;
        if kind > 1 {
            return Err(bad());
        }
        let verse = self.u16()?;
        if verse > 999 || (kind == 0 && verse != 0) {
            return Err(bad());
        }
        let letter = self.u8()?;
        if letter != 0 && (kind == 0 || !letter.is_ascii_lowercase()) {
            return Err(bad());
        }
        let place = if kind == 0 { Place::Head } else { Place::Verse(verse, letter) };
        Ok(Key { chapter, place })
    }
}
