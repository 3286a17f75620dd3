//! What fits, in plain Rust: what the plain programs of the benches that judge operations have in common.

#[path = "backslash.rs"]
mod backslash;

use backslash::find_backslash;

#[derive(Clone, Copy, PartialEq, Eq, PartialOrd, Ord, Hash)]
pub enum Place {
    Head,
    Verse(u16, u8),
}

#[derive(Clone, Copy, PartialEq, Eq, PartialOrd, Ord, Hash)]
pub struct Key {
    pub chapter: u16,
    pub place: Place,
}

fn is_blank(byte: u8) -> bool {
    matches!(byte, b' ' | b'\t' | b'\r' | b'\n')
}

/// The number and the letter, or 0, after blanks.
fn number_at(text: &[u8], letters: bool) -> Option<(u16, u8)> {
    let blanks = text.iter().take_while(|b| is_blank(**b)).count();
    if blanks == 0 {
        return None;
    }
    let text = &text[blanks..];
    let digits = text.iter().take(4).take_while(|b| b.is_ascii_digit()).count();
    if !(1..=3).contains(&digits) {
        return None;
    }
    let number = text[..digits].iter().fold(0, |n, b| n * 10 + u16::from(b - b'0'));
    let (letter, rest) = match &text[digits..] {
        [letter @ b'a'..=b'z', rest @ ..] if letters => (*letter, rest),
        rest => (0, rest),
    };
    match rest.first() {
        Some(b) if b.is_ascii_alphanumeric() => None,
        _ => Some((number, letter)),
    }
}

/// The key of the mark after a backslash, where a verse is in the chapter. A blank before its number ends its name.
pub fn key_at(text: &[u8], chapter: u16) -> Option<Key> {
    match text {
        [b'c', after @ ..] => number_at(after, false).map(|(chapter, _)| Key { chapter, place: Place::Head }),
        [b'v', after @ ..] => {
            number_at(after, true).map(|(verse, letter)| Key { chapter, place: Place::Verse(verse, letter) })
        }
        _ => None,
    }
}

/// What comes after each backslash of a text.
pub fn after_backslashes(text: &[u8]) -> impl Iterator<Item = &[u8]> {
    let mut rest = text;
    std::iter::from_fn(move || {
        rest = &rest[find_backslash(rest)? + 1..];
        Some(rest)
    })
}

/// Whether no mark of the text has a key above this one.
fn is_quiet(text: &[u8], key: Key) -> bool {
    after_backslashes(text).all(|after| key_at(after, key.chapter).is_none_or(|found| found <= key))
}

/// What comes after `\id` and a blank, at most one U+FEFF before them: it begins with the code of a book.
pub fn code_of_head(text: &[u8]) -> Option<&[u8]> {
    match text.strip_prefix("\u{FEFF}".as_bytes()).unwrap_or(text).strip_prefix(b"\\id")? {
        [blank, code @ ..] if is_blank(*blank) => Some(code),
        _ => None,
    }
}

/// Whether a book's code ends before these bytes.
pub fn code_ends(after: &[u8]) -> bool {
    after.first().is_none_or(|b| is_blank(*b) || *b == b'\\')
}

/// Whether a text fits a key of a book.
pub fn fits(book: &[u8], key: Key, text: &[u8]) -> bool {
    if key == (Key { chapter: 0, place: Place::Head }) {
        let after = code_of_head(text).and_then(|code| code.strip_prefix(book));
        return after.is_some_and(code_ends) && is_quiet(text, key);
    }
    match text {
        [] => true,
        [b'\\', mark @ ..] => key_at(mark, key.chapter) == Some(key) && is_quiet(mark, key),
        _ => false,
    }
}
