//! The plain leaves of a USFM text in plain Rust, with their keys: what the plain programs of the benches of hits
//! and of words have in common. One walk over the marks with a stack of the open nodes; no tree is made.

use std::collections::HashMap;

#[derive(Clone, Copy, PartialEq)]
enum Kind {
    Paragraph,
    Character,
    Note,
    Milestone,
}

#[derive(Clone, Copy, Default)]
struct Style<'s> {
    kind: Option<Kind>,
    closer: Option<&'s str>,
    verse_text: bool,
}

#[derive(Default)]
pub struct Sheet<'s> {
    places: HashMap<&'s str, usize>,
    styles: Vec<Style<'s>>,
}

const BLANK: [char; 4] = [' ', '\t', '\r', '\n'];

impl<'s> Sheet<'s> {
    /// Reads a sheet without comments.
    pub fn read(text: &'s str) -> Sheet<'s> {
        let mut sheet = Sheet::default();
        for line in text.lines() {
            let Some(field) = line.strip_prefix('\\') else { continue };
            let (name, value) = field.split_once(BLANK).unwrap_or((field, ""));
            let value = value.trim_matches(BLANK);
            if name == "Marker" {
                sheet.places.insert(value, sheet.styles.len());
                sheet.styles.push(Style::default());
                continue;
            }
            let Some(style) = sheet.styles.last_mut() else { continue };
            match name {
                "Endmarker" => style.closer = Some(value.strip_suffix('*').unwrap_or(value)),
                "StyleType" => style.kind = kind_of(value),
                "TextType" => style.verse_text = value == "VerseText",
                _ => {}
            }
        }
        sheet
    }

    fn style_of(&self, name: &str) -> Option<&Style<'s>> {
        if let Some(place) = self.places.get(name) {
            return Some(&self.styles[*place]);
        }
        let closes = |s: &&Style| s.kind == Some(Kind::Milestone) && s.closer == Some(name);
        self.styles.iter().find(closes)
    }
}

fn kind_of(value: &str) -> Option<Kind> {
    match value {
        "Paragraph" => Some(Kind::Paragraph),
        "Character" => Some(Kind::Character),
        "Note" => Some(Kind::Note),
        "Milestone" => Some(Kind::Milestone),
        _ => None,
    }
}

/// A chapter, and a verse with its letter, or 0 and 0 for the head.
pub type Key = (u16, u16, u8);

struct Mark<'a> {
    slice: &'a str,
    name: &'a str,
    nested: bool,
    closing: bool,
}

enum Token<'a> {
    Text(&'a str),
    Mark(Mark<'a>),
}

// The token that is at a place, and where it ends.
fn token_at(text: &str, at: usize) -> (Token<'_>, usize) {
    let bytes = text.as_bytes();
    if bytes[at] != b'\\' {
        let end = text[at..].find('\\').map_or(text.len(), |length| at + length);
        return (Token::Text(&text[at..end]), end);
    }
    let nested = bytes.get(at + 1) == Some(&b'+');
    let from = if nested { at + 2 } else { at + 1 };
    let is_name = |b: &u8| b.is_ascii_alphanumeric() || *b == b'-' || *b == b'_';
    let to = from + bytes[from..].iter().take_while(|b| is_name(b)).count();
    let closing = bytes.get(to) == Some(&b'*');
    let end = to + usize::from(closing);
    let mark = Mark { slice: &text[at..end], name: &text[from..to], nested, closing };
    (Token::Mark(mark), end)
}

struct Open<'s> {
    kind: Kind,
    closer: Option<&'s str>,
    verse_text: bool,
    nested: bool,
}

fn is_blank(b: u8) -> bool {
    matches!(b, b' ' | b'\t' | b'\r' | b'\n')
}

// The number with its letter at the front, if it ends there, and its length.
fn number_at(bytes: &[u8], lettered: bool) -> Option<(u16, u8, usize)> {
    let count = bytes.iter().take_while(|b| b.is_ascii_digit()).count();
    if !(1..=3).contains(&count) {
        return None;
    }
    let number = bytes[..count].iter().fold(0, |n, b| n * 10 + u16::from(b - b'0'));
    let letter = bytes.get(count).filter(|b| lettered && b.is_ascii_lowercase());
    let length = count + usize::from(letter.is_some());
    let ends = !bytes.get(length).is_some_and(u8::is_ascii_alphanumeric);
    ends.then_some((number, letter.copied().unwrap_or(0), length))
}

// The number after blanks, and the length of all with a bridge.
fn number_after(text: &str, lettered: bool) -> Option<(u16, u8, usize)> {
    let bytes = text.as_bytes();
    let blanks = bytes.iter().take_while(|b| is_blank(**b)).count();
    if blanks == 0 {
        return None;
    }
    let (number, letter, length) = number_at(&bytes[blanks..], lettered)?;
    let end = blanks + length;
    if lettered && bytes.get(end) == Some(&b'-') {
        if let Some((_, _, last)) = number_at(&bytes[end + 1..], true) {
            return Some((number, letter, end + 1 + last));
        }
    }
    Some((number, letter, end))
}

struct Walk<'a, 's, F> {
    text: &'a str,
    sheet: &'s Sheet<'s>,
    open: Vec<Open<'s>>,
    key: Key,
    // A plain text, until it is known how its node ends.
    waiting: Option<(usize, &'a str, Key)>,
    each: F,
}

impl<'a, 's, F: FnMut(usize, &'a str, Key)> Walk<'a, 's, F> {
    // How many open nodes stay when a mark closes one.
    fn left_by(&self, mark: &Mark<'_>) -> Option<usize> {
        for (place, open) in self.open.iter().enumerate().rev() {
            if open.kind == Kind::Paragraph {
                return None;
            }
            if open.closer == Some(mark.name) && open.nested == mark.nested {
                return Some(place);
            }
            if open.kind == Kind::Note {
                return None;
            }
        }
        None
    }

    fn settle(&mut self, left: Option<usize>) {
        let Some((start, text, key)) = self.waiting.take() else { return };
        let is_own = left.is_some_and(|left| left + 1 == self.open.len());
        let cut = is_own && self.open.last().is_some_and(|open| open.kind == Kind::Character);
        let end = if cut { text.find('|').unwrap_or(text.len()) } else { text.len() };
        (self.each)(start, &text[..end], key);
    }

    fn take_text(&mut self, start: usize, text: &'a str, number: usize) {
        let counts = self.open.iter().any(|open| open.verse_text)
            && !self.open.iter().any(|open| open.kind == Kind::Note);
        if counts {
            self.waiting = Some((start + number, &text[number..], self.key));
        }
    }

    fn take_key(&mut self, mark: &Mark<'_>, rest: &str) -> usize {
        if mark.slice == "\\c" {
            if let Some((chapter, _, _)) = number_after(rest, false) {
                self.key = self.key.max((chapter, 0, 0));
            }
        } else if mark.slice == "\\v" {
            if let Some((verse, letter, length)) = number_after(rest, true) {
                self.key = self.key.max((self.key.0, verse + 1, letter));
                return length;
            }
        }
        0
    }

    // Opens what a mark begins; answers where the walk goes on.
    fn take_opening(&mut self, mark: &Mark<'_>, after: usize) -> usize {
        let Some(style) = self.sheet.style_of(mark.name).copied() else { return after };
        let Some(kind) = style.kind else { return after };
        let alone = if kind == Kind::Character { style.closer.is_none() } else { mark.nested };
        if alone {
            return after;
        }
        let note = self.open.iter().position(|open| open.kind == Kind::Note);
        let others = self.open.iter().rposition(|open| open.kind != Kind::Character);
        match kind {
            Kind::Paragraph => self.open.clear(),
            Kind::Note => self.open.truncate(note.unwrap_or(self.open.len())),
            Kind::Character if !mark.nested => self.open.truncate(others.map_or(0, |i| i + 1)),
            _ => {}
        }
        if self.open.len() >= 64 {
            return after;
        }
        if kind == Kind::Milestone {
            return self.milestone_end(after);
        }
        let verse_text = kind == Kind::Paragraph && style.verse_text;
        self.open.push(Open { kind, closer: style.closer, verse_text, nested: mark.nested });
        after
    }

    fn milestone_end(&self, after: usize) -> usize {
        let rest = &self.text[after..];
        let length = rest.find('\\').unwrap_or(rest.len());
        if rest[length..].starts_with("\\*") { after + length + 2 } else { after }
    }

    fn all(&mut self) {
        let (mut at, mut number) = (0, 0);
        while at < self.text.len() {
            let (token, end) = token_at(self.text, at);
            match token {
                Token::Text(text) => {
                    self.take_text(at, text, number);
                    (at, number) = (end, 0);
                }
                Token::Mark(mark) if mark.closing => {
                    let left = self.left_by(&mark);
                    self.settle(left);
                    self.open.truncate(left.unwrap_or(self.open.len()));
                    (at, number) = (end, 0);
                }
                Token::Mark(mark) => {
                    self.settle(None);
                    number = self.take_key(&mark, &self.text[end..]);
                    at = self.take_opening(&mark, end);
                }
            }
        }
        self.settle(None);
    }
}

/// Hands on each plain leaf: where it starts, its bytes, and the key of the piece that holds its start.
pub fn plain_leaves<'a>(text: &'a str, sheet: &Sheet<'_>, each: impl FnMut(usize, &'a str, Key)) {
    let open = Vec::with_capacity(64);
    Walk { text, sheet, open, key: (0, 0, 0), waiting: None, each }.all();
}
