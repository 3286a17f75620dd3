//! Style sheets and the trees of USFM texts in plain Rust: what the plain programs of the benches of trees and of checks
//! have in common.
#![allow(dead_code)]

use std::collections::HashMap;

#[derive(Clone, Copy, PartialEq)]
pub enum Kind {
    Paragraph,
    Character,
    Note,
    Milestone,
}

#[derive(Clone, Copy)]
pub struct Style<'s> {
    pub kind: Option<Kind>,
    pub closer: Option<&'s str>,
    pub under: &'s str,
}

impl Style<'_> {
    /// Whether this is a word of OccursUnder.
    pub fn has_under(&self, word: &str) -> bool {
        self.under.split(BLANK).any(|it| it == word)
    }
}

#[derive(Default)]
pub struct Sheet<'s> {
    places: HashMap<&'s str, usize>,
    styles: Vec<Style<'s>>,
}

const BLANK: [char; 4] = [' ', '\t', '\r', '\n'];

fn body(line: &str) -> &str {
    let mut line = line.trim_start_matches(BLANK);
    if let Some(rest) = line.strip_prefix("#!") {
        line = rest.trim_start_matches(BLANK);
    }
    let mut may = true;
    for (i, byte) in line.bytes().enumerate() {
        if may && byte == b'#' {
            return &line[..i];
        }
        may = matches!(byte, b' ' | b'\t' | b'\r' | b'\n');
    }
    line
}

impl<'s> Sheet<'s> {
    pub fn read(text: &'s str) -> Option<Sheet<'s>> {
        let mut sheet = Sheet::default();
        let mut last = None;
        for line in text.strip_prefix('\u{feff}').unwrap_or(text).lines() {
            let Some(field) = body(line).strip_prefix('\\') else { continue };
            let end = field.find(BLANK).unwrap_or(field.len());
            let (name, value) = (&field[..end], field[end..].trim_matches(BLANK));
            if name.eq_ignore_ascii_case("Marker") {
                let marker = value.split(BLANK).next().filter(|word| !word.is_empty())?;
                let place = *sheet.places.entry(marker).or_insert(sheet.styles.len());
                let style = Style { kind: None, closer: None, under: "" };
                if place == sheet.styles.len() {
                    sheet.styles.push(style);
                } else {
                    sheet.styles[place] = style;
                }
                last = Some(place);
            } else if name.eq_ignore_ascii_case("Endmarker") {
                let closer = value.strip_suffix('*').unwrap_or(value);
                sheet.styles[last?].closer = Some(closer).filter(|name| !name.is_empty());
            } else if name.eq_ignore_ascii_case("OccursUnder") {
                sheet.styles[last?].under = value;
            } else if name.eq_ignore_ascii_case("StyleType") {
                let kinds = [
                    ("Paragraph", Kind::Paragraph),
                    ("Character", Kind::Character),
                    ("Note", Kind::Note),
                    ("Milestone", Kind::Milestone),
                ];
                let found = kinds.iter().find(|(word, _)| word.eq_ignore_ascii_case(value))?;
                sheet.styles[last?].kind = Some(found.1);
            }
        }
        Some(sheet)
    }

    pub fn style_of(&self, name: &str) -> Option<&Style<'s>> {
        if let Some(place) = self.places.get(name) {
            return Some(&self.styles[*place]);
        }
        let closes = |s: &&Style| s.kind == Some(Kind::Milestone) && s.closer == Some(name);
        self.styles.iter().find(closes)
    }
}

#[derive(Clone, Copy)]
pub struct Mark<'a> {
    pub slice: &'a str,
    pub name: &'a str,
    pub nested: bool,
    pub closing: bool,
}

pub fn split_mark(text: &str) -> (Mark<'_>, usize) {
    let bytes = text.as_bytes();
    let nested = bytes.get(1) == Some(&b'+');
    let from = if nested { 2 } else { 1 };
    let is_name = |b: &u8| b.is_ascii_alphanumeric() || *b == b'-' || *b == b'_';
    let to = from + bytes[from..].iter().take_while(|b| is_name(b)).count();
    let closing = bytes.get(to) == Some(&b'*');
    let end = to + usize::from(closing);
    (Mark { slice: &text[..end], name: &text[from..to], nested, closing }, end)
}

fn is_bare(mark: &Mark<'_>) -> bool {
    mark.closing && !mark.nested && mark.name.is_empty()
}

pub enum Node<'a> {
    Text(usize, &'a str),
    Leaf(usize, Mark<'a>),
    Branch(Branch<'a>),
}

pub struct Branch<'a> {
    pub kind: Kind,
    pub start: usize,
    pub slice: &'a str,
    mark: Mark<'a>,
    pub kids: Vec<Node<'a>>,
    pub close: Option<Mark<'a>>,
}

struct Open<'a, 's> {
    kind: Kind,
    closer: Option<&'s str>,
    start: usize,
    mark: Mark<'a>,
    kids: Vec<Node<'a>>,
}

struct Reader<'a, 's> {
    source: &'a str,
    open: Vec<Open<'a, 's>>,
    root: Vec<Node<'a>>,
}

impl<'a, 's> Reader<'a, 's> {
    fn put(&mut self, node: Node<'a>) {
        match self.open.last_mut() {
            Some(open) => open.kids.push(node),
            None => self.root.push(node),
        }
    }

    fn end(&mut self, count: usize, at: usize, close: Option<(Mark<'a>, usize)>) {
        for i in 0..count {
            let Open { kind, start, mark, kids, .. } = self.open.pop().unwrap();
            let close = close.filter(|_| i + 1 == count);
            let slice = &self.source[start..close.map_or(at, |(_, end)| end)];
            let close = close.map(|(mark, _)| mark);
            self.put(Node::Branch(Branch { kind, start, slice, mark, kids, close }));
        }
    }

    // How many open nodes a closing mark ends.
    fn closed_by(&self, mark: &Mark<'_>) -> Option<usize> {
        for (i, open) in self.open.iter().rev().enumerate() {
            if open.kind == Kind::Paragraph {
                return None;
            }
            if open.closer == Some(mark.name) && open.mark.nested == mark.nested {
                return Some(i + 1);
            }
            if open.kind == Kind::Note {
                return None;
            }
        }
        None
    }

    fn milestone(&mut self, mark: Mark<'a>, start: usize, after: usize) -> usize {
        let rest = &self.source[after..];
        let length = rest.find('\\').unwrap_or(rest.len());
        let (mut kids, mut close, mut end) = (Vec::new(), None, after);
        if length < rest.len() {
            let (next, bytes) = split_mark(&rest[length..]);
            if is_bare(&next) {
                if length > 0 {
                    kids.push(Node::Text(after, &rest[..length]));
                }
                close = Some(next);
                end = after + length + bytes;
            }
        }
        let slice = &self.source[start..end];
        self.put(Node::Branch(Branch { kind: Kind::Milestone, start, slice, mark, kids, close }));
        end
    }

    // Takes a mark that is not closing; answers where it goes on.
    fn opening(&mut self, sheet: &Sheet<'s>, mark: Mark<'a>, start: usize, after: usize) -> usize {
        let style = sheet.style_of(mark.name);
        let Some((kind, closer)) = style.and_then(|s| s.kind.map(|kind| (kind, s.closer))) else {
            self.put(Node::Leaf(start, mark));
            return after;
        };
        let alone = match kind {
            Kind::Character => closer.is_none(),
            _ => mark.nested,
        };
        if alone {
            self.put(Node::Leaf(start, mark));
            return after;
        }
        let open = self.open.iter().rev();
        let count = match kind {
            Kind::Paragraph => self.open.len(),
            Kind::Note => open.clone().position(|o| o.kind == Kind::Note).map_or(0, |i| i + 1),
            Kind::Character if !mark.nested => {
                open.take_while(|o| o.kind == Kind::Character).count()
            }
            _ => 0,
        };
        self.end(count, start, None);
        if self.open.len() >= 64 {
            self.put(Node::Leaf(start, mark));
        } else if kind == Kind::Milestone {
            return self.milestone(mark, start, after);
        } else {
            self.open.push(Open { kind, closer, start, mark, kids: Vec::new() });
        }
        after
    }
}

pub fn read_tree<'a>(source: &'a str, sheet: &Sheet<'_>) -> Vec<Node<'a>> {
    let mut reader = Reader { source, open: Vec::new(), root: Vec::new() };
    let mut at = 0;
    while at < source.len() {
        let rest = &source[at..];
        if rest.as_bytes()[0] != b'\\' {
            let length = rest.find('\\').unwrap_or(rest.len());
            reader.put(Node::Text(at, &rest[..length]));
            at += length;
            continue;
        }
        let (mark, length) = split_mark(rest);
        let after = at + length;
        if !mark.closing {
            at = reader.opening(sheet, mark, at, after);
            continue;
        }
        match reader.closed_by(&mark) {
            Some(count) => reader.end(count, at, Some((mark, after))),
            None => reader.put(Node::Leaf(at, mark)),
        }
        at = after;
    }
    reader.end(reader.open.len(), source.len(), None);
    reader.root
}
