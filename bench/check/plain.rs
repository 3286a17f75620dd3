//! A plain checker of USFM books, to which the proved one is compared: one walk over the marks with a stack of the open
//! nodes; no tree is made. It is run as `plain SHEET FILE ROUNDS`, and prints the least time of a check in nanoseconds,
//! how many findings of each code there are, and the sum of their starts and of the numbers of their keys.

#[path = "../plain_tree.rs"]
mod plain_tree;

use plain_tree::{Kind, Mark, Sheet, Style, split_mark};
use std::time::{Duration, Instant};
use std::{env, fs};

/// What is found at a mark. At one mark the codes are in this order.
#[derive(Clone, Copy, PartialEq)]
enum Code {
    UnknownMarker,
    StrayClose,
    UnclosedChar,
    UnclosedNote,
    TooDeep,
    BadNumber,
    BadBridge,
    NotRising,
    Overlap,
    NotUnder,
    /// What is left of a finding that was taken back.
    TakenBack,
}

const CODES: usize = Code::TakenBack as usize;

type Verse = (u16, Option<u8>);

#[derive(Clone, Copy, PartialEq, Eq, PartialOrd, Ord)]
struct Key {
    chapter: u16,
    verse: Option<Verse>,
}

#[derive(Clone, Copy)]
struct Finding {
    code: Code,
    start: usize,
    key: Key,
}

fn is_blank(b: u8) -> bool {
    matches!(b, b' ' | b'\t' | b'\r' | b'\n')
}

fn digits(bytes: &[u8]) -> Option<(u16, &[u8])> {
    let count = bytes.iter().take_while(|b| b.is_ascii_digit()).count();
    let number = bytes[..count].iter().fold(0, |n, b| n * 10 + u16::from(b - b'0'));
    (1..=3).contains(&count).then(|| (number, &bytes[count..]))
}

fn number(bytes: &[u8], lettered: bool) -> Option<(Verse, &[u8])> {
    let (number, mut rest) = digits(bytes)?;
    let mut letter = None;
    if let (true, Some(b)) = (lettered, rest.first().filter(|b| b.is_ascii_lowercase())) {
        letter = Some(*b);
        rest = &rest[1..];
    }
    let ends = !rest.first().is_some_and(u8::is_ascii_alphanumeric);
    ends.then_some(((number, letter), rest))
}

fn number_after(after: &str, lettered: bool) -> Option<(Verse, &[u8])> {
    let bytes = after.as_bytes();
    let blanks = bytes.iter().take_while(|b| is_blank(**b)).count();
    if blanks == 0 { None } else { number(&bytes[blanks..], lettered) }
}

fn reaches(last: Verse, own: Verse) -> bool {
    let later = matches!((own.1, last.1), (Some(a), Some(b)) if a > b);
    own.0 < last.0 || own.0 == last.0 && !later
}

fn end_order(last: Verse) -> (u16, u8) {
    (last.0, last.1.unwrap_or(u8::MAX))
}

/// The kind of node that a mark, not closing, of a style begins where there is room.
fn begun_by(style: &Style<'_>, mark: &Mark<'_>) -> Option<Kind> {
    let begins = match style.kind? {
        Kind::Character => style.closer.is_some(),
        _ => !mark.nested,
    };
    style.kind.filter(|_| begins)
}

struct Open<'a, 's> {
    kind: Kind,
    mark: Mark<'a>,
    closer: Option<&'s str>,
    /// The finding that it has no closing mark.
    unclosed: Option<usize>,
}

struct Walk<'a, 's> {
    text: &'a str,
    sheet: &'s Sheet<'s>,
    open: Vec<Open<'a, 's>>,
    key: Key,
    reach: Option<Verse>,
    findings: Vec<Finding>,
}

impl<'a, 's> Walk<'a, 's> {
    fn push(&mut self, code: Code, start: usize) {
        self.findings.push(Finding { code, start, key: self.key });
    }

    /// Takes a finding back. The places of those before it stay.
    fn take_back(&mut self, place: usize) {
        if place + 1 == self.findings.len() {
            self.findings.pop();
        } else {
            self.findings[place].code = Code::TakenBack;
        }
    }

    /// Which open node a closing mark ends.
    fn closed_by(&self, mark: &Mark<'_>) -> Option<usize> {
        for (place, open) in self.open.iter().enumerate().rev() {
            if open.kind == Kind::Paragraph {
                return None;
            }
            if open.closer == Some(mark.name) && open.mark.nested == mark.nested {
                return Some(place);
            }
            if open.kind == Kind::Note {
                return None;
            }
        }
        None
    }

    fn closing(&mut self, start: usize, mark: &Mark<'_>) {
        let Some(place) = self.closed_by(mark) else { return self.push(Code::StrayClose, start) };
        if let Some(finding) = self.open[place].unclosed {
            self.take_back(finding);
        }
        self.open.truncate(place);
    }

    /// Takes the number after the mark of a verse or a chapter. Answers what is found at it.
    fn take_number(&mut self, after: &str, is_verse: bool) -> [Option<Code>; 2] {
        let Some((own, rest)) = number_after(after, is_verse) else { return [Some(Code::BadNumber), None] };
        let bridge = if is_verse { rest.strip_prefix(b"-") } else { None };
        let last = bridge.and_then(|rest| number(rest, true)).map(|(last, _)| last);
        let key = match is_verse {
            true => Key { chapter: self.key.chapter, verse: Some(own) },
            false => Key { chapter: own.0, verse: None },
        };
        let is_bad = bridge.is_some() && last.is_none_or(|last| own >= last);
        let bad_bridge = is_bad.then_some(Code::BadBridge);
        if key <= self.key {
            return [bad_bridge, Some(Code::NotRising)];
        }
        let overlap = is_verse && self.reach.is_some_and(|reach| reaches(reach, own));
        self.reach = self.reach.filter(|_| is_verse).into_iter().chain(last).max_by_key(|verse| end_order(*verse));
        self.key = key;
        [bad_bridge, overlap.then_some(Code::Overlap)]
    }

    /// Ends the nodes that a node of a kind does not lie in.
    fn make_room(&mut self, kind: Kind, nested: bool) {
        let left = match kind {
            Kind::Paragraph => 0,
            Kind::Note => self.open.iter().position(|open| open.kind == Kind::Note).unwrap_or(self.open.len()),
            Kind::Character if !nested => {
                self.open.iter().rposition(|open| open.kind != Kind::Character).map_or(0, |place| place + 1)
            }
            _ => return,
        };
        self.open.truncate(left);
    }

    /// Whether OccursUnder of a style has words, none of which allows a node of the kind here.
    fn forbids(&self, style: &Style<'_>, kind: Kind) -> bool {
        if style.under.is_empty() {
            return false;
        }
        // A note goes by its paragraph, which is never within another node, and a character by what is directly around it.
        let around = match kind {
            Kind::Note => self.open.first().filter(|open| open.kind == Kind::Paragraph),
            _ => self.open.last(),
        };
        let Some(around) = around else { return true };
        let may_nest = kind == Kind::Character && around.kind == Kind::Character;
        !(style.has_under(around.mark.name) || may_nest && style.has_under("NEST"))
    }

    /// Opens the node of a kind that a mark begins, where there is room. Answers whether it may not be here.
    fn enter(&mut self, start: usize, mark: &Mark<'a>, style: &Style<'s>, kind: Kind) -> bool {
        let unclosed = match kind {
            Kind::Character if !self.open.iter().any(|open| open.kind == Kind::Note) => Some(Code::UnclosedChar),
            Kind::Note => Some(Code::UnclosedNote),
            _ => None,
        };
        let unclosed = unclosed.map(|code| {
            self.push(code, start);
            self.findings.len() - 1
        });
        let not_under = kind != Kind::Paragraph && self.forbids(style, kind);
        self.open.push(Open { kind, mark: *mark, closer: style.closer, unclosed });
        not_under
    }

    /// Takes a mark that is not closing. Answers where the walk goes on.
    fn opening(&mut self, start: usize, mark: &Mark<'a>, after: usize) -> usize {
        let numbers = match mark.slice {
            "\\c" => self.take_number(&self.text[after..], false),
            "\\v" => self.take_number(&self.text[after..], true),
            _ => [None; 2],
        };
        let mut not_under = false;
        let mut end = after;
        let style = self.sheet.style_of(mark.name);
        match style.map(|style| (style, begun_by(style, mark))) {
            None => self.push(Code::UnknownMarker, start),
            Some((_, None)) => {}
            Some((style, Some(kind))) => {
                self.make_room(kind, mark.nested);
                if self.open.len() >= 64 {
                    self.push(Code::TooDeep, start);
                } else if kind == Kind::Milestone {
                    end = self.milestone_end(after);
                } else {
                    not_under = self.enter(start, mark, style, kind);
                }
            }
        }
        let last = not_under.then_some(Code::NotUnder);
        for code in numbers.into_iter().chain([last]).flatten() {
            self.push(code, start);
        }
        end
    }

    fn milestone_end(&self, after: usize) -> usize {
        let rest = &self.text[after..];
        let length = rest.find('\\').unwrap_or(rest.len());
        if rest[length..].starts_with("\\*") { after + length + 2 } else { after }
    }

    fn all(mut self) -> Vec<Finding> {
        let mut at = 0;
        while let Some(length) = self.text[at..].find('\\') {
            let start = at + length;
            let (mark, length) = split_mark(&self.text[start..]);
            at = start + length;
            if mark.closing {
                self.closing(start, &mark);
            } else {
                at = self.opening(start, &mark, at);
            }
        }
        self.findings.retain(|finding| finding.code != Code::TakenBack);
        self.findings
    }
}

fn check(text: &str, sheet: &Sheet<'_>) -> Vec<Finding> {
    let key = Key { chapter: 0, verse: None };
    Walk { text, sheet, open: Vec::with_capacity(64), key, reach: None, findings: Vec::new() }.all()
}

fn main() {
    let words: Vec<String> = env::args().skip(1).collect();
    let sheet_text = fs::read_to_string(&words[0]).unwrap();
    let text = fs::read_to_string(&words[1]).unwrap();
    let sheet = Sheet::read(&sheet_text).unwrap();
    let mut time = Duration::MAX;
    let mut counts = [0; CODES];
    let mut sum = 0;
    for _ in 0..words[2].parse::<u32>().unwrap() {
        let start = Instant::now();
        let findings = check(&text, &sheet);
        time = time.min(start.elapsed());
        counts = [0; CODES];
        sum = 0;
        for finding in &findings {
            counts[finding.code as usize] += 1;
            let verse = finding.key.verse.map_or(0, |verse| u64::from(verse.0));
            sum += finding.start as u64 + u64::from(finding.key.chapter) + verse;
        }
    }
    println!("{} {counts:?} {sum}", time.as_nanos());
}
