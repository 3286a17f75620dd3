//! A plain list of the words of USFM books, to which the proved one is compared: std alone, which has no tables of
//! composed forms, so it stops at a word that may not be in Normalization Form C. It is run as
//! `plain SHEET FILE ROUNDS`, and prints the least time of a list in nanoseconds, how many words there are, the sum
//! of their lengths, and the sum of the numbers of their keys.

#[path = "../plain_leaves.rs"]
mod plain_leaves;

use plain_leaves::{Key, Sheet, plain_leaves};
use std::collections::HashMap;
use std::time::{Duration, Instant};
use std::{env, fs};

fn is_word_char(c: char) -> bool {
    c.is_ascii_alphabetic() || !c.is_ascii() && (c.is_alphabetic() || is_combining(c))
}

// Whether a character is one of the combining marks that texts of the benches can have.
fn is_combining(c: char) -> bool {
    matches!(c as u32, 0x300..=0x36f | 0x483..=0x489 | 0x591..=0x5c7)
}

// Whether all characters are below U+0300, whose first byte is 0xCC: such a text is in Normalization Form C.
fn is_composed(form: &str) -> bool {
    form.bytes().all(|byte| byte < 0xcc)
}

struct Word {
    form: String,
    keys: Vec<Key>,
}

fn words(text: &str, sheet: &Sheet<'_>) -> Vec<Word> {
    let mut places: HashMap<&str, usize> = HashMap::new();
    let mut found: Vec<(&str, Vec<Key>)> = Vec::new();
    plain_leaves(text, sheet, |_, leaf, key| {
        for form in leaf.split(|c| !is_word_char(c)).filter(|form| !form.is_empty()) {
            assert!(is_composed(form), "std cannot compose {form}");
            let place = *places.entry(form).or_insert_with(|| {
                found.push((form, Vec::new()));
                found.len() - 1
            });
            let keys = &mut found[place].1;
            if keys.last() != Some(&key) {
                keys.push(key);
            }
        }
    });
    found.sort_unstable_by_key(|(form, _)| *form);
    found.into_iter().map(|(form, keys)| Word { form: form.to_string(), keys }).collect()
}

fn main() {
    let args: Vec<String> = env::args().skip(1).collect();
    let sheet_text = fs::read_to_string(&args[0]).unwrap();
    let text = fs::read_to_string(&args[1]).unwrap();
    let sheet = Sheet::read(&sheet_text);
    let mut time = Duration::MAX;
    let (mut count, mut lengths, mut sum) = (0, 0, 0);
    for _ in 0..args[2].parse::<u32>().unwrap() {
        let start = Instant::now();
        let list = words(&text, &sheet);
        time = time.min(start.elapsed());
        count = list.len();
        lengths = list.iter().map(|word| word.form.len()).sum::<usize>();
        let keys = list.iter().flat_map(|word| &word.keys);
        sum = keys.map(|key| u64::from(key.0) + u64::from(key.1.saturating_sub(1))).sum::<u64>();
    }
    println!("{} {count} {lengths} {sum}", time.as_nanos());
}
