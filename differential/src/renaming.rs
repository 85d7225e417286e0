//! K12 of 02: identifications replaced "by a one-to-one rule over those in the document, each with the same number of bytes and characters, with values that
//! before and after are legal XML characters in UTF-8 and hold no `&`, `<`, quote or control byte".

use crate::model::{identifications, is_xml_character};
use crate::random::Random;
use std::collections::BTreeMap;

/// Each identification of a document and the one that is put for it.
type Rule = BTreeMap<String, String>;

/// How often another value is looked for before a document is given up.
const TRIES: usize = 40;

/// The document with other identifications; nothing where it has none, or one that may not be replaced.
pub fn renamed(random: &mut Random, doc: &[u8]) -> Option<Vec<u8>> {
    let places = identifications(doc);
    let mut values = Vec::new();
    for place in &places {
        values.push(clean(&doc[place.clone()])?);
    }
    if values.is_empty() {
        return None;
    }
    let rule = one_to_one(random, &values)?;
    let mut other = doc.to_vec();
    for (place, value) in places.iter().zip(&values) {
        other[place.clone()].copy_from_slice(rule[*value].as_bytes());
    }
    Some(other)
}

/// "legal XML characters in UTF-8", and "no `&`, `<`, quote or control byte"
pub fn clean(value: &[u8]) -> Option<&str> {
    let held = |c: char| matches!(c, '&' | '<' | '"' | '\'' | '\0'..='\x1F' | '\x7F');
    std::str::from_utf8(value).ok().filter(|text| text.chars().all(|c| is_xml_character(c) && !held(c)))
}

fn one_to_one(random: &mut Random, values: &[&str]) -> Option<Rule> {
    let mut rule = Rule::new();
    for value in values {
        if !rule.contains_key(*value) {
            let other = (0..TRIES).map(|_| candidate(random, value, values, &rule)).find(|other| !rule.values().any(|taken| taken == other))?;
            rule.insert(value.to_string(), other);
        }
    }
    Some(rule)
}

fn alike(a: &str, b: &str) -> bool {
    a.len() == b.len() && a.chars().count() == b.chars().count()
}

/// A value of the document itself, one that differs from the last new one in a character, or any.
fn candidate(random: &mut Random, value: &str, values: &[&str], rule: &Rule) -> String {
    let own: Vec<&str> = values.iter().copied().filter(|own| alike(own, value)).collect();
    let near = rule.values().find(|new| alike(new, value));
    match (random.below(3), near) {
        (0, _) => random.pick(&own).to_string(),
        (1, Some(near)) => one_changed(random, near),
        _ => any_like(random, value),
    }
}

fn one_changed(random: &mut Random, value: &str) -> String {
    let mut characters: Vec<char> = value.chars().collect();
    if characters.is_empty() {
        return String::new();
    }
    let ends = [0, characters.len() - 1, random.below(characters.len())];
    let at = random.one_of(&ends);
    characters[at] = a_character(random, characters[at].len_utf8());
    characters.into_iter().collect()
}

/// As many bytes and characters, but not place by place: a byte goes from one character to another, and they are turned round.
fn any_like(random: &mut Random, value: &str) -> String {
    let mut sizes: Vec<usize> = value.chars().map(char::len_utf8).collect();
    for _ in 0..sizes.len() {
        let (from, to) = (random.below(sizes.len()), random.below(sizes.len()));
        if sizes[from] > 1 && sizes[to] < 4 {
            sizes[from] -= 1;
            sizes[to] += 1;
        }
    }
    let turn = random.below(sizes.len().max(1));
    sizes.rotate_left(turn);
    sizes.into_iter().map(|size| a_character(random, size)).collect()
}

/// A character of so many bytes that may stand in such a value; often the first or last of its length.
fn a_character(random: &mut Random, size: usize) -> char {
    let (low, high) = [(0x20, 0x7E), (0x80, 0x7FF), (0x800, 0xFFFD), (0x10000, 0x10FFFF)][size - 1];
    loop {
        let any = random.within(low, high);
        let number = random.one_of(&[low, high, any, any, any, any]) as u32;
        if let Some(c) = char::from_u32(number).filter(|c| clean(c.to_string().as_bytes()).is_some()) {
            return c;
        }
    }
}
