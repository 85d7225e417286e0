//! Documents that differ from an accepted one in one place: a value, an attribute, an element.

use crate::tags::{tags_of, without, Tag};
use differential::random::Random;
use differential::respelling::{misspelled, respelled};
use std::ops::Range;

/// The element that begins with a tag, to the end of its end tag.
fn element(tags: &[Tag], first: usize) -> Range<usize> {
    let mut depth = 0;
    for tag in &tags[first..] {
        depth += tag.step;
        if depth <= 0 {
            return tags[first].range.start..tag.range.end;
        }
    }
    tags[first].range.clone()
}

fn with(doc: &[u8], at: usize, more: &[u8]) -> Vec<u8> {
    [&doc[..at], more, &doc[at..]].concat()
}

const OTHERS: &[u8] = b"0123456789ABCNZazT-+.:/ ";

fn other_value(random: &mut Random, doc: &[u8], value: Range<usize>) -> Vec<u8> {
    let at = random.within(value.start, value.end);
    let other = [*random.pick(OTHERS)];
    match random.below(4) {
        0 if at < value.end && doc[at] < 128 => without(doc, at..at + 1),
        1 | 2 if at < value.end && doc[at] < 128 => with(&without(doc, at..at + 1), at, &other),
        3 if random.one_in(4) => without(doc, value),
        _ => with(doc, value.start, &other),
    }
}

fn other_attribute(random: &mut Random, doc: &[u8], tag: &Tag) -> Vec<u8> {
    let attribute = random.pick(&tag.attributes);
    let value = attribute.value.clone();
    match random.below(10) {
        0 => without(doc, attribute.range.clone()),
        1 => with(doc, attribute.range.start, random.part(&[b" w='1'", b" V='1'", b" a:b=''"])),
        2 => with(&without(doc, value.clone()), value.start, &respelled(random, &doc[value.clone()], 2)),
        3 => with(&without(doc, value.clone()), value.start, &misspelled(random, &doc[value.clone()])),
        _ => other_value(random, doc, value),
    }
}

/// Names that 01 passes over on the root; to XML 1.0 they are names, to a reader of namespaces some of them are none.
const PASSED_OVER: &[&[u8]] = &[
    b" xsi:a='x'", b" xsi:a:1='x'", b" xsi:1='x'", b" xsi:.:-='x'", b" xmlns:a:b='x'", b" xmlns:a:1=''", b" xmlns:-='x'", b" xmlns:xml='x'",
    b" xmlns:xmlns='x'", b" xmlns='x'", b" xmlns:=''", b" xsi:type='x'", b" xsi::='x'",
];

/// What may stand between two tags, and what may not.
const BETWEEN: &[&[u8]] = &[b" ", b"\r\n\t", b"<!---->", b"<!-- & -->", b"x", b" .\n", b"\xC3\xA4", b"<![CDATA[ ]]>", b"<?a b?>", b"&#32;"];

/// A document next to an accepted one.
pub fn neighbour(random: &mut Random, doc: &[u8]) -> Vec<u8> {
    let tags = tags_of(doc);
    if random.one_in(12) {
        return with(doc, tags[0].attributes[0].range.start, random.part(PASSED_OVER));
    }
    if random.one_in(8) {
        return with(doc, random.pick(&tags).range.start, random.part(BETWEEN));
    }
    let starts: Vec<usize> = (0..tags.len()).filter(|at| tags[*at].step >= 0).collect();
    let first = *random.pick(&starts);
    if !tags[first].attributes.is_empty() && random.one_in(2) {
        return other_attribute(random, doc, &tags[first]);
    }
    let range = element(&tags, first);
    let whole = doc[range.clone()].to_vec();
    match random.below(4) {
        0 => without(doc, range),
        1 => with(doc, range.end, &whole),
        2 => {
            let to = tags[*random.pick(&starts)].range.start;
            let less = without(doc, range.clone());
            with(&less, if to < range.end { to.min(range.start) } else { to - whole.len() }, &whole)
        }
        _ => with(doc, range.start, b"<Other v=\"1\"/>"),
    }
}
