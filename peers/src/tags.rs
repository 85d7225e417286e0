//! The tags of a well-formed document.

use std::ops::Range;

/// Where a tag stands, whether it begins (1) or ends (-1) an element or does both (0), and its attributes.
pub struct Tag {
    pub range: Range<usize>,
    pub step: i32,
    pub attributes: Vec<Attribute>,
}

/// Where an attribute stands, with the white space before it, and where its value does.
pub struct Attribute {
    pub range: Range<usize>,
    pub value: Range<usize>,
}

fn find(doc: &[u8], from: usize, what: &[u8]) -> usize {
    let rest = doc.get(from..).unwrap_or(&[]);
    rest.windows(what.len()).position(|part| part == what).map_or(doc.len(), |at| from + at + what.len())
}

/// The first tag from a place on; comments, the declaration and what else begins with `<!` or `<?` are no tags.
fn next_tag(doc: &[u8], from: usize) -> Option<Tag> {
    let mut at = from;
    while let Some(offset) = doc[at..].iter().position(|b| *b == b'<') {
        let start = at + offset;
        at = match &doc[start..] {
            [b'<', b'!', b'-', ..] => find(doc, start + 4, b"-->"),
            [b'<', b'!', ..] => find(doc, start, b">"),
            [b'<', b'?', ..] => find(doc, start, b"?>"),
            _ => return Some(tag_at(doc, start)),
        };
    }
    None
}

pub fn tags_of(doc: &[u8]) -> Vec<Tag> {
    let mut tags = Vec::new();
    let mut at = 0;
    while let Some(tag) = next_tag(doc, at) {
        at = tag.range.end;
        tags.push(tag);
    }
    tags
}

fn tag_at(doc: &[u8], start: usize) -> Tag {
    let mut attributes = Vec::new();
    let mut at = start + 1;
    let mut from = None;
    while at < doc.len() && doc[at] != b'>' {
        match doc[at] {
            q @ (b'"' | b'\'') => {
                let end = find(doc, at + 1, &[q]);
                attributes.push(Attribute { range: from.take().unwrap_or(at)..end, value: at + 1..end - 1 });
                at = end;
                continue;
            }
            b' ' | b'\t' | b'\r' | b'\n' => from = from.or(Some(at)),
            _ => {}
        }
        at += 1;
    }
    let step = if doc.get(start + 1) == Some(&b'/') { -1 } else { i32::from(doc[at - 1] != b'/') };
    Tag { range: start..(at + 1).min(doc.len()), step, attributes }
}

pub fn without(doc: &[u8], range: Range<usize>) -> Vec<u8> {
    [&doc[..range.start], &doc[range.end..]].concat()
}

/// The document with at most one zero before the other digits of a reference. libxml2 2.9 takes no letter after twenty digits of one, where XML 1.0 has no bound.
pub fn few_zeros(doc: &[u8]) -> Vec<u8> {
    let mut less = Vec::with_capacity(doc.len());
    let mut rest = doc;
    while let Some(first) = rest.first() {
        let front = [&b"&#x0"[..], b"&#0"].into_iter().find(|front| rest.starts_with(front));
        let taken = front.map_or(1, <[u8]>::len);
        less.extend_from_slice(if front.is_some() { &rest[..taken] } else { std::slice::from_ref(first) });
        let zeros = if front.is_some() { rest[taken..].iter().take_while(|b| **b == b'0').count() } else { 0 };
        rest = &rest[taken + zeros..];
    }
    less
}

fn is_passed_over(attribute: &[u8]) -> bool {
    let name = attribute.trim_ascii_start();
    let name = &name[..name.iter().position(|b| b" \t\r\n=".contains(b)).unwrap_or(name.len())];
    name == b"xmlns" || name.starts_with(b"xmlns:") || name.starts_with(b"xsi:")
}

/// "On the root, attributes named `xmlns` or beginning `xmlns:` or `xsi:` are passed over": the document without them.
pub fn passed_over(doc: &[u8]) -> Vec<u8> {
    let mut less = doc.to_vec();
    let Some(root) = next_tag(doc, 0) else { return less };
    for attribute in root.attributes.iter().rev() {
        if is_passed_over(&doc[attribute.range.clone()]) {
            less.drain(attribute.range.clone());
        }
    }
    less
}
