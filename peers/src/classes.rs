//! Where 01 is narrower than XML 1.0 and the schemas: why the reader refuses what the peers take.

use crate::library::Answer;
use differential::references::reference;

fn is_white(b: u8) -> bool {
    matches!(b, b' ' | b'\t' | b'\r' | b'\n')
}

/// A tag from its `<` on, as bytes outside of values and bytes of values.
struct Spelled {
    outside: Vec<u8>,
    values: Vec<u8>,
}

/// The tag that begins a part of a well-formed document: it ends at the first `>` outside of quotes.
fn spelled(part: &[u8]) -> Spelled {
    let mut both = Spelled { outside: Vec::new(), values: Vec::new() };
    let mut quote = None;
    for &b in part {
        match quote {
            Some(q) if b == q => quote = None,
            Some(_) => both.values.push(b),
            None if b == b'>' => break,
            None => {
                both.outside.push(b);
                quote = Some(b).filter(|b| matches!(b, b'"' | b'\''));
            }
        }
    }
    both
}

fn has_odd_name(outside: &[u8]) -> bool {
    let starts_with_colon = outside.windows(2).any(|two| two[1] == b':' && (is_white(two[0]) || matches!(two[0], b'<' | b'/')));
    starts_with_colon || outside.iter().any(|b| *b >= 128)
}

/// The cut of 01 under which an item falls that is unreadable and stands in a well-formed document.
pub fn cut(doc: &[u8], place: usize) -> Option<&'static str> {
    let item = doc.get(place..)?;
    let mark = if doc.starts_with(b"\xEF\xBB\xBF") { 3 } else { 0 };
    if place == 0 && (doc.starts_with(b"\xFF\xFE") || doc.starts_with(b"\xFE\xFF") || doc.contains(&0)) {
        return Some("the document is not in UTF-8");
    }
    if item.starts_with(b"<?xml") && item.get(5).is_some_and(|b| is_white(*b)) && place == mark {
        return Some("XML declaration with anything else in it than 01 has");
    }
    if item.starts_with(b"<?") {
        return Some("processing instruction");
    }
    if item.starts_with(b"<!DOCTYPE") {
        return Some("DOCTYPE");
    }
    if item.starts_with(b"<![CDATA[") {
        return Some("CDATA");
    }
    if !item.starts_with(b"<") {
        let text = item.split(|b| *b == b'<').next()?;
        return text.contains(&b'&').then_some("& in a text");
    }
    let tag = spelled(item);
    if tag.values.iter().any(|b| matches!(b, b'\t' | b'\r' | b'\n')) {
        Some("tab, CR or LF in a value")
    } else if has_odd_name(&tag.outside) {
        Some("name that is not ASCII or begins with a colon")
    } else {
        None
    }
}

/// Whether a value has a tab, CR or LF by reference, which the collapse of XML Schema drops at an end as it drops spaces, and 01 does not.
fn refers_to_white(values: &[u8]) -> bool {
    let begins = (0..values.len()).filter(|at| values[*at] == b'&');
    begins.filter_map(|at| reference(&values[at..])).any(|(says, _)| matches!(says, '\t' | '\r' | '\n'))
}

/// Why a document is refused that is well-formed to both peers and that the schema takes; None where 01 has no reason.
pub fn why(doc: &[u8], answer: Answer) -> Option<&'static str> {
    match answer.refusal {
        1 => Some("longer than 1,048,576 bytes"),
        2 => cut(doc, answer.place),
        5 if answer.kind != 0 => {
            let tag = spelled(doc.get(answer.place..)?);
            let declares = tag.outside.windows(6).any(|six| is_white(six[0]) && &six[1..] == b"xmlns");
            declares.then_some("namespace declared on an element that is not the root: to 01 an unknown attribute")
        }
        6 | 7 if refers_to_white(&spelled(doc.get(answer.place..)?).values) => Some("tab, CR or LF by reference at the end of a collapsed value"),
        8 => Some("rule between values: periods, Pos, counts, Originals, the series of kind 3"),
        9 => Some("TimeSeriesIdentification used before"),
        _ => None,
    }
}
