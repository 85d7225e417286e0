//! K4 of 02: references in attribute values, and what a value says.

use crate::model::is_xml_character;
use std::ops::Range;

/// A character that stands in a value, or a whole reference: where its bytes are, and the character that it says.
pub struct Unit {
    pub place: Range<usize>,
    pub says: char,
}

/// "the five named references of XML 1.0 and numeric ones, decimal or hexadecimal, naming an XML character": what the one at the front says, and its
/// length; nothing for any other.
pub fn reference(bytes: &[u8]) -> Option<(char, usize)> {
    let end = bytes.iter().position(|b| *b == b';')?;
    let says = match bytes.get(0..end)? {
        b"&amp" => '&',
        b"&lt" => '<',
        b"&gt" => '>',
        b"&quot" => '"',
        b"&apos" => '\'',
        [b'&', b'#', b'x', digits @ ..] => numbered(digits, 16)?,
        [b'&', b'#', digits @ ..] => numbered(digits, 10)?,
        _ => return None,
    };
    Some((says, end + 1))
}

/// The XML character whose number some digits say, however many zeros lead them.
fn numbered(digits: &[u8], base: u32) -> Option<char> {
    if digits.is_empty() {
        return None;
    }
    let mut number: u32 = 0;
    for digit in digits {
        number = number.checked_mul(base)?.checked_add(char::from(*digit).to_digit(base)?)?;
    }
    char::from_u32(number).filter(|c| is_xml_character(*c))
}

/// The units of a value that stands at `value`; nothing where its bytes are not UTF-8 or an `&` in it begins no reference.
pub fn units(doc: &[u8], value: Range<usize>) -> Option<Vec<Unit>> {
    let text = std::str::from_utf8(doc.get(value.clone())?).ok()?;
    let mut units = Vec::new();
    let mut at = 0;
    while let Some(first) = text[at..].chars().next() {
        let (says, length) = if first == '&' { reference(&text.as_bytes()[at..])? } else { (first, first.len_utf8()) };
        let start = value.start + at;
        units.push(Unit { place: start..start + length, says });
        at += length;
    }
    Some(units)
}

/// What a readable value says, in UTF-8: each reference is replaced, and what it says is not looked at again.
pub fn meaning(doc: &[u8], value: Range<usize>) -> Vec<u8> {
    let units = units(doc, value).unwrap_or_default();
    units.iter().map(|unit| unit.says).collect::<String>().into_bytes()
}

/// "A referenced space is dropped at a collapsed end like any other": from the first unit that is not dropped to the end of the last one.
pub fn spaces_dropped(doc: &[u8], value: Range<usize>) -> Range<usize> {
    let units = units(doc, value.clone()).unwrap_or_default();
    let kept = |unit: &&Unit| unit.says != ' ';
    match (units.iter().find(kept), units.iter().rfind(kept)) {
        (Some(first), Some(last)) => first.place.start..last.place.end,
        _ => value.end..value.end,
    }
}
