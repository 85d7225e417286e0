//! Values spelled with references: right ones of every sort, and others that are none.

use crate::model::is_xml_character;
use crate::random::Random;
use crate::references::reference;

const NAMED: &[(char, &str)] = &[('&', "&amp;"), ('<', "&lt;"), ('>', "&gt;"), ('"', "&quot;"), ('\'', "&apos;")];

/// Characters that a value has by reference alone, and some at the edges, in several spellings.
pub const NEEDED: &[&str] = &[
    "&amp;", "&amp;", "&lt;", "&gt;", "&quot;", "&apos;", "&#38;", "&#x26;", "&#60;", "&#9;", "&#10;", "&#13;", "&#xA;", "&#xd;", "&#32;", "&#x20;",
    "&#127;", "&#xD7FF;", "&#xe000;", "&#xFFFD;", "&#65536;", "&#x1FFFE;", "&#x10FFFF;", "&#1114111;",
];

/// What looks like a reference and is none, or names no XML character. Where a `;` or `<` is missing the rest of the value is read with it.
pub const BROKEN: &[&str] = &[
    "&", "&;", "&bad;", "&nbsp;", "&AMP;", "&Lt;", "&amp", "&lt", "& amp;", "&amp ;", "&am;", "&ampx;", "&xamp;", "&#;", "&#x;", "&#X41;", "&#",
    "&#x", "&#65", "&#x41", "&# 65;", "&#65 ;", "&#+65;", "&#-1;", "&#6A;", "&#xG;", "&#x4 1;", "&x41;", "&65;", "&#0;", "&#00;", "&#x0;", "&#1;",
    "&#8;", "&#11;", "&#x0C;", "&#14;", "&#31;", "&#x1f;", "&#xD800;", "&#xdfff;", "&#55296;", "&#57343;", "&#xFFFE;", "&#65535;", "&#x110000;",
    "&#1114112;", "&#2097152;", "&#4294967361;", "&#x100000041;", "&#18446744073709551681;", "&#x10000000000000041;",
    "&#340282366920938463463374607431768211521;", "&#9999999999999999999999999999999999999999;", "&#٣;", "&&amp;", "&am&amp;p;", "&#&#54;5;",
    "&lt<;", "&#<65;", "&%;", "&\"amp;", "&am'p;", "&#6'5;",
];

/// Near to a space, and none.
const NO_SPACES: &[&str] = &["&#9;", "&#10;", "&#13;", "&#160;", "&#x2002;", "&#8239;", "&#x3000;", "&amp;#32;", "\u{A0}"];

/// A character by its name, where it has one, or by its number.
pub fn as_reference(random: &mut Random, c: char) -> Vec<u8> {
    if let Some((_, name)) = NAMED.iter().find(|(named, _)| *named == c && random.one_in(2)) {
        return name.as_bytes().to_vec();
    }
    let zeros = "0".repeat(random.one_of(&[0, 0, 0, 0, 1, 2, 3, 40]));
    let number = c as u32;
    match random.below(3) {
        0 => format!("&#{zeros}{number};"),
        1 => format!("&#x{zeros}{number:x};"),
        _ => format!("&#x{zeros}{number:X};"),
    }
    .into_bytes()
}

/// The character at the front, where one is there.
fn character(bytes: &[u8]) -> Option<char> {
    let whole = (1..=bytes.len().min(4)).find_map(|length| std::str::from_utf8(&bytes[..length]).ok())?;
    whole.chars().next()
}

/// One in so many spaces, or more, is put by reference: at a collapsed end there are few of them.
const SPACES: usize = 3;

/// Whether a character may stand as it is or by reference.
fn is_free(c: char) -> bool {
    !matches!(c, '&' | '<' | '\t' | '\r' | '\n') && is_xml_character(c)
}

/// The value with one in `rarely` of its characters by reference, those that are references by another one. What is no character, or makes a value
/// unreadable, stays as it is, and so does all that begins with `&` and is no reference, up to a `;`.
pub fn respelled(random: &mut Random, value: &[u8], rarely: usize) -> Vec<u8> {
    let mut out = Vec::with_capacity(2 * value.len());
    let mut rest = value;
    while let Some(first) = rest.first() {
        let length = match (first, character(rest)) {
            (b'&', _) => rest.iter().position(|b| *b == b';').map_or(rest.len(), |end| end + 1),
            (_, Some(c)) => c.len_utf8(),
            _ => 1,
        };
        let (unit, after) = rest.split_at(length);
        match character(unit) {
            Some('&') if random.one_in(rarely) => match reference(unit) {
                Some((says, _)) => out.extend(as_reference(random, says)),
                None => out.extend_from_slice(unit),
            },
            Some(c) if is_free(c) && random.one_in(if c == ' ' { rarely.min(SPACES) } else { rarely }) => out.extend(as_reference(random, c)),
            _ => out.extend_from_slice(unit),
        }
        rest = after;
    }
    out
}

/// The value with something in it that is no reference or says what is not dropped; or its first reference said once more, so that it says another thing.
pub fn misspelled(random: &mut Random, value: &[u8]) -> Vec<u8> {
    let at = if random.one_in(2) { random.pick(&[0, value.len()]).to_owned() } else { random.within(0, value.len()) };
    let (before, after) = value.split_at(at);
    let referring = respelled(random, value, 2);
    let odd = match random.below(8) {
        0 | 1 => random.pick(NO_SPACES),
        2 => random.pick(NEEDED),
        3 => return escaped(&referring),
        4 => return unfinished(random, &referring),
        _ => random.pick(BROKEN),
    };
    [before, odd.as_bytes(), after].concat()
}

/// "Replaced once": the value whose first reference says its own letters.
pub fn escaped(value: &[u8]) -> Vec<u8> {
    let at = value.iter().position(|b| *b == b'&').map_or(value.len(), |at| at + 1);
    [&value[..at], if at < value.len() { b"amp;" } else { b"" }, &value[at..]].concat()
}

/// The value without one of the bytes of its first reference, or with a space among them.
fn unfinished(random: &mut Random, value: &[u8]) -> Vec<u8> {
    let mut value = value.to_vec();
    let Some(start) = value.iter().position(|b| *b == b'&') else { return value };
    let end = value[start..].iter().position(|b| *b == b';').map_or(value.len() - 1, |end| start + end);
    match random.below(3) {
        0 => drop(value.remove(end)),
        1 => drop(value.remove(random.within(start, end))),
        _ => value.insert(random.within(start + 1, end), b' '),
    }
    value
}
