//! What a value says that was read by reference.
use crate::foreign;

/// The characters that a value says: those of a view, each reference replaced by the character that it stands for, once.
///
/// A document may write `A&amp;B`, `A0&#49;` or `&#x41;01` in any attribute value. The reader judges what that says, and [`Series`](crate::Series) and
/// [`Views`](crate::Views) show it as it stands in the document; so a code or an identification that comes from a document is compared by what it says:
///
/// ```
/// use lumintayag::unescaped;
///
/// assert!(unescaped("A0&#49;").eq("A01".chars()));
/// assert!(unescaped("M&amp;B").eq(unescaped("&#x4D;&#38;B")));
/// assert_eq!(unescaped("&amp;lt;").collect::<String>(), "&lt;");
/// ```
///
/// What begins no reference of XML 1.0 to a legal character, which no view of an accepted document holds, is left as it stands.
pub fn unescaped(value: &str) -> impl Iterator<Item = char> + Clone + '_ {
    let mut rest = value;
    core::iter::from_fn(move || {
        let (says, after) = reference(rest).or_else(|| character(rest))?;
        rest = after;
        Some(says)
    })
}

/// Puts what a value says into lent bytes, in UTF-8, by the archive's own function, and answers how many bytes that is: never more than the value has. Where
/// fewer are lent, the first ones; bytes past them stay as they were.
///
/// It is for a [text that is lent to the writer](crate::write()). [`unescaped`] tells the same, character by character, but for what begins no reference:
/// that says the character 0 here.
///
/// ```
/// use lumintayag::unescape;
///
/// let value = "M&amp;B &#x4D;";
/// let mut text = [0; 14];
/// let len = unescape(value, &mut text);
/// assert_eq!(&text[..len], b"M&B M");
/// ```
pub fn unescape(value: &str, out: &mut [u8]) -> usize {
    foreign::unescape(value.as_bytes(), out)
}

/// The character at the front, and the rest.
fn character(text: &str) -> Option<(char, &str)> {
    let mut characters = text.chars();
    Some((characters.next()?, characters.as_str()))
}

/// What the reference at the front stands for, and the rest.
fn reference(text: &str) -> Option<(char, &str)> {
    let inside = text.strip_prefix('&')?;
    let end = inside.bytes().position(|b| b == b';')?;
    let (name, after) = (inside.get(..end)?, inside.get(end + 1..)?);
    let says = match name {
        "amp" => '&',
        "lt" => '<',
        "gt" => '>',
        "quot" => '"',
        "apos" => '\'',
        _ => numbered(name.strip_prefix('#')?)?,
    };
    Some((says, after))
}

/// The legal character of a number, decimal or after `x` hexadecimal.
fn numbered(digits: &str) -> Option<char> {
    let (digits, base) = digits.strip_prefix('x').map_or((digits, 10), |digits| (digits, 16));
    if digits.is_empty() {
        return None;
    }
    let number = digits.chars().try_fold(0_u32, |number, digit| number.checked_mul(base)?.checked_add(digit.to_digit(base)?))?;
    char::from_u32(number).filter(|c| matches!(c, '\t' | '\n' | '\r' | ' '..='\u{D7FF}' | '\u{E000}'..='\u{FFFD}' | '\u{10000}'..))
}
