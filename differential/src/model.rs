//! A reader of document 01 as 02 changes it, written from the papers alone, in the order of 01.

use crate::references::{meaning, spaces_dropped, units};
use crate::rows::{Attribute, Form, Row, Task, ROOTS};
use std::collections::BTreeSet;
use std::ops::Range;

/// How much the caller lends.
#[derive(Clone, Copy, PartialEq, Eq, Debug)]
pub struct Lengths {
    pub series: usize,
    pub positions: usize,
    pub amounts: usize,
    pub note: usize,
}

/// The answer (refusal, place, kind, series, intervals, N, note length) and what is left in all that was lent.
#[derive(Clone, PartialEq, Eq, Debug)]
pub struct Outcome {
    pub answer: [u32; 7],
    pub series: Vec<u32>,
    pub positions: Vec<u32>,
    pub amounts: Vec<i64>,
    pub note: Vec<u8>,
}

/// "the document is longer than 1,048,576 bytes"
pub const LONGEST: usize = 1_048_576;
/// "the note buffer has fewer than 16 bytes"
pub const LEAST_NOTE: usize = 16;
/// "converting into fewer than 24 bytes is 10"
pub const LEAST_CONVERTED: usize = 24;
/// "A new note begins with the number 100"
pub const NEW_MARK: u32 = 100;
/// The shape by number: this one is the old one, every other the new one.
pub const OLD: u32 = 0;
/// "A series row grows from eight numbers to twelve"; the last two are "its first interval row; its interval count".
pub const ROW: usize = 12;
pub const FIRST: usize = 10;
pub const COUNT: usize = 11;

// ---------------------------------------------------------------- Items

/// One of 01's five kinds of items; a start and an empty tag differ by `empty`, and text by what is in it.
enum Item<'d> {
    Tag { name: &'d [u8], attributes: Vec<Given<'d>>, empty: bool },
    End { name: &'d [u8] },
    WhiteText,
    OtherText,
    Comment,
}

/// An attribute as a tag has it: its name, and where the bytes between the quotes are.
struct Given<'d> {
    name: &'d [u8],
    value: Range<usize>,
}

fn byte(doc: &[u8], at: usize) -> Option<u8> {
    doc.get(at).copied()
}

fn part(doc: &[u8], range: Range<usize>) -> &[u8] {
    doc.get(range).unwrap_or(&[])
}

fn starts(doc: &[u8], at: usize, with: &[u8]) -> bool {
    part(doc, at..doc.len()).starts_with(with)
}

fn is_white(b: u8) -> bool {
    matches!(b, b' ' | b'\t' | b'\r' | b'\n')
}

fn after_white(doc: &[u8], at: usize) -> usize {
    let white = part(doc, at..doc.len()).iter().take_while(|b| is_white(**b)).count();
    at + white
}

/// "Bytes are UTF-8 (RFC 3629) and XML 1.0 characters."
pub fn xml_characters(bytes: &[u8]) -> bool {
    match std::str::from_utf8(bytes) {
        Ok(text) => text.chars().all(is_xml_character),
        Err(_) => false,
    }
}

pub fn is_xml_character(c: char) -> bool {
    matches!(c, '\t' | '\n' | '\r' | '\u{20}'..='\u{D7FF}' | '\u{E000}'..='\u{FFFD}' | '\u{10000}'..='\u{10FFFF}')
}

/// "names are ASCII letters, digits, `_ - . :` and begin with a letter or `_`"
fn name_at(doc: &[u8], at: usize) -> Option<&[u8]> {
    let first = byte(doc, at)?;
    if !(first.is_ascii_alphabetic() || first == b'_') {
        return None;
    }
    let more = |b: &&u8| b.is_ascii_alphanumeric() || matches!(**b, b'_' | b'-' | b'.' | b':');
    let length = part(doc, at..doc.len()).iter().take_while(more).count();
    doc.get(at..at + length)
}

/// White space, `=` and white space: the place after them.
fn after_equals(doc: &[u8], at: usize) -> Option<usize> {
    let equals = after_white(doc, at);
    match byte(doc, equals) {
        Some(b'=') => Some(after_white(doc, equals + 1)),
        _ => None,
    }
}

/// The place of the bytes between two equal quotes.
fn quoted_at(doc: &[u8], at: usize) -> Option<Range<usize>> {
    let quote = byte(doc, at)?;
    if quote != b'"' && quote != b'\'' {
        return None;
    }
    let inside = part(doc, at + 1..doc.len());
    let length = inside.iter().position(|b| *b == quote)?;
    Some(at + 1..at + 1 + length)
}

/// "no tab, CR or LF inside an attribute value", no `<` in a value; an `&` begins one of K4's references: "2 for any other reference".
fn value_readable(doc: &[u8], value: Range<usize>) -> bool {
    let bytes = part(doc, value.clone());
    let refers = bytes.contains(&b'&');
    !bytes.iter().any(|b| matches!(b, b'<' | b'\t' | b'\r' | b'\n')) && xml_characters(bytes) && (!refers || units(doc, value).is_some())
}

fn attribute_at(doc: &[u8], at: usize) -> Option<Given<'_>> {
    let name = name_at(doc, at)?;
    let value = quoted_at(doc, after_equals(doc, at + name.len())?)?;
    if value_readable(doc, value.clone()) {
        Some(Given { name, value })
    } else {
        None
    }
}

/// The attributes of a tag and the place after the last one. White space is needed before each.
fn attributes_at(doc: &[u8], from: usize) -> Option<(Vec<Given<'_>>, usize)> {
    let mut attributes = Vec::new();
    let mut at = from;
    loop {
        let next = after_white(doc, at);
        if matches!(byte(doc, next)?, b'>' | b'/') {
            return Some((attributes, next));
        }
        if next == at {
            return None;
        }
        let given = attribute_at(doc, next)?;
        at = given.value.end + 1;
        attributes.push(given);
    }
}

/// "An attribute twice in a tag .. makes the item unreadable."
fn none_twice(attributes: &[Given]) -> bool {
    let names: BTreeSet<&[u8]> = attributes.iter().map(|given| given.name).collect();
    names.len() == attributes.len()
}

fn tag_at(doc: &[u8], at: usize) -> Option<(Item<'_>, usize)> {
    let name = name_at(doc, at + 1)?;
    let (attributes, close) = attributes_at(doc, at + 1 + name.len())?;
    if !none_twice(&attributes) {
        return None;
    }
    if byte(doc, close) == Some(b'>') {
        Some((Item::Tag { name, attributes, empty: false }, close + 1))
    } else if starts(doc, close, b"/>") {
        Some((Item::Tag { name, attributes, empty: true }, close + 2))
    } else {
        None
    }
}

fn end_tag_at(doc: &[u8], at: usize) -> Option<(Item<'_>, usize)> {
    let name = name_at(doc, at + 2)?;
    let close = after_white(doc, at + 2 + name.len());
    if byte(doc, close) == Some(b'>') {
        Some((Item::End { name }, close + 1))
    } else {
        None
    }
}

/// "So does `--` inside a comment": the first one after `<!--` has to be that of `-->`.
fn comment_at(doc: &[u8], at: usize) -> Option<(Item<'_>, usize)> {
    let inside = part(doc, at + 4..doc.len());
    let length = inside.windows(2).position(|two| two == b"--")?;
    if inside.get(length + 2) == Some(&b'>') && xml_characters(part(inside, 0..length)) {
        Some((Item::Comment, at + 4 + length + 3))
    } else {
        None
    }
}

/// "Text is a longest run of bytes without `<`."
fn text_at(doc: &[u8], at: usize) -> Option<(Item<'_>, usize)> {
    let rest = part(doc, at..doc.len());
    let length = rest.iter().position(|b| *b == b'<').unwrap_or(rest.len());
    let text = part(rest, 0..length);
    if text.iter().all(|b| is_white(*b)) {
        Some((Item::WhiteText, at + length))
    } else if text.contains(&b'&') || text.windows(3).any(|three| three == b"]]>") || !xml_characters(text) {
        None
    } else {
        Some((Item::OtherText, at + length))
    }
}

/// The item that starts at `at` and the place after it; nothing where it is unreadable.
fn item_at(doc: &[u8], at: usize) -> Option<(Item<'_>, usize)> {
    if byte(doc, at) != Some(b'<') {
        text_at(doc, at)
    } else if starts(doc, at, b"<!--") {
        comment_at(doc, at)
    } else if starts(doc, at, b"</") {
        end_tag_at(doc, at)
    } else {
        tag_at(doc, at)
    }
}

/// A word of the declaration with white space before it, and its value: the place of the value.
fn declared_at(doc: &[u8], at: usize, word: &[u8]) -> Option<Range<usize>> {
    let start = after_white(doc, at);
    if start == at || !starts(doc, start, word) {
        return None;
    }
    quoted_at(doc, after_equals(doc, start + word.len())?)
}

/// "version 1.0, then optionally encoding UTF-8 in any letter case, with single or double quotes": the place after it.
fn after_declaration(doc: &[u8], at: usize) -> Option<usize> {
    let version = declared_at(doc, at + 5, b"version")?;
    if part(doc, version.clone()) != b"1.0" {
        return None;
    }
    let mut end = version.end + 1;
    if let Some(encoding) = declared_at(doc, end, b"encoding") {
        if !part(doc, encoding.clone()).eq_ignore_ascii_case(b"UTF-8") {
            return None;
        }
        end = encoding.end + 1;
    }
    let close = after_white(doc, end);
    if starts(doc, close, b"?>") {
        Some(close + 2)
    } else {
        None
    }
}

/// Where the items begin, or the place of a declaration that is unreadable.
fn first_item(doc: &[u8]) -> Result<usize, usize> {
    let at = if doc.starts_with(&[0xEF, 0xBB, 0xBF]) { 3 } else { 0 };
    if starts(doc, at, b"<?xml") {
        after_declaration(doc, at).ok_or(at)
    } else {
        Ok(at)
    }
}

/// What is found in the start and empty tags before the first unreadable item, due or not, by their names and attributes.
fn in_tags<T>(doc: &[u8], mut find: impl FnMut(&[u8], Vec<Given>) -> Vec<T>) -> Vec<T> {
    let mut found = Vec::new();
    let mut at = first_item(doc).unwrap_or(doc.len());
    while at < doc.len() {
        let Some((item, after)) = item_at(doc, at) else { break };
        if let Item::Tag { name, attributes, .. } = item {
            found.extend(find(name, attributes));
        }
        at = after;
    }
    found
}

/// Where the bytes between the quotes of `v` are in each such tag of a name.
fn values_of(doc: &[u8], wanted: &[u8]) -> Vec<Range<usize>> {
    in_tags(doc, |name, attributes| {
        let own = attributes.into_iter().filter(|given| name == wanted && given.name == b"v");
        own.map(|given| given.value).collect()
    })
}

/// How many references are in the values of all such tags.
pub fn references(doc: &[u8]) -> usize {
    let values = in_tags(doc, |_, attributes| attributes.into_iter().map(|given| given.value).collect());
    values.into_iter().map(|value| part(doc, value).iter().filter(|b| **b == b'&').count()).sum()
}

/// The place of the first unreadable item, or the length.
pub fn readable_len(doc: &[u8]) -> usize {
    let mut at = match first_item(doc) {
        Ok(at) => at,
        Err(place) => return place,
    };
    while at < doc.len() {
        let Some((_, after)) = item_at(doc, at) else { return at };
        at = after;
    }
    at
}

/// K12: "the TimeSeriesIdentification values in tags before the first unreadable item".
pub fn identifications(doc: &[u8]) -> Vec<Range<usize>> {
    values_of(doc, b"TimeSeriesIdentification")
}

/// The readable Qty digits: "digits inside a reference no longer count among" them.
pub fn qty_digits(doc: &[u8]) -> Vec<usize> {
    let all = values_of(doc, b"Qty").into_iter().filter_map(|value| units(doc, value)).flatten();
    all.filter(|unit| unit.place.len() == 1 && unit.says.is_ascii_digit()).map(|unit| unit.place.start).collect()
}

// ---------------------------------------------------------------- Forms of values

fn all_digits(bytes: &[u8]) -> bool {
    bytes.iter().all(u8::is_ascii_digit)
}

/// The number that some digits say; nothing where there is none or anything else among them.
fn number(bytes: &[u8]) -> Option<i64> {
    if bytes.is_empty() || bytes.len() > 15 || !all_digits(bytes) {
        return None;
    }
    Some(bytes.iter().fold(0, |sum, b| sum * 10 + i64::from(b - b'0')))
}

/// "0 to 35 characters"
fn is_identification(value: &[u8]) -> bool {
    std::str::from_utf8(value).is_ok_and(|text| text.chars().count() <= 35)
}

/// "0 to 36 characters"
fn is_grid_element(value: &[u8]) -> bool {
    std::str::from_utf8(value).is_ok_and(|text| text.chars().count() <= 36)
}

/// "thirteen digits"
fn is_partner(value: &[u8]) -> bool {
    value.len() == 13 && all_digits(value)
}

/// "sixteen of A-Z, 0-9, `-`"
fn is_party(value: &[u8]) -> bool {
    value.len() == 16 && value.iter().all(|b| b.is_ascii_uppercase() || b.is_ascii_digit() || *b == b'-')
}

/// "A, B or C, nine of A-Z or 0-9, one digit"
fn is_object(value: &[u8]) -> bool {
    match value {
        [first, middle @ .., last] => {
            matches!(first, b'A' | b'B' | b'C')
                && middle.len() == 9
                && middle.iter().all(|b| b.is_ascii_uppercase() || b.is_ascii_digit())
                && last.is_ascii_digit()
        }
        _ => false,
    }
}

/// A number of at most so many digits without a leading zero.
fn plain_number(value: &[u8], digits: usize) -> Option<u32> {
    if value.len() > digits || value.first() == Some(&b'0') {
        return None;
    }
    number(value).and_then(|n| u32::try_from(n).ok())
}

/// "an optional minus, 1 to 12 digits, optionally a point with 1 to 3 digits", in thousandths
fn amount(value: &[u8]) -> Option<i64> {
    let (sign, unsigned) = match value.strip_prefix(b"-") {
        Some(rest) => (-1, rest),
        None => (1, value),
    };
    let point = unsigned.iter().position(|b| *b == b'.');
    let whole = part(unsigned, 0..point.unwrap_or(unsigned.len()));
    if whole.len() > 12 {
        return None;
    }
    let thousandths = match point {
        Some(p) => fraction(part(unsigned, p + 1..unsigned.len()))?,
        None => 0,
    };
    Some(sign * (number(whole)? * 1000 + thousandths))
}

fn fraction(digits: &[u8]) -> Option<i64> {
    match digits.len() {
        1 => Some(number(digits)? * 100),
        2 => Some(number(digits)? * 10),
        3 => number(digits),
        _ => None,
    }
}

fn is_leap(year: i64) -> bool {
    year % 4 == 0 && (year % 100 != 0 || year % 400 == 0)
}

fn days_of_month(year: i64, month: i64) -> i64 {
    match month {
        1 | 3 | 5 | 7 | 8 | 10 | 12 => 31,
        4 | 6 | 9 | 11 => 30,
        2 if is_leap(year) => 29,
        2 => 28,
        _ => 0,
    }
}

/// Days from 2000-01-01 to a date that there is.
fn day_number(year: i64, month: i64, day: i64) -> i64 {
    let years: i64 = (2000..year).map(|y| if is_leap(y) { 366 } else { 365 }).sum();
    let months: i64 = (1..month).map(|m| days_of_month(year, m)).sum();
    years + months + day - 1
}

/// `yyyy-mm-dd`: "years 2000 to 2099, real calendar dates", as days from 2000-01-01
fn date(text: &[u8]) -> Option<i64> {
    let year = number(text.get(0..4)?)?;
    let month = number(text.get(5..7)?)?;
    let day = number(text.get(8..10)?)?;
    let dashes = text.len() == 10 && text.get(4) == Some(&b'-') && text.get(7) == Some(&b'-');
    if dashes && (2000..=2099).contains(&year) && day >= 1 && day <= days_of_month(year, month) {
        Some(day_number(year, month, day))
    } else {
        None
    }
}

/// `hh:mm`, in minutes
fn clock(text: &[u8]) -> Option<i64> {
    let hour = number(text.get(0..2)?)?;
    let minute = number(text.get(3..5)?)?;
    if text.len() == 5 && text.get(2) == Some(&b':') && hour <= 23 && minute <= 59 {
        Some(hour * 60 + minute)
    } else {
        None
    }
}

/// `yyyy-mm-ddThh:mmZ`, in minutes from 2000-01-01
fn minute_time(text: &[u8]) -> Option<i64> {
    if text.len() == 17 && text.get(10) == Some(&b'T') && text.get(16) == Some(&b'Z') {
        Some(date(text.get(0..10)?)? * 1440 + clock(text.get(11..16)?)?)
    } else {
        None
    }
}

/// `yyyy-mm-ddThh:mm:ssZ`
fn is_date_time(text: &[u8]) -> bool {
    let shape = text.len() == 20 && text.get(10) == Some(&b'T') && text.get(16) == Some(&b':') && text.get(19) == Some(&b'Z');
    let second = number(part(text, 17..19)).is_some_and(|s| s <= 59);
    shape && second && date(part(text, 0..10)).is_some() && clock(part(text, 11..16)).is_some()
}

/// "two minute-times joined by `/`", in minutes
fn interval(text: &[u8]) -> Option<(i64, i64)> {
    if text.len() == 35 && text.get(17) == Some(&b'/') {
        Some((minute_time(text.get(0..17)?)?, minute_time(text.get(18..35)?)?))
    } else {
        None
    }
}

// ---------------------------------------------------------------- Values against each other

/// "the last Sunday of March .. the last Sunday of October": both months have 31 days, and 2000-01-02 was a Sunday
pub fn last_sunday(year: i64, month: i64) -> i64 {
    let last = day_number(year, month, 31);
    last - (last - day_number(2000, 1, 2)).rem_euclid(7)
}

/// "A delivery day D starts at 22:00Z of the date before when D is after the March Sunday and not after the October one, else at 23:00Z."
pub fn midnight(day: i64) -> i64 {
    let year = (2000..=2100).rev().find(|y| day_number(*y, 1, 1) <= day).unwrap_or(2000);
    let summer = last_sunday(year, 3) < day && day <= last_sunday(year, 10);
    (day - 1) * 1440 + if summer { 22 * 60 } else { 23 * 60 }
}

/// Kind 1: "8 where the start or end isn't local midnight", on the next UTC date.
/// "Kind 2: its end is after its start, by a multiple of 15 minutes and at most 366 days." Kind 3: "kind 2's rules stand".
fn period_fits(kind: u32, start: i64, end: i64) -> bool {
    if kind == 1 {
        let day = start / 1440 + 1;
        start == midnight(day) && end == midnight(day + 1)
    } else {
        end > start && (end - start) % 15 == 0 && end - start <= 366 * 1440
    }
}

// ---------------------------------------------------------------- Reading

/// No fault, or this one.
fn unless(fits: bool, refusal: u32) -> u32 {
    if fits {
        0
    } else {
        refusal
    }
}

struct Open {
    row: &'static Row,
    /// The child that was last there, and how often it was.
    child: usize,
    count: usize,
}

/// What kind 3 asks of its series together: "one or two of BusinessType A77, two only with different Direction, and at least one B59", or with DocStatus
/// "at most one series".
#[derive(Default)]
struct Constraints {
    doc_status: bool,
    /// How many series are A77 and B59, and whether the one at hand is A77.
    a77: usize,
    b59: usize,
    at_a77: bool,
    /// What the Directions of the A77 series say, spaces dropped.
    directions: Vec<Vec<u8>>,
}

struct Reading<'d> {
    doc: &'d [u8],
    series_room: usize,
    interval_room: usize,
    kind: u32,
    open: Vec<Open>,
    /// Start tags and end tags in items before the one at hand.
    starts: u32,
    ends: u32,
    /// What TimePeriodCovered says, and its length divided by 15 minutes.
    covered: Vec<u8>,
    n: u32,
    originals: usize,
    last_pos: u32,
    constraints: Constraints,
    /// What the identifications of the series say.
    identifications: BTreeSet<Vec<u8>>,
    series: Vec<[u32; ROW]>,
    positions: Vec<u32>,
    amounts: Vec<i64>,
    /// The two ends of TimePeriodCovered, in minutes from 2000-01-01, and every attribute value that was taken.
    period: (i64, i64),
    values: Vec<Value>,
}

/// An attribute value of an accepted element: in which series, counted from 1 and 0 in the header; its element and attribute; where it is.
pub struct Value {
    pub series: usize,
    pub element: &'static str,
    pub attribute: &'static str,
    pub place: Range<usize>,
}

/// What a reading with this room for series, and room for every interval, finds.
pub struct Judged {
    pub refusal: u32,
    pub place: usize,
    pub kind: u32,
    pub series: usize,
    pub period: (i64, i64),
    pub values: Vec<Value>,
}

pub fn judge(doc: &[u8], series_room: usize) -> Judged {
    let mut reading = Reading::with_room(doc, series_room, usize::MAX);
    let (refusal, place) = reading.items();
    Judged { refusal, place, kind: reading.kind, series: reading.series.len(), period: reading.period, values: reading.values }
}

impl<'d> Reading<'d> {
    fn new(doc: &'d [u8], lengths: &Lengths) -> Reading<'d> {
        Reading::with_room(doc, lengths.series / ROW, lengths.positions.min(lengths.amounts))
    }

    fn with_room(doc: &'d [u8], series_room: usize, interval_room: usize) -> Reading<'d> {
        Reading {
            doc,
            series_room,
            interval_room,
            kind: 0,
            open: Vec::new(),
            starts: 0,
            ends: 0,
            covered: Vec::new(),
            n: 0,
            originals: 0,
            last_pos: 0,
            constraints: Constraints::default(),
            identifications: BTreeSet::new(),
            series: Vec::new(),
            positions: Vec::new(),
            amounts: Vec::new(),
            period: (0, 0),
            values: Vec::new(),
        }
    }

    /// All items from front to back: the first refusal and its place, or 0 and the length.
    fn items(&mut self) -> (u32, usize) {
        let doc = self.doc;
        let mut at = match first_item(doc) {
            Ok(at) => at,
            Err(place) => return (2, place),
        };
        while at < doc.len() {
            let Some((item, after)) = item_at(doc, at) else { return (2, at) };
            if let Err(refusal) = self.step(&item) {
                return (refusal, at);
            }
            match item {
                Item::Tag { empty: false, .. } => self.starts += 1,
                Item::End { .. } => self.ends += 1,
                _ => {}
            }
            at = after;
        }
        let whole = self.kind != 0 && self.open.is_empty();
        (unless(whole, 3), doc.len())
    }

    fn step(&mut self, item: &Item<'d>) -> Result<(), u32> {
        match item {
            Item::WhiteText | Item::Comment => Ok(()),
            Item::OtherText => Err(3),
            Item::End { name } => self.end(name),
            Item::Tag { name, attributes, empty } => self.start(name, attributes, *empty),
        }
    }

    fn start(&mut self, name: &[u8], attributes: &[Given], empty: bool) -> Result<(), u32> {
        let row = self.due(name).ok_or(3u32)?;
        if empty && !row.children.is_empty() {
            return Err(3);
        }
        if self.full(row) {
            return Err(4);
        }
        if !attributes_right(row, attributes) {
            return Err(5);
        }
        let by_value = self.value_fault(row, attributes);
        let half = row.task == Task::Period && (1..=4).contains(&self.originals);
        let faults = [by_value, unless(!half, 8), unless(!self.against_series(row, attributes), 8)];
        if let Some(smallest) = faults.into_iter().filter(|fault| *fault > 0).min() {
            return Err(smallest);
        }
        self.take(row, attributes);
        self.take_values(row, attributes);
        if !empty {
            self.open.push(Open { row, child: 0, count: 0 });
        }
        Ok(())
    }

    /// Kind 3: "8 at a third A77's BusinessType, at a second A77's equal Direction, at the second series after a DocStatus"
    fn against_series(&self, row: &Row, attributes: &[Given]) -> bool {
        let before = &self.constraints;
        let value = row.attributes.first().and_then(|wanted| self.value(wanted, attributes)).unwrap_or(0..0);
        let said = meaning(self.doc, value);
        self.kind == 3
            && match row.task {
                Task::Series => before.doc_status && !self.series.is_empty(),
                Task::BusinessType => !before.doc_status && said == b"A77" && before.a77 == 2,
                Task::Direction => !before.doc_status && before.at_a77 && before.directions.contains(&said),
                _ => false,
            }
    }

    /// The element that a start of this name is, where it is due.
    fn due(&mut self, name: &[u8]) -> Option<&'static Row> {
        let Some(parent) = self.open.last_mut() else {
            return if self.kind == 0 { ROOTS.iter().find(|root| root.name.as_bytes() == name) } else { None };
        };
        while let Some(row) = parent.row.children.get(parent.child) {
            if row.name.as_bytes() == name && parent.count < row.most {
                parent.count += 1;
                return Some(row);
            }
            if parent.count < row.least {
                return None;
            }
            parent.child += 1;
            parent.count = 0;
        }
        None
    }

    /// "a due series or Interval start finds its table full"
    fn full(&self, row: &Row) -> bool {
        match row.task {
            Task::Series => self.series.len() >= self.series_room,
            Task::Interval => self.positions.len() >= self.interval_room,
            _ => false,
        }
    }

    /// The smallest fault among the values of a tag that has the right attributes; 0 where there is none.
    fn value_fault(&self, row: &Row, attributes: &[Given]) -> u32 {
        let faults = row.attributes.iter().filter_map(|wanted| {
            let value = self.value(wanted, attributes)?;
            Some(self.fault(wanted.form, &meaning(self.doc, value)))
        });
        faults.filter(|fault| *fault > 0).min().unwrap_or(0)
    }

    /// Where the value of an attribute is, spaces dropped where the guideline says so.
    fn value(&self, wanted: &Attribute, attributes: &[Given]) -> Option<Range<usize>> {
        let given = attributes.iter().find(|given| given.name == wanted.name.as_bytes())?;
        if wanted.collapse {
            Some(spaces_dropped(self.doc, given.value.clone()))
        } else {
            Some(given.value.clone())
        }
    }

    /// "Lengths, forms and codes are judged on what the reference stands for": a value is here what it says.
    fn fault(&self, form: Form, value: &[u8]) -> u32 {
        match form {
            Form::Fixed(fixed) => unless(value == fixed.as_bytes(), 6),
            Form::Identification => unless(is_identification(value), 6),
            Form::SeriesIdentification => self.series_identification_fault(value),
            Form::Partner => unless(is_partner(value), 6),
            Form::Party => unless(is_party(value), 6),
            Form::Object => unless(is_object(value), 6),
            Form::GridElement => unless(is_grid_element(value), 6),
            Form::Version => unless(plain_number(value, 3).is_some(), 6),
            Form::DateTime => unless(is_date_time(value), 6),
            Form::Covered => self.covered_fault(value),
            Form::TimeInterval => self.time_interval_fault(value),
            Form::Resolution => unless(value == b"PT15M", 8),
            Form::Pos => self.pos_fault(value),
            Form::Amount => unless(amount(value).is_some(), 6),
            Form::List(codes) => unless(codes.iter().any(|code| code.as_bytes() == value), 7),
        }
    }

    fn series_identification_fault(&self, value: &[u8]) -> u32 {
        if !is_identification(value) {
            return 6;
        }
        // "two identifications are equal when their meanings are"
        unless(!self.identifications.contains(value), 9)
    }

    fn covered_fault(&self, value: &[u8]) -> u32 {
        match interval(value) {
            None => 6,
            Some((start, end)) if period_fits(self.kind, start, end) => 0,
            Some(_) => 8,
        }
    }

    fn time_interval_fault(&self, value: &[u8]) -> u32 {
        match interval(value) {
            None => 6,
            Some(_) if value == self.covered => 0,
            Some(_) => 8,
        }
    }

    /// "Pos is at most N. Kind 1: 1, 2, 3 and so on .. Kind 2: the first Pos is 1, later ones rise"; kind 3: "counted up by one from 1"
    fn pos_fault(&self, value: &[u8]) -> u32 {
        let Some(pos) = plain_number(value, 5) else { return 6 };
        let follows = if self.kind != 2 || self.last_pos == 0 { pos == self.last_pos + 1 } else { pos > self.last_pos };
        unless(follows && pos <= self.n, 8)
    }

    /// What an element without a fault leaves behind.
    fn take(&mut self, row: &Row, attributes: &[Given]) {
        let value = row.attributes.first().and_then(|wanted| self.value(wanted, attributes)).unwrap_or(0..0);
        let said = meaning(self.doc, value.clone());
        match row.task {
            Task::Nothing => {}
            Task::Root => self.kind = ROOTS.iter().zip(1..).find(|(root, _)| root.name == row.name).map_or(0, |(_, kind)| kind),
            Task::Covered => self.take_covered(said),
            Task::Series => self.take_series(),
            Task::SeriesIdentification => {
                self.set_view(0, value);
                self.identifications.insert(said);
            }
            Task::Object => self.set_view(2, value),
            Task::DocStatus => self.constraints.doc_status = true,
            Task::BusinessType => {
                self.set_view(4, value);
                self.constraints.at_a77 = said == b"A77";
                self.constraints.a77 += usize::from(said == b"A77");
                self.constraints.b59 += usize::from(said == b"B59");
            }
            Task::Direction => {
                self.set_view(6, value);
                if self.constraints.at_a77 {
                    self.constraints.directions.push(said);
                }
            }
            Task::Area => self.set_view(8, value),
            Task::Original => self.originals += 1,
            Task::Period => self.last_pos = 0,
            Task::Interval => self.take_interval(),
            Task::Pos => self.take_pos(plain_number(&said, 5).unwrap_or(0)),
            Task::Qty => self.take_amount(amount(&said).unwrap_or(0)),
        }
    }

    /// Every attribute value, with the series that it is in. "Qty and Pos are not among them."
    fn take_values(&mut self, row: &Row, attributes: &[Given]) {
        if matches!(row.task, Task::Pos | Task::Qty) {
            return;
        }
        for wanted in row.attributes {
            if let Some(place) = self.value(wanted, attributes) {
                self.values.push(Value { series: self.series.len(), element: row.name, attribute: wanted.name, place });
            }
        }
    }

    fn take_covered(&mut self, value: Vec<u8>) {
        let (start, end) = interval(&value).unwrap_or((0, 0));
        self.period = (start, end);
        self.n = u32::try_from((end - start) / 15).unwrap_or(0);
        self.covered = value;
    }

    fn take_series(&mut self) {
        self.originals = 0;
        let mut row = [0; ROW];
        row[FIRST] = self.positions.len() as u32;
        self.series.push(row);
    }

    fn set_view(&mut self, cell: usize, value: Range<usize>) {
        if let Some(row) = self.series.last_mut() {
            row[cell] = value.start as u32;
            row[cell + 1] = value.len() as u32;
        }
    }

    fn take_interval(&mut self) {
        self.positions.push(0);
        self.amounts.push(0);
        if let Some(row) = self.series.last_mut() {
            row[COUNT] += 1;
        }
    }

    fn take_pos(&mut self, pos: u32) {
        self.last_pos = pos;
        if let Some(cell) = self.positions.last_mut() {
            *cell = pos;
        }
    }

    fn take_amount(&mut self, thousandths: i64) {
        if let Some(cell) = self.amounts.last_mut() {
            *cell = thousandths;
        }
    }

    fn end(&mut self, name: &[u8]) -> Result<(), u32> {
        let Some(top) = self.open.last() else { return Err(3) };
        if top.row.name.as_bytes() != name || !top.complete() {
            return Err(3);
        }
        // "Kind 1: .. at the end tag of Period there are N intervals"
        let intervals = self.series.last().map_or(0, |row| row[COUNT]);
        if self.kind == 1 && top.row.task == Task::Period && intervals != self.n {
            return Err(8);
        }
        // Kind 3: "at the root's end for a missing A77 or B59"
        let Constraints { doc_status, a77, b59, .. } = self.constraints;
        let lacking = self.kind == 3 && !doc_status && !self.series.is_empty() && (a77 == 0 || b59 == 0);
        if lacking && top.row.task == Task::Root {
            return Err(8);
        }
        self.open.pop();
        Ok(())
    }
}

impl Open {
    /// No child is missing.
    fn complete(&self) -> bool {
        let mut rest = self.row.children.iter().skip(self.child);
        let enough = rest.next().is_none_or(|row| self.count >= row.least);
        enough && rest.all(|row| row.least == 0)
    }
}

/// "attribute missing or unknown"; "On the root, attributes named `xmlns` or beginning `xmlns:` or `xsi:` are passed over."
fn attributes_right(row: &Row, attributes: &[Given]) -> bool {
    let passed = |name: &[u8]| row.task == Task::Root && (name == b"xmlns" || name.starts_with(b"xmlns:") || name.starts_with(b"xsi:"));
    let known = |name: &[u8]| row.attributes.iter().any(|wanted| wanted.name.as_bytes() == name);
    let there = |wanted: &Attribute| attributes.iter().any(|given| given.name == wanted.name.as_bytes());
    row.attributes.iter().all(|wanted| !wanted.required || there(wanted)) && attributes.iter().all(|given| known(given.name) || passed(given.name))
}

// ---------------------------------------------------------------- Tables and note

/// "cut in groups of seven bits, lowest first, the top bit set on all but the last, in the fewest groups"
fn put_number(note: &mut Vec<u8>, number: u32) {
    let mut rest = number;
    while rest >= 128 {
        note.push(rest as u8 & 127 | 128);
        rest >>= 7;
    }
    note.push(rest as u8);
}

fn note_of(numbers: &[u32]) -> Vec<u8> {
    let mut note = Vec::new();
    for number in numbers {
        put_number(&mut note, *number);
    }
    note
}

/// "A new note begins with the number 100, then the old five, then the count of elements open before the faulty item"
fn note_in(shape: u32, five: &[u32; 5], depth: u32) -> Vec<u8> {
    if shape == OLD {
        note_of(five)
    } else {
        note_of(&[&[NEW_MARK], &five[..], &[depth]].concat())
    }
}

fn filled<T: Copy + Default>(rows: Vec<T>, length: usize) -> Vec<T> {
    let mut cells = rows;
    cells.resize(length, T::default());
    cells
}

/// "On every refusal by the document reader, all cells of the three tables are 0."
fn refused(lengths: &Lengths, answer: [u32; 7], note: Vec<u8>) -> Outcome {
    Outcome {
        answer,
        series: vec![0; lengths.series],
        positions: vec![0; lengths.positions],
        amounts: vec![0; lengths.amounts],
        note: filled(note, lengths.note),
    }
}

/// Reads a document, with a note in the old shape.
pub fn read(doc: &[u8], lengths: &Lengths) -> Outcome {
    read_in(OLD, doc, lengths)
}

/// Reads a document: "10 is looked at first, then 1, then the items from front to back." "The caller picks the shape that the reader writes".
pub fn read_in(shape: u32, doc: &[u8], lengths: &Lengths) -> Outcome {
    if lengths.note < LEAST_NOTE {
        return refused(lengths, [10, 0, 0, 0, 0, 0, 0], Vec::new());
    }
    if doc.len() > LONGEST {
        let note = note_in(shape, &[1, 0, 0, 0, 0], 0);
        return refused(lengths, [1, 0, 0, 0, 0, 0, note.len() as u32], note);
    }
    let mut reading = Reading::new(doc, lengths);
    let (refusal, place) = reading.items();
    let five = [refusal, place as u32, reading.kind, reading.series.len() as u32, reading.positions.len() as u32];
    // "the count of elements open before the faulty item; on acceptance 0"
    let depth = if refusal == 0 { 0 } else { reading.starts - reading.ends };
    let note = note_in(shape, &five, depth);
    let n = if refusal == 0 { reading.n } else { 0 };
    let answer = [five[0], five[1], five[2], five[3], five[4], n, note.len() as u32];
    if refusal != 0 {
        return refused(lengths, answer, note);
    }
    Outcome {
        answer,
        series: filled(reading.series.concat(), lengths.series),
        positions: filled(reading.positions, lengths.positions),
        amounts: filled(reading.amounts, lengths.amounts),
        note: filled(note, lengths.note),
    }
}

/// A number at the front of a note and the rest: shortest, below 2^21.
fn number_of(note: &[u8]) -> Option<(u32, &[u8])> {
    let length = note.iter().take(3).position(|b| *b < 128)? + 1;
    let groups = note.get(0..length)?;
    if length > 1 && groups.last() == Some(&0) {
        return None;
    }
    let number = groups.iter().rev().fold(0, |sum, b| sum << 7 | u32::from(b & 127));
    Some((number, note.get(length..)?))
}

/// All numbers of a note, up to its end.
fn numbers_of(note: &[u8]) -> Option<Vec<u32>> {
    let mut numbers = Vec::new();
    let mut rest = note;
    while !rest.is_empty() {
        let (number, after) = number_of(rest)?;
        numbers.push(number);
        rest = after;
    }
    Some(numbers)
}

/// "the note reader reads both, an old one with depth 0. From now on five numbers beginning with 100 are no note, nor are seven whose second is 100."
fn six_of(note: &[u8]) -> Option<([u32; 5], u32)> {
    match numbers_of(note)?[..] {
        [refusal, place, kind, series, intervals] if refusal != NEW_MARK => Some(([refusal, place, kind, series, intervals], 0)),
        [NEW_MARK, refusal, place, kind, series, intervals, depth] if refusal != NEW_MARK => Some(([refusal, place, kind, series, intervals], depth)),
        _ => None,
    }
}

/// Reads a note: 0 and its numbers (refusal, place, kind, series, intervals, depth), or 11 and zeros.
pub fn read_note(note: &[u8]) -> (u32, [u32; 6]) {
    match six_of(note) {
        Some(([refusal, place, kind, series, intervals], depth)) => (0, [refusal, place, kind, series, intervals, depth]),
        None => (11, [0; 6]),
    }
}

/// Writes a note in a shape: "Old notes are turned into new ones with depth 0, new into old by leaving it out." The refusal, the length of what is
/// written, and all of the output: "converting into fewer than 24 bytes is 10, then 11 for bytes that are neither; output is then all 0".
pub fn convert(note: &[u8], shape: u32, room: usize) -> ([u32; 2], Vec<u8>) {
    if room < LEAST_CONVERTED {
        return ([10, 0], vec![0; room]);
    }
    let Some((five, depth)) = six_of(note) else { return ([11, 0], vec![0; room]) };
    let written = note_in(shape, &five, depth);
    ([0, written.len() as u32], filled(written, room))
}
