//! Drafts for the writer, made at random: right ones of both kinds, each rule of K6 broken alone, and any numbers at all.
//! They depend on the seed and their number alone.

use crate::model::{COUNT, FIRST, LONGEST, ROW};
use crate::random::Random;
use crate::rows::{Attribute, Form, Row, Task, ROOTS};
use crate::values::{odd_period, period, right, spaced, wrong, Plan};
use crate::views::{cell_of, HEADER_CELLS, SERIES_CELLS};
use crate::writing::{document, Draft};

const HEADER_PAIRS: usize = HEADER_CELLS / 2;
const SERIES_PAIRS: usize = SERIES_CELLS / 2;
// The limit once more, so that a wrong one in the second writer does not move the drafts with it.
const LARGEST: i64 = 999_999_999_999_999;

/// How seldom a document is made about as long as a document may be.
const SELDOM: usize = 3_000;

pub fn draft(seed: u64, number: u64) -> Draft {
    let random = &mut Random::new(seed ^ 0x0064_7261_6674, number);
    if random.one_in(25) {
        return any_numbers(random);
    }
    let mut sketch = right_sketch(random);
    if random.one_in(SELDOM) {
        return long_draft(random, sketch);
    }
    let (in_sketch, in_draft) = *random.pick(&[(0, 0), (0, 0), (0, 0), (0, 0), (1, 0), (1, 0), (1, 0), (2, 0), (0, 1), (0, 1), (1, 1)]);
    for _ in 0..in_sketch {
        break_sketch(random, &mut sketch);
    }
    let mut draft = laid(random, sketch);
    for _ in 0..in_draft {
        break_draft(random, &mut draft);
    }
    lend(random, &mut draft);
    draft
}

/// How many bytes of output and cells of answer are lent for a document of so many bytes, or for one that is refused: two pairs of lengths.
pub fn outputs(seed: u64, number: u64, length: Option<usize>) -> [(usize, usize); 2] {
    let random = &mut Random::new(seed ^ 0x006F_7574, number);
    let need = length.unwrap_or_else(|| random.below(2_000));
    let (less, more) = (random.below(need + 1), need + random.below(100));
    [(random.one_of(&[need, need, need + 1, more]), 2), (random.one_of(&[need.saturating_sub(1), need.saturating_sub(1), less, 0]), random.below(5))]
}

// ---------------------------------------------------------------- Right drafts

/// What a draft says before it is put into a text: a value for each pair or none, and position and amount of each row of each series.
struct Sketch {
    plan: Plan,
    values: Vec<Option<Vec<u8>>>,
    rows: Vec<Vec<(u32, i64)>>,
}

/// A value that the kind knows, and its pair in the header or in the first series.
struct Slot {
    pair: usize,
    wanted: &'static Attribute,
    row: &'static Row,
}

fn add_slots(kind: usize, series: usize, row: &'static Row, slots: &mut Vec<Slot>) {
    let pair = |wanted: &'static Attribute| Some(Slot { pair: cell_of(kind as u32, series, row.name, wanted.name)? / 2, wanted, row });
    slots.extend(row.attributes.iter().filter_map(pair));
    for child in row.children.iter() {
        add_slots(kind, if child.task == Task::Series { 1 } else { series }, child, slots);
    }
}

/// All of them, in the guideline's order.
fn slots(kind: usize) -> Vec<Slot> {
    let mut slots = Vec::new();
    add_slots(kind, 0, &ROOTS[kind - 1], &mut slots);
    slots
}

impl Slot {
    fn in_series(&self, i: usize) -> usize {
        if self.pair < HEADER_PAIRS {
            self.pair
        } else {
            self.pair + i * SERIES_PAIRS
        }
    }
}

const PLAIN: &[&str] = &["a", "b", "X", "0", "9", "-", "_", " ", ".", ":", "/", "#", ";"];
const ODD: &[&str] = &[
    "&", "<", ">", "\"", "'", "\t", "\n", "\r", "&amp;", "&#48;", "&lt", "&#x41;", "]]>", "<!--", "ä", "ß", "€", "\u{7F}", "\u{80}", "\u{FFFD}",
    "\u{10000}", "𝄞", "٣",
];

/// Literal characters: an `&` and what looks like a reference are what they are.
fn identification(random: &mut Random) -> Vec<u8> {
    let most = if random.one_in(5) { random.within(33, 35) } else { random.within(0, 12) };
    let odd = random.one_in(2);
    let mut said = String::new();
    loop {
        let part = if odd && random.one_in(2) { random.pick(ODD) } else { random.pick(PLAIN) };
        if said.chars().count() + part.chars().count() > most {
            return said.into_bytes();
        }
        said.push_str(part);
    }
}

fn value(random: &mut Random, wanted: &Attribute, plan: &Plan) -> Vec<u8> {
    let said = match wanted.form {
        Form::Identification | Form::SeriesIdentification => identification(random),
        form => right(random, form, plan),
    };
    if wanted.collapse && random.one_in(8) {
        spaced(random, &said)
    } else {
        said
    }
}

fn right_sketch(random: &mut Random) -> Sketch {
    let kind = random.one_of(&[1, 2, 2, 2, 2, 2]);
    let (covered, n) = period(random, kind);
    let few = random.one_of(&[1, 1, 1, 2, 2, 3]);
    let count = if kind == 1 { few.min(2) } else { few + if random.one_in(300) { random.within(10, 40) } else { 0 } };
    let plan = Plan { kind, covered, n, identifications: Vec::new() };
    let mut sketch = Sketch { plan, values: vec![None; HEADER_PAIRS + count * SERIES_PAIRS], rows: Vec::new() };
    let slots = slots(kind);
    for slot in slots.iter().filter(|slot| slot.pair < HEADER_PAIRS) {
        sketch.values[slot.pair] = Some(value(random, slot.wanted, &sketch.plan));
    }
    for i in 0..count {
        add_series(random, &slots, i, &mut sketch);
    }
    sketch
}

fn add_series(random: &mut Random, slots: &[Slot], i: usize, sketch: &mut Sketch) {
    let originals = random.one_in(3);
    let left_out = [random.one_in(2), random.one_in(2), random.one_in(2)];
    for slot in slots.iter().filter(|slot| slot.pair >= HEADER_PAIRS) {
        let absent = match slot.row.task {
            Task::Original => !originals,
            Task::Direction => left_out[0],
            Task::Area => left_out[1] && slot.row.least == 0,
            _ => left_out[2] && slot.row.least == 0,
        };
        if !absent {
            sketch.values[slot.in_series(i)] = Some(value(random, slot.wanted, &sketch.plan));
        }
    }
    let at = HEADER_PAIRS + i * SERIES_PAIRS;
    while sketch.values[at].as_ref().is_some_and(|said| sketch.plan.identifications.contains(said)) {
        sketch.values[at] = Some(format!("s{}", random.below(1_000_000)).into_bytes());
    }
    sketch.plan.identifications.extend(sketch.values[at].clone());
    sketch.rows.push(right_rows(random, &sketch.plan));
}

/// N rows in kind 1, a few that rise in kind 2, up to N at times.
fn right_rows(random: &mut Random, plan: &Plan) -> Vec<(u32, i64)> {
    let mut left = if plan.kind == 1 { plan.n } else { random.one_of(&[1, 1, 2, 2, 3, 5]) };
    let (mut rows, mut pos) = (Vec::new(), 1);
    while left > 0 && pos <= plan.n {
        rows.push((pos as u32, amount(random)));
        pos += match random.below(4) {
            _ if plan.kind == 1 => 1,
            0 => 1,
            1 if pos < plan.n => plan.n - pos,
            _ => random.within(1, 12),
        };
        left -= 1;
    }
    rows
}

/// With zeros at either end of the fraction, few digits and many, and the largest.
fn amount(random: &mut Random) -> i64 {
    let size = match random.below(6) {
        0 => random.below(3) as i64,
        1 => random.below(1_000) as i64,
        2 => 10 * random.below(1_000_000) as i64,
        3 => 1_000 * random.below(1_000_000) as i64,
        4 => random.below(LARGEST as usize + 1) as i64,
        _ => LARGEST - random.one_of(&[0, 0, 9, 999, 99_999]) as i64,
    };
    if random.one_in(2) {
        -size
    } else {
        size
    }
}

// ---------------------------------------------------------------- What is said is wrong

/// Bytes that are no character of XML, or not whole.
const STRAYS: &[&[u8]] =
    &[b"\xFF", b"\0", b"\x01", b"\x0B", b"\x1F", b"\xC3", b"\x80", b"\xC0\x80", b"\xED\xA0\x80", b"\xEF\xBF\xBE", b"\xF4\x90\x80\x80"];

fn break_sketch(random: &mut Random, sketch: &mut Sketch) {
    let slots = slots(sketch.plan.kind);
    let slot = random.pick(&slots);
    let (i, j) = (random.below(sketch.rows.len()), random.below(sketch.rows.len()));
    let at = slot.in_series(i);
    match random.below(16) {
        0..=3 => sketch.values[at] = Some(wrong(random, slot.wanted.form, &sketch.plan)),
        4 => sketch.values[at] = None,
        5 => sketch.values[at] = Some(Vec::new()),
        6 => sketch.values[at] = Some(value(random, slot.wanted, &sketch.plan)),
        7 | 8 => put_stray(random, &mut sketch.values[at]),
        9 if i != j => sketch.values[HEADER_PAIRS + i * SERIES_PAIRS] = sketch.values[HEADER_PAIRS + j * SERIES_PAIRS].clone(),
        9 | 10 => other_period(random, &slots, sketch),
        11 => optional_alone(random, &slots, i, sketch),
        _ => break_rows(random, sketch.plan.n as u32, &mut sketch.rows[i]),
    }
}

fn put_stray(random: &mut Random, value: &mut Option<Vec<u8>>) {
    let said = value.get_or_insert_default();
    let at = random.within(0, said.len());
    said.splice(at..at, random.part(STRAYS).iter().copied());
}

/// Everywhere the same period, which the kind does not take or whose N the rows do not have.
fn other_period(random: &mut Random, slots: &[Slot], sketch: &mut Sketch) {
    let other = if random.one_in(2) { odd_period(random) } else { period(random, sketch.plan.kind).0 };
    let said = |slot: &&Slot| matches!(slot.wanted.form, Form::Covered | Form::TimeInterval);
    for slot in slots.iter().filter(said) {
        (0..sketch.rows.len()).for_each(|i| sketch.values[slot.in_series(i)] = Some(other.clone()));
    }
}

/// One value of an element that may be absent is turned around: an Original more or less, a codingScheme without its `v`.
fn optional_alone(random: &mut Random, slots: &[Slot], i: usize, sketch: &mut Sketch) {
    let optional: Vec<&Slot> = slots.iter().filter(|slot| slot.row.least == 0).collect();
    if optional.is_empty() {
        return;
    }
    let slot = *random.pick(&optional);
    let at = slot.in_series(i);
    sketch.values[at] = match sketch.values[at] {
        Some(_) => None,
        None => Some(value(random, slot.wanted, &sketch.plan)),
    };
}

fn break_rows(random: &mut Random, n: u32, rows: &mut Vec<(u32, i64)>) {
    let (at, other) = (random.below(rows.len()), random.below(rows.len()));
    let Some(&(pos, _)) = rows.get(at) else { return };
    match random.below(8) {
        0..=2 => rows[at].0 = *random.pick(&[0, 1, pos.wrapping_sub(1), pos.wrapping_add(1), n, n + 1, 100_000, pos.wrapping_add(65_536), u32::MAX]),
        3 | 4 => rows[at].1 = *random.pick(&[LARGEST, -LARGEST, LARGEST + 1, -LARGEST - 1, LARGEST + 1000, i64::MAX, i64::MIN, i64::MIN + 1]),
        5 => drop(rows.remove(at)),
        6 => rows.push((rows[rows.len() - 1].0.wrapping_add(1), 5)),
        _ => rows.swap(at, other),
    }
}

// ---------------------------------------------------------------- Into a text and tables

/// Bytes between values, which no pair shows.
const BETWEEN: &[&[u8]] = &[b"", b"", b"", b" ", b"\0", b"\xFF\xFE", b"<a b='", b"\n"];

/// The values in any order, with other bytes between them, at times one for several pairs; the rows of the series in any order, at times with gaps, at times
/// the same for two series.
fn laid(random: &mut Random, sketch: Sketch) -> Draft {
    let mut text = random.part(&[b"", b"?", b"\xC3"]).to_vec();
    let mut pairs = vec![0; 2 * sketch.values.len()];
    let (mixed, shared, between) = (random.one_in(4), random.one_in(4), random.part(BETWEEN));
    for pair in in_order(random, sketch.values.len(), mixed) {
        let Some(said) = &sketch.values[pair] else { continue };
        let same = if shared && !said.is_empty() { text.windows(said.len()).position(|part| part == said) } else { None };
        let start = same.unwrap_or(text.len());
        (pairs[2 * pair], pairs[2 * pair + 1]) = (start as u32, said.len() as u32);
        if same.is_none() {
            text.extend_from_slice(said);
            text.extend_from_slice(between);
        }
    }
    let count = sketch.rows.len() as u32;
    let mut draft = Draft { kind: sketch.plan.kind as u32, text, pairs, count, series: Vec::new(), positions: Vec::new(), amounts: Vec::new() };
    lay_rows(random, &sketch.rows, &mut draft);
    draft
}

fn in_order(random: &mut Random, many: usize, mixed: bool) -> Vec<usize> {
    let mut order: Vec<usize> = (0..many).collect();
    if mixed {
        (0..many).for_each(|at| order.swap(at, random.below(at + 1)));
    }
    order
}

fn lay_rows(random: &mut Random, all: &[Vec<(u32, i64)>], draft: &mut Draft) {
    let (mixed, gaps, shared) = (random.one_in(4), random.one_in(4), random.one_in(4));
    draft.series = (0..ROW * all.len()).map(|_| random.bits() as u32).collect();
    for i in in_order(random, all.len(), mixed) {
        if gaps && random.one_in(2) {
            draft.positions.push(0);
            draft.amounts.push(i64::MIN);
        }
        // The rows of an other series that begin alike, as far as they do: another content, right in kind 2 and at times in kind 1.
        let other = if shared { all[..i].iter().position(|rows| rows.len() >= all[i].len()) } else { None };
        let first = match other {
            Some(other) if !mixed => draft.series[other * ROW + FIRST],
            _ => draft.positions.len() as u32,
        };
        (draft.series[i * ROW + FIRST], draft.series[i * ROW + COUNT]) = (first, all[i].len() as u32);
        if first as usize == draft.positions.len() {
            draft.positions.extend(all[i].iter().map(|(pos, _)| *pos));
            draft.amounts.extend(all[i].iter().map(|(_, amount)| *amount));
        }
    }
}

// ---------------------------------------------------------------- What is lent is wrong

fn near(random: &mut Random, number: u32) -> u32 {
    *random.pick(&[number.wrapping_sub(1), number.wrapping_add(1), number.wrapping_add(1), 0, 1, number.wrapping_neg(), 1 << 31, u32::MAX])
}

fn break_draft(random: &mut Random, draft: &mut Draft) {
    let less = random.one_of(&[1, 1, 2, ROW]);
    let series = random.below(draft.series.len() / ROW) * ROW;
    match random.below(14) {
        0 => draft.kind = *random.pick(&[0, 1, 2, 3, 3, 4, 255, 257, 1 << 31, u32::MAX]),
        1 => draft.count = *random.pick(&[0, draft.count + 1, draft.count - 1, draft.count + 1, 1 << 16, 97_612_893, 1 << 31, u32::MAX]),
        2 => draft.pairs.truncate(draft.pairs.len() - less),
        3 => draft.series.truncate(draft.series.len() - less),
        4 => draft.positions.truncate(draft.positions.len().saturating_sub(less)),
        5 => draft.amounts.truncate(draft.amounts.len().saturating_sub(less)),
        6 => draft.text.truncate(draft.text.len().saturating_sub(less)),
        7 | 8 => draft.series[series + FIRST] = near(random, draft.series[series + FIRST]),
        9 | 10 => draft.series[series + COUNT] = near(random, draft.series[series + COUNT]),
        _ => other_pair(random, draft),
    }
}

/// About the end of the text, past it with and without a wrap, absent, empty, a byte off; often one that the kind has no value for.
fn other_pair(random: &mut Random, draft: &mut Draft) {
    let length = draft.text.len() as u32;
    let unknown = [0, 1, 15, 37, if draft.kind == 1 { 36 } else { 15 }];
    let pair = if random.one_in(3) { random.one_of(&unknown) } else { random.below(draft.pairs.len() / 2) };
    let (start, long) = (draft.pairs[2 * pair], draft.pairs[2 * pair + 1]);
    let (any, least) = (random.below(length as usize + 1) as u32, length.wrapping_sub(long));
    let other = *random.pick(&[
        (0, 0),
        (length, 0),
        (length.wrapping_sub(1), 0),
        (length.wrapping_add(1), 0),
        (length, 1),
        (length.wrapping_sub(1), 1),
        (0, length),
        (0, length.wrapping_add(1)),
        (least, long),
        (least.wrapping_add(1), long),
        (start, u32::MAX),
        (u32::MAX, 1),
        (u32::MAX, u32::MAX),
        (start.wrapping_neg(), start),
        (any, 0),
        (any, 3),
        (start.wrapping_add(1), long),
        (start, long.wrapping_sub(1)),
    ]);
    (draft.pairs[2 * pair], draft.pairs[2 * pair + 1]) = other;
}

/// What is lent past what is asked for would be refused.
fn lend(random: &mut Random, draft: &mut Draft) {
    if random.one_in(3) {
        draft.pairs.extend((0..random.one_of(&[1, 2, SERIES_CELLS - 1, SERIES_CELLS])).map(|_| u32::MAX));
    }
    if random.one_in(3) {
        draft.series.extend((0..random.one_of(&[1, ROW - 1, ROW])).map(|_| u32::MAX));
    }
    if random.one_in(3) {
        draft.positions.extend((0..random.within(1, 5)).map(|_| 0));
    }
    if random.one_in(3) {
        draft.amounts.extend((0..random.within(1, 5)).map(|_| i64::MIN));
    }
}

// ---------------------------------------------------------------- Long ones, and any numbers

/// A right one whose DocumentType has spaces before it or after it, until the document is just below, at or just over the longest length.
fn long_draft(random: &mut Random, sketch: Sketch) -> Draft {
    const DOCUMENT_TYPE: usize = 5;
    let mut draft = laid(random, sketch);
    let length = document(&draft).map_or(LONGEST, |doc| doc.len());
    let spaces = vec![b' '; (LONGEST - 1 + random.below(3)).saturating_sub(length)];
    let (start, long) = (draft.pairs[2 * DOCUMENT_TYPE] as usize, draft.pairs[2 * DOCUMENT_TYPE + 1] as usize);
    let said = draft.text[start..start + long].to_vec();
    (draft.pairs[2 * DOCUMENT_TYPE], draft.pairs[2 * DOCUMENT_TYPE + 1]) = (draft.text.len() as u32, (long + spaces.len()) as u32);
    draft.text.extend(if random.one_in(2) { [said, spaces].concat() } else { [spaces, said].concat() });
    draft
}

fn any_numbers(random: &mut Random) -> Draft {
    let few = |random: &mut Random, most: usize| -> Vec<u32> {
        let length = random.below(most);
        (0..length).map(|_| random.one_of(&[0, 0, 0, 1, 1, 2, 3, 12, 1 << 31]) as u32).collect()
    };
    let (length, series, positions) = (random.below(20), few(random, 4 * ROW), few(random, 9));
    let text = (0..length).map(|_| random.one_of(&[65, 65, 65, 38, 60, 10, 0, 255]) as u8).collect();
    let amounts = few(random, 9).iter().map(|amount| i64::from(*amount) - 2).collect();
    let (kind, count, pairs) = (random.below(4) as u32, random.below(4) as u32, few(random, HEADER_CELLS + 3 * SERIES_CELLS + 2));
    Draft { kind, text, pairs, count, series, positions, amounts }
}
