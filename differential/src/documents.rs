//! Documents made at random: right ones in all their spellings, each rule of 01 broken, damaged, cut.
//! A document depends on the seed and its number alone.

use crate::model::{Lengths, LONGEST, ROW};
use crate::random::Random;
use crate::respelling::{escaped, misspelled, respelled};
use crate::rows::{Row, Task, ROOTS};
use crate::spelling::{spelled, Style};
use crate::values::{changed, odd_period, period, right, spaced, wrong, Plan};

pub struct Document {
    pub bytes: Vec<u8>,
    pub lengths: Lengths,
}

#[derive(Clone)]
pub struct Tag {
    pub name: Vec<u8>,
    /// Names and values; a value has at most one sort of quote in it.
    pub attributes: Vec<(Vec<u8>, Vec<u8>)>,
    pub row: Option<&'static Row>,
}

/// A document before it is spelled out. A leaf is an empty tag or a start tag and its end tag.
#[derive(Clone)]
pub enum Piece {
    Open(Tag),
    Leaf(Tag),
    Close(Vec<u8>),
    Raw(Vec<u8>),
}

type Pieces = Vec<Piece>;

/// One document in `CUTS` is a right one cut off, `WINDOW` times the same one, each time a byte later.
const CUTS: u64 = 12;
const WINDOW: u64 = 4096;

pub fn document(seed: u64, number: u64) -> Document {
    if number % CUTS == 5 {
        return cut_document(seed, number / CUTS);
    }
    let random = &mut Random::new(seed, number);
    if random.one_in(5000) {
        return long_document(random);
    }
    if random.one_in(12) {
        return soup_document(random);
    }
    let kind = random.one_of(&[1, 2, 2, 2, 3, 3]);
    let (mut pieces, plan) = right_pieces(random, kind);
    let lengths = lengths_for(random, &pieces);
    break_rules(random, &mut pieces, &plan);
    let style = Style::any(random);
    let mut bytes = spelled(random, &pieces, &style);
    for _ in 0..random.one_of(&[0, 0, 0, 0, 0, 0, 0, 0, 0, 0, 0, 0, 1, 2, 3]) {
        damage(random, &mut bytes);
    }
    Document { bytes, lengths }
}

/// A right document of kind 1 or 2 in any spelling; a few are refused for their declaration or for a period that ends too late.
pub fn right_document(seed: u64, number: u64) -> Vec<u8> {
    let random = &mut Random::new(seed ^ 0x0072_6967_6874, number);
    let kind = random.one_of(&[1, 2, 2, 2]);
    let (pieces, _) = right_pieces(random, kind);
    let style = Style::any(random);
    spelled(random, &pieces, &style)
}

/// Windows 0 and 2 of six have a document of kind 2 each, windows 4 and 5 one of kind 3 each, cut from its front on. Windows 1 and 3 have the
/// same one of kind 1, which is longer: cut from its front on, then from its end back.
fn cut_document(seed: u64, turn: u64) -> Document {
    let window = turn / WINDOW;
    let kind = [2, 1, 2, 1, 3, 3][(window % 6) as usize];
    let random = &mut Random::new(seed ^ 0x0063_7574, if kind == 1 { window / 6 * 6 + 1 } else { window });
    let (pieces, _) = right_pieces(random, kind);
    let style = Style::any(random);
    let mut bytes = spelled(random, &pieces, &style);
    let step = (turn % WINDOW) as usize % (bytes.len() + 1);
    bytes.truncate(if window % 6 == 3 { bytes.len() - step } else { step });
    Document { bytes, lengths: enough(&pieces) }
}

/// A right document made longer, to just below, at or just over the longest length.
fn long_document(random: &mut Random) -> Document {
    let (pieces, _) = right_pieces(random, 2);
    let mut bytes = spelled(random, &pieces, &Style::plain());
    let length = LONGEST - 1 + random.below(3);
    let missing = length.saturating_sub(bytes.len());
    match random.below(6) {
        4 => lengthen_value(&mut bytes, &[b"&#", &vec![b'0'; missing.saturating_sub(5)][..], b"65;"].concat()),
        5 => lengthen_value(&mut bytes, &b"&#x20;".repeat(missing / 6)),
        0 => bytes.resize(length, b' '),
        1 => {
            bytes.extend_from_slice(b"<!--");
            bytes.resize((bytes.len() + missing).saturating_sub(7), b'x');
            bytes.extend_from_slice(b"-->");
        }
        2 => bytes.resize(length, b'x'),
        _ => drop(bytes.splice(0..0, vec![b'\n'; missing])),
    }
    let mut lengths = enough(&pieces);
    if random.one_in(4) {
        lengths.note = random.below(20);
    }
    Document { bytes, lengths }
}

/// Something in front of the first value of a single element.
fn lengthen_value(bytes: &mut Vec<u8>, more: &[u8]) {
    if let Some(at) = bytes.windows(4).position(|part| part == b" v=\"" || part == b" v='") {
        bytes.splice(at + 4..at + 4, more.iter().copied());
    }
}

// ---------------------------------------------------------------- Right documents

fn tag(random: &mut Random, row: &'static Row, plan: &Plan) -> Tag {
    let mut attributes = Vec::new();
    // Of these two the row shows where the spaces end.
    let seldom = if matches!(row.task, Task::BusinessType | Task::Direction) { 4 } else { 12 };
    for wanted in row.attributes {
        if !wanted.required && random.one_in(2) {
            continue;
        }
        let mut value = right(random, wanted.form, plan);
        if wanted.collapse && random.one_in(seldom) {
            value = spaced(random, &value);
        }
        attributes.push((wanted.name.as_bytes().to_vec(), value));
    }
    Tag { name: row.name.as_bytes().to_vec(), attributes, row: Some(row) }
}

fn right_pieces(random: &mut Random, kind: usize) -> (Pieces, Plan) {
    let (covered, n) = period(random, kind);
    let mut plan = Plan { kind, covered, n, identifications: Vec::new() };
    let mut pieces = Vec::new();
    let root = &ROOTS[kind - 1];
    let mut opened = tag(random, root, &plan);
    add_namespaces(random, &mut opened);
    pieces.push(Piece::Open(opened));
    let withdrawn = random.one_in(4);
    for row in root.children {
        match row.task {
            Task::Series if kind == 3 => add_constraints(random, row, &mut plan, withdrawn, &mut pieces),
            Task::Series => add_all_series(random, row, &mut plan, &mut pieces),
            Task::DocStatus if !withdrawn => {}
            _ => pieces.push(Piece::Leaf(tag(random, row, &plan))),
        }
    }
    pieces.push(Piece::Close(root.name.as_bytes().to_vec()));
    (pieces, plan)
}

/// Attributes that are passed over on the root: none, a few, or seldom many.
fn add_namespaces(random: &mut Random, root: &mut Tag) {
    const NAMES: &[&str] = &["xmlns", "xmlns:", "xmlns:xsi", "xmlns:v", "xsi:", "xsi:schemaLocation", "xsi:noNamespaceSchemaLocation", "xsi:v"];
    if random.one_in(3) {
        let from = random.below(NAMES.len());
        let to = random.within(from, NAMES.len());
        root.attributes.extend(NAMES[from..to].iter().map(|name| (name.as_bytes().to_vec(), b"urn:x >]]>".to_vec())));
    }
    if random.one_in(60) {
        let count = random.within(2, 120);
        root.attributes.extend((0..count).map(|i| (format!("xmlns:{}", i * 7919 % 1000).into_bytes(), Vec::new())));
    }
}

/// How seldom a document is made about as long as a document may be, by its series or its Intervals.
const SELDOM: usize = 20_000;

/// One to three series, in kind 1 at most two; seldom many.
fn add_all_series(random: &mut Random, row: &'static Row, plan: &mut Plan, pieces: &mut Pieces) {
    let few = random.one_of(&[1, 1, 2, 2, 3]);
    let some = if random.one_in(400) { random.within(20, 60) } else { few };
    let many = if random.one_in(SELDOM) { random.within(300, 1500) } else { some };
    for _ in 0..if plan.kind == 1 { few.min(2) } else { many } {
        add_series(random, row, plan, pieces);
    }
}

/// Kind 3: with DocStatus at most one series; else none, or one or two A77 of different Direction among B59, in any order.
fn add_constraints(random: &mut Random, row: &'static Row, plan: &mut Plan, withdrawn: bool, pieces: &mut Pieces) {
    let first = random.below(2);
    let mut series = vec![("A77", first), ("B59", random.below(2))];
    if random.one_in(2) {
        series.push(("A77", 1 - first));
    }
    let few = random.one_of(&[0, 0, 1, 1, 2]);
    for _ in 0..if random.one_in(400) { random.within(20, 60) } else { few } {
        series.push(("B59", random.below(2)));
    }
    for at in 0..series.len() {
        series.swap(at, random.below(at + 1));
    }
    series.truncate(if random.one_in(8) {
        0
    } else if withdrawn {
        1
    } else {
        series.len()
    });
    for (business, direction) in series {
        let from = pieces.len();
        add_series(random, row, plan, pieces);
        set_constraint(random, &mut pieces[from..], business, direction);
    }
}

const DIRECTIONS: [&str; 2] = ["A01", "A02"];

/// The first BusinessType and Direction of some pieces, with spaces at their ends or none.
fn set_constraint(random: &mut Random, pieces: &mut [Piece], business: &str, direction: usize) {
    for (task, said) in [(Task::BusinessType, business), (Task::Direction, DIRECTIONS[direction])] {
        if let Some(at) = places_of(pieces, task).first() {
            let value = if random.one_in(4) { spaced(random, said.as_bytes()) } else { said.as_bytes().to_vec() };
            set_value(&mut pieces[*at], value);
        }
    }
}

fn add_series(random: &mut Random, row: &'static Row, plan: &mut Plan, pieces: &mut Pieces) {
    pieces.push(Piece::Open(tag(random, row, plan)));
    let originals = random.one_in(3);
    for child in row.children {
        match child.task {
            Task::Period => add_period(random, child, plan, pieces),
            Task::Original if !originals => {}
            Task::Nothing | Task::Direction | Task::Area if child.least == 0 && random.one_in(2) => {}
            Task::SeriesIdentification => pieces.push(Piece::Leaf(new_identification(random, child, plan))),
            _ => pieces.push(Piece::Leaf(tag(random, child, plan))),
        }
    }
    pieces.push(Piece::Close(row.name.as_bytes().to_vec()));
}

/// A series identification that was not there before.
fn new_identification(random: &mut Random, row: &'static Row, plan: &mut Plan) -> Tag {
    let mut made = tag(random, row, plan);
    while plan.identifications.contains(&made.attributes[0].1) {
        made.attributes[0].1 = format!("s{}", random.below(1_000_000)).into_bytes();
    }
    plan.identifications.push(made.attributes[0].1.clone());
    made
}

fn add_period(random: &mut Random, row: &'static Row, plan: &Plan, pieces: &mut Pieces) {
    pieces.push(Piece::Open(tag(random, row, plan)));
    for child in row.children {
        if child.task == Task::Interval {
            add_intervals(random, child, plan, pieces);
        } else {
            pieces.push(Piece::Leaf(tag(random, child, plan)));
        }
    }
    pieces.push(Piece::Close(row.name.as_bytes().to_vec()));
}

/// All N Intervals in kind 1, a few that rise in kind 2, a few from 1 on in kind 3, at most 100; seldom many.
fn add_intervals(random: &mut Random, row: &'static Row, plan: &Plan, pieces: &mut Pieces) {
    let many = plan.kind == 2 && random.one_in(SELDOM);
    let few = match plan.kind {
        1 => plan.n,
        3 if random.one_in(12) => random.one_of(&[99, 100]),
        _ => random.one_of(&[1, 1, 2, 2, 3, 5]),
    };
    let mut left = if many { random.within(2000, 20_000) } else { few };
    let mut pos = 1;
    while left > 0 && pos <= plan.n {
        add_interval(random, row, plan, pos, pieces);
        pos = if many { pos + 1 } else { next_pos(random, plan, pos) };
        left -= 1;
    }
}

fn next_pos(random: &mut Random, plan: &Plan, pos: usize) -> usize {
    if plan.kind != 2 || random.one_in(3) {
        pos + 1
    } else if random.one_in(6) && pos < plan.n {
        plan.n
    } else {
        pos + random.within(1, 4)
    }
}

fn add_interval(random: &mut Random, row: &'static Row, plan: &Plan, pos: usize, pieces: &mut Pieces) {
    pieces.push(Piece::Open(tag(random, row, plan)));
    for child in row.children {
        let mut made = tag(random, child, plan);
        if child.task == Task::Pos {
            let value = pos.to_string().into_bytes();
            made.attributes[0].1 = if random.one_in(20) { spaced(random, &value) } else { value };
        }
        pieces.push(Piece::Leaf(made));
    }
    pieces.push(Piece::Close(row.name.as_bytes().to_vec()));
}

// ---------------------------------------------------------------- What is lent

fn starts_of(pieces: &[Piece], task: Task) -> usize {
    let is = |piece: &&Piece| matches!(piece, Piece::Open(tag) if tag.row.is_some_and(|row| row.task == task));
    pieces.iter().filter(is).count()
}

fn enough(pieces: &[Piece]) -> Lengths {
    let intervals = starts_of(pieces, Task::Interval);
    Lengths { series: ROW * starts_of(pieces, Task::Series), positions: intervals, amounts: intervals, note: 16 }
}

/// Tables that are enough, just enough, one short, or of any length; all lengths for themselves.
fn lengths_for(random: &mut Random, pieces: &[Piece]) -> Lengths {
    let least = enough(pieces);
    let all_enough = random.one_in(2);
    let mut around = |need: usize, step: usize| match random.below(12) {
        _ if all_enough => need + random.below(4 * step),
        0 => need.saturating_sub(1 + random.below(step)),
        1 => random.below(need + 2),
        2 => random.below(3 * ROW),
        3 => need,
        _ => need + random.below(20),
    };
    let (series, positions, amounts) = (around(least.series, ROW), around(least.positions, 3), around(least.amounts, 3));
    let note = if random.one_in(16) { random.below(41) } else { random.within(16, 40) };
    Lengths { series, positions, amounts, note }
}

/// The shape that is asked for: the old one, or the new one by its number or by another.
pub fn shape(seed: u64, number: u64) -> u32 {
    *Random::new(seed ^ 0x7368_6170, number).pick(&[0, 0, 1, 1, 1, 2, 100, 1 << 31, u32::MAX])
}

// ---------------------------------------------------------------- Rules broken

/// Most often one rule is broken; with more, an item may have several faults.
fn break_rules(random: &mut Random, pieces: &mut Pieces, plan: &Plan) {
    for _ in 0..random.one_of(&[0, 0, 0, 1, 1, 1, 1, 1, 1, 1, 2, 3]) {
        break_rule(random, pieces, plan);
    }
}

fn break_rule(random: &mut Random, pieces: &mut Pieces, plan: &Plan) {
    if pieces.is_empty() {
        return;
    }
    if plan.kind == 3 && random.one_in(3) {
        return break_constraint(random, pieces, plan);
    }
    match random.below(22) {
        20 | 21 => break_reference(random, pieces),
        0..=5 => break_value(random, pieces, plan),
        6..=8 => break_attributes(random, pieces, plan),
        9..=13 => break_structure(random, pieces, plan),
        14..=16 => break_relation(random, pieces, plan),
        17 => break_characters(random, pieces),
        _ => insert_item(random, pieces),
    }
}

/// The place of a tag; those of Intervals, which are most of them, are taken less often.
fn tag_place(random: &mut Random, pieces: &[Piece]) -> Option<usize> {
    let intervals = random.one_in(4);
    let wanted = |piece: &Piece| match piece {
        Piece::Open(tag) | Piece::Leaf(tag) => intervals == tag.row.is_some_and(|row| matches!(row.task, Task::Interval | Task::Pos | Task::Qty)),
        _ => false,
    };
    let places: Vec<usize> = (0..pieces.len()).filter(|at| wanted(&pieces[*at])).collect();
    if places.is_empty() {
        None
    } else {
        Some(*random.pick(&places))
    }
}

fn any_tag<'p>(random: &mut Random, pieces: &'p mut [Piece]) -> Option<&'p mut Tag> {
    let at = tag_place(random, pieces)?;
    tag_of(&mut pieces[at])
}

fn tag_of(piece: &mut Piece) -> Option<&mut Tag> {
    match piece {
        Piece::Open(tag) | Piece::Leaf(tag) => Some(tag),
        _ => None,
    }
}

fn break_value(random: &mut Random, pieces: &mut [Piece], plan: &Plan) {
    let Some(tag) = any_tag(random, pieces) else { return };
    let Some(row) = tag.row else { return };
    let both = random.one_in(4);
    for at in 0..row.attributes.len().min(tag.attributes.len()) {
        if both || random.below(row.attributes.len()) == at {
            tag.attributes[at].1 = wrong(random, row.attributes[at].form, plan);
        }
    }
}

/// In a value of any attribute, one that is passed over or unknown too, something that is no reference or says another thing.
fn break_reference(random: &mut Random, pieces: &mut [Piece]) {
    let Some(tag) = any_tag(random, pieces) else { return };
    if tag.attributes.is_empty() {
        return;
    }
    let at = random.below(tag.attributes.len());
    tag.attributes[at].1 = misspelled(random, &tag.attributes[at].1);
}

const UNKNOWN: &[&str] = &[
    "w", "V", "v.", "v:", "codingScheme", "CodingScheme", "codingscheme", "xmlns", "xmlns:a", "xsi:type", "xsi", "xmlnsx", "xml:lang", "_", "a:b:c",
    "DtdBDEWNachrichtenVersion", "dtdBDEWNachrichtenVersion", "v", "DtdVersion", "DtdRelease", "dtdVersion", "DtdReleas",
];

fn break_attributes(random: &mut Random, pieces: &mut [Piece], plan: &Plan) {
    let Some(tag) = any_tag(random, pieces) else { return };
    let count = tag.attributes.len();
    match random.below(6) {
        0 | 1 if count > 0 => drop(tag.attributes.remove(random.below(count))),
        2 if count > 0 => tag.attributes[random.below(count)].0 = random.pick(UNKNOWN).as_bytes().to_vec(),
        3 if count > 0 => {
            let twice = tag.attributes[random.below(count)].clone();
            tag.attributes.insert(random.below(count + 1), twice);
        }
        4 => add_many(random, tag),
        _ => tag.attributes.push((random.pick(UNKNOWN).as_bytes().to_vec(), b"1".to_vec())),
    }
    if random.one_in(4) {
        if let (Some(row), Some(last)) = (tag.row, tag.attributes.last_mut()) {
            last.1 = row.attributes.first().map_or(b"1".to_vec(), |wanted| wrong(random, wanted.form, plan));
        }
    }
}

/// Many attributes, one of them perhaps twice: near each other or far.
fn add_many(random: &mut Random, tag: &mut Tag) {
    let count = random.one_of(&[2, 3, 4, 8, 17, 40, 150]);
    let start = random.below(500);
    for i in 0..count {
        tag.attributes.push((format!("a{}", (start + i * 37) % 1009).into_bytes(), Vec::new()));
    }
    if random.one_in(2) {
        let twice = random.pick(&tag.attributes).clone();
        tag.attributes.insert(random.below(tag.attributes.len() + 1), twice);
    }
}

fn any_name(random: &mut Random) -> Vec<u8> {
    let mut row = random.pick(&ROOTS);
    while !row.children.is_empty() && !random.one_in(6) {
        row = random.pick(row.children);
    }
    row.name.as_bytes().to_vec()
}

fn odd_name(random: &mut Random, name: &[u8]) -> Vec<u8> {
    match random.below(6) {
        0 => [b"x:", name].concat(),
        1 => name.to_ascii_lowercase(),
        2 => name[..name.len().saturating_sub(1)].to_vec(),
        3 => [name, b"x"].concat(),
        4 => changed(random, name),
        _ => any_name(random),
    }
}

/// The piece at `at` with all that is inside it.
fn whole(pieces: &[Piece], at: usize) -> std::ops::Range<usize> {
    let mut depth = 0;
    for (offset, piece) in pieces[at..].iter().enumerate() {
        match piece {
            Piece::Open(_) => depth += 1,
            Piece::Close(_) => depth -= 1,
            _ => {}
        }
        if depth <= 0 {
            return at..at + offset + 1;
        }
    }
    at..pieces.len()
}

/// The place of a piece: any, or that of a tag outside of Intervals.
fn any_place(random: &mut Random, pieces: &[Piece]) -> usize {
    if random.one_in(4) {
        return random.below(pieces.len());
    }
    tag_place(random, pieces).unwrap_or(0)
}

fn break_structure(random: &mut Random, pieces: &mut Pieces, plan: &Plan) {
    let at = any_place(random, pieces);
    let range = whole(pieces, at);
    match random.below(13) {
        0 => drop(pieces.remove(at)),
        1 => drop(pieces.drain(range)),
        2 => {
            let copy: Pieces = pieces[range.clone()].to_vec();
            pieces.splice(range.end..range.end, copy);
        }
        3 => {
            let copy = pieces[at].clone();
            pieces.insert(random.within(0, pieces.len()), copy);
        }
        4 => {
            let other = any_place(random, pieces);
            pieces.swap(at, other);
        }
        5 if at + 1 < pieces.len() => pieces.swap(at, at + 1),
        6 => {
            let moved: Pieces = pieces.drain(range).collect();
            let to = if pieces.is_empty() { 0 } else { any_place(random, pieces) };
            pieces.splice(to..to, moved);
        }
        7 => pieces.truncate(at),
        8 => rename(random, &mut pieces[at]),
        9 => close_otherwise(random, pieces),
        10 => open_or_shut(&mut pieces[at]),
        11 => insert_element(random, pieces, plan, at),
        _ => double_root(random, pieces),
    }
}

fn rename(random: &mut Random, piece: &mut Piece) {
    match piece {
        Piece::Open(tag) | Piece::Leaf(tag) => tag.name = odd_name(random, &tag.name),
        Piece::Close(name) => *name = odd_name(random, name),
        Piece::Raw(_) => {}
    }
}

fn close_otherwise(random: &mut Random, pieces: &mut Pieces) {
    let places: Vec<usize> = (0..pieces.len()).filter(|at| matches!(pieces[*at], Piece::Close(_))).collect();
    if places.is_empty() {
        return;
    }
    let at = *random.pick(&places);
    match random.below(3) {
        0 => drop(pieces.remove(at)),
        1 => pieces.insert(at, Piece::Close(any_name(random))),
        _ => rename(random, &mut pieces[at]),
    }
}

/// A container as an empty tag, or a single value that is never closed.
fn open_or_shut(piece: &mut Piece) {
    *piece = match piece.clone() {
        Piece::Open(tag) => Piece::Leaf(tag),
        Piece::Leaf(tag) => Piece::Open(tag),
        other => other,
    };
}

fn insert_element(random: &mut Random, pieces: &mut Pieces, plan: &Plan, at: usize) {
    let mut row = random.pick(&ROOTS);
    while !row.children.is_empty() && !random.one_in(4) {
        row = random.pick(row.children);
    }
    let made = tag(random, row, plan);
    pieces.insert(at, if random.one_in(2) { Piece::Leaf(made) } else { Piece::Open(made) });
}

fn double_root(random: &mut Random, pieces: &mut Pieces) {
    if random.one_in(2) {
        let copy = pieces.clone();
        pieces.extend(copy);
    } else {
        let copy = pieces[random.below(pieces.len())].clone();
        pieces.push(copy);
    }
}

// ---------------------------------------------------------------- Values against each other

fn places_of(pieces: &[Piece], task: Task) -> Vec<usize> {
    let is = |piece: &Piece| match piece {
        Piece::Open(tag) | Piece::Leaf(tag) => tag.row.is_some_and(|row| row.task == task),
        _ => false,
    };
    (0..pieces.len()).filter(|at| is(&pieces[*at])).collect()
}

fn set_value(piece: &mut Piece, value: Vec<u8>) {
    if let Some(first) = tag_of(piece).and_then(|tag| tag.attributes.first_mut()) {
        first.1 = value;
    }
}

fn break_relation(random: &mut Random, pieces: &mut Pieces, plan: &Plan) {
    match random.below(7) {
        0 => break_pos(random, pieces, plan),
        1 => change_count(random, pieces, plan),
        2 | 6 => use_again(random, pieces, plan),
        3 => halve_originals(random, pieces),
        4 => break_covered(random, pieces),
        _ => crowd(random, pieces, plan),
    }
}

/// Kind 3: another BusinessType or Direction, one DocStatus more or less, a series left out, or more of them.
fn break_constraint(random: &mut Random, pieces: &mut Pieces, plan: &Plan) {
    let starts = places_of(pieces, Task::Series);
    match random.below(6) {
        0 => {
            let places = places_of(pieces, Task::BusinessType);
            let said = random.pick(&["A77", "A77", "B59", "A01"]);
            if !places.is_empty() {
                set_value(&mut pieces[*random.pick(&places)], said.as_bytes().to_vec());
            }
        }
        1 => {
            let said = random.below(2);
            for at in places_of(pieces, Task::Direction) {
                set_value(&mut pieces[at], DIRECTIONS[said].as_bytes().to_vec());
            }
        }
        2 => turn_status(random, pieces, plan, starts.first().copied()),
        3 if !starts.is_empty() => {
            let range = whole(pieces, *random.pick(&starts));
            pieces.drain(range);
        }
        _ => add_changes(random, pieces, plan),
    }
}

/// The DocStatus goes, or one comes before the first series or the root's end.
fn turn_status(random: &mut Random, pieces: &mut Pieces, plan: &Plan, first: Option<usize>) {
    let there = places_of(pieces, Task::DocStatus);
    if let Some(at) = there.first() {
        pieces.remove(*at);
    } else if let Some(row) = ROOTS[2].children.iter().find(|row| row.task == Task::DocStatus) {
        let at = first.unwrap_or(pieces.len().saturating_sub(1));
        pieces.insert(at, Piece::Leaf(tag(random, row, plan)));
    }
}

/// One to three more series of A77 before the root's end.
fn add_changes(random: &mut Random, pieces: &mut Pieces, plan: &Plan) {
    let Some(row) = ROOTS[2].children.last() else { return };
    let mut others = Plan { covered: plan.covered.clone(), identifications: plan.identifications.clone(), ..*plan };
    for _ in 0..random.within(1, 3) {
        let mut more = Vec::new();
        add_series(random, row, &mut others, &mut more);
        let direction = random.below(2);
        set_constraint(random, &mut more, "A77", direction);
        let at = pieces.len().saturating_sub(1);
        pieces.splice(at..at, more);
    }
}

fn break_pos(random: &mut Random, pieces: &mut [Piece], plan: &Plan) {
    let places = places_of(pieces, Task::Pos);
    if places.is_empty() {
        return;
    }
    let edge = if random.one_in(2) { 0 } else { places.len() - 1 };
    let at = if random.one_in(2) { edge } else { random.below(places.len()) };
    let values = [0, 1, 2, 3, plan.n, plan.n + 1, plan.n.saturating_sub(1), at, at + 1, at + 2, 99_999, 100, 101];
    let value = random.one_of(&values).to_string().into_bytes();
    set_value(&mut pieces[places[at]], value);
}

/// Intervals left out or more of them at the end of a Period, with the Pos that would follow.
fn change_count(random: &mut Random, pieces: &mut Pieces, plan: &Plan) {
    let starts = places_of(pieces, Task::Interval);
    let Some(last) = starts.last().copied() else { return };
    if random.one_in(2) {
        let range = whole(pieces, last);
        pieces.drain(range);
        return;
    }
    let Some(row) = ROOTS[plan.kind - 1].children.last().and_then(|series| series.children.last()).and_then(|period| period.children.last()) else {
        return;
    };
    let mut more = Vec::new();
    for i in 0..random.one_of(&[1, 1, 4, 5, 8, 9, 10]) {
        add_interval(random, row, plan, plan.n + 1 + i, &mut more);
    }
    let end = whole(pieces, last).end;
    pieces.splice(end..end, more);
}

/// As many Intervals as the structure table or N only just takes, or no longer.
fn crowd(random: &mut Random, pieces: &mut Pieces, plan: &Plan) {
    let starts = places_of(pieces, Task::Interval);
    let (Some(first), Some(last)) = (starts.first().copied(), starts.last().copied()) else { return };
    let end = whole(pieces, last).end;
    let Some(Piece::Open(Tag { row: Some(row), .. })) = pieces.get(first).cloned() else { return };
    let mut all = Vec::new();
    let n = plan.n.min(110);
    for pos in 1..=random.one_of(&[n - 1, n, n + 1, n + 1, 90, 91, 92, 93, 95, 96, 97, 100, 101, 102]) {
        add_interval(random, row, plan, pos, &mut all);
    }
    pieces.splice(first..end, all);
}

fn use_again(random: &mut Random, pieces: &mut [Piece], plan: &Plan) {
    let places = places_of(pieces, Task::SeriesIdentification);
    if places.is_empty() || plan.identifications.is_empty() {
        return;
    }
    // Of what has references more is looked at: what they say shows here alone.
    let referring: Vec<&Vec<u8>> = plan.identifications.iter().filter(|value| value.contains(&b'&')).collect();
    let mut value = if referring.is_empty() { random.pick(&plan.identifications).clone() } else { random.pick(&referring).to_vec() };
    match random.below(9) {
        0 => value.extend_from_slice(random.part(&[b" ", b"&#32;", b"&#x20;"])),
        1 => value.make_ascii_lowercase(),
        2 => value.truncate(0),
        3 => value = escaped(&respelled(random, &value, 3)),
        4..=6 => {
            let rarely = random.within(1, 4);
            value = respelled(random, &value, rarely);
        }
        _ => {}
    }
    let at = *random.pick(&places);
    set_value(&mut pieces[at], value);
}

fn halve_originals(random: &mut Random, pieces: &mut Pieces) {
    for _ in 0..random.within(1, 5) {
        let places = places_of(pieces, Task::Original);
        if !places.is_empty() {
            pieces.remove(*random.pick(&places));
        }
    }
}

/// Another TimePeriodCovered, alone or in each TimeInterval too.
fn break_covered(random: &mut Random, pieces: &mut [Piece]) {
    let value = odd_period(random);
    let everywhere = random.one_in(2);
    for piece in pieces.iter_mut() {
        let Some(tag) = tag_of(piece) else { continue };
        if tag.name == b"TimePeriodCovered" || everywhere && tag.name == b"TimeInterval" {
            set_value(piece, value.clone());
        }
    }
}

// ---------------------------------------------------------------- Items

/// Sequences at the edges of UTF-8 and of XML's characters, right and wrong.
const SEQUENCES: &[&[u8]] = &[
    b"\x80", b"\xBF", b"\xC0\x80", b"\xC1\xBF", b"\xC2\x80", b"\xC2\x7F", b"\xC2\xC0", b"\xDF\xBF", b"\xDF", b"\xE0\x9F\xBF", b"\xE0\xA0\x80",
    b"\xE0\xA0", b"\xE1\x80\x80", b"\xE1\x80\x7F", b"\xEC\xBF\xBF", b"\xED\x9F\xBF", b"\xED\xA0\x80", b"\xED\xBF\xBF", b"\xEE\x80\x80",
    b"\xEF\xBB\xBF", b"\xEF\xBF\xBD", b"\xEF\xBF\xBE", b"\xEF\xBF\xBF", b"\xEF\xBF", b"\xF0\x8F\xBF\xBF", b"\xF0\x90\x80\x80", b"\xF0\x9F\xBF\xBE",
    b"\xF0\x90\x80", b"\xF1\x80\x80\x80", b"\xF3\xBF\xBF\xBF", b"\xF3\xBF\xBF\xC0", b"\xF4\x8F\xBF\xBF", b"\xF4\x90\x80\x80", b"\xF5\x80\x80\x80",
    b"\xFE", b"\xFF", b"\x00", b"\x01", b"\x08", b"\x0B", b"\x0C", b"\x0E", b"\x1F", b"\x7F", b"\t", b"\r", b"\n", b"&", b"<", b">", b"]]>",
    b"&amp;", b"&#38;lt;", b"&#xD800;",
];

fn some_characters(random: &mut Random) -> Vec<u8> {
    if random.one_in(3) {
        (0..random.within(1, 4)).map(|_| random.byte() | 128).collect()
    } else {
        random.pick(SEQUENCES).to_vec()
    }
}

/// Such a sequence in a value, a comment or a text.
fn break_characters(random: &mut Random, pieces: &mut Pieces) {
    let sequence = some_characters(random);
    if random.one_in(3) {
        let raw = if random.one_in(2) { [b"<!--a", &sequence[..], b"b-->"].concat() } else { [b" ", &sequence[..], b" "].concat() };
        pieces.insert(random.within(0, pieces.len()), Piece::Raw(raw));
        return;
    }
    for piece in pieces.iter_mut() {
        let Some(tag) = tag_of(piece) else { continue };
        let free = tag.row.is_some_and(|row| row.name.ends_with("Identification") && row.attributes.len() == 1);
        if free && random.one_in(3) && tag.attributes.len() == 1 {
            tag.attributes[0].1 = [b"a", &sequence[..]].concat();
            return;
        }
    }
}

const ITEMS: &[&str] = &[
    "abc", "abc &", "&amp;", "&", "]]>", "]]", "]>", " ]] > ", "\u{FEFF}", "ä", "<", "</", "<!", "<!-", "<!--", "<!-->", "<!--->", "<!---->",
    "<!--->-->", "<!-- --->", "<!-- -- -->", "<!-- & ]]> < > -->", "<!--a-b- -->", "<!--\u{FFFD}-->", "<![CDATA[x]]>", "<!DOCTYPE Kostenblatt>",
    "<?xml version=\"1.0\"?>", "<?xml?>", "<?pi x?>", "<? ?>", "<Qty v=\"1\"/>", "<Qty v=\"1\"></Qty>", "< Qty v=\"1\"/>", "<Qty v=\"1\"/ >",
    "<Qty v=1/>", "<Qty v/>", "<Qty v=\"1\"w=\"2\"/>", "<Qty v=\"1'/>", "<Qty v=\"a<b\"/>", "<Qty v=\"a&b\"/>", "<Qty v=\"1&#50;3\"/>",
    "<a b=\"&amp;\"/>", "<a b='&bad;'/>", "<a&amp;b/>", "</a&amp;>", "<a b&#61;'1'/>", "<a b=&quot;1&quot;/>", "<Qty v='&am'p;'/>",
    "<Qty v=\"&#6\"5;/>", "<Qty v=\"&lt<;\"/>", "<Qty v=\"1&", "<Qty v=\"1&#5", "&#32;", "&lt;Qty/>", "<Qty v=\"a\tb\"/>", "<Qty v=\"a\nb\"/>",
    "<Qty v=\"a>b]]>\"/>", "<Qty v = '1' />", "<Qty\tv\n=\r'1'\n>", "</Qty v=\"1\">", "</ Qty>", "</Qty >", "</Qty\n>", "</Qty/>", "</>", "<>",
    "</1>", "<:a/>", "<-a/>", "<1a/>", "<a:b:c/>", "<a:/>", "<_/>", "<ä/>", "<a ä=\"\"/>", "<Qty :v=\"1\"/>", "<Qty v=\"1\" v=\"1\"/>",
    "<x v='1' w='2' v='3'/>", "<Qty=\"1\"/>", "<Qty v==\"1\"/>", "<Qty v=\"1\"", "<Qty v=\"1", "<Qty", "<Qty /", "<Interval/>", "<Period/>",
    "<CostTimeSeries/>", "<NetworkConstraintTimeSeries/>", "<NetworkConstraintTimeSeries a=''>", "<DocStatus v=\"A13\"/>",
    "<ScheduleTimeSeries a=\"\">", "<Interval a='1'>", "<Period a='1'>", "</Interval>", "</Period>",
];

fn insert_item(random: &mut Random, pieces: &mut Pieces) {
    let raw = match random.below(4) {
        0 => soup(random),
        1 => b" \t\r\n"[..random.within(1, 4)].to_vec(),
        _ => random.pick(ITEMS).as_bytes().to_vec(),
    };
    let at = if random.one_in(3) { random.pick(&[0, pieces.len()]).to_owned() } else { any_place(random, pieces) };
    pieces.insert(at, Piece::Raw(raw));
}

const CRUMBS: &[&[u8]] = &[
    b"<", b">", b"/", b"</", b"/>", b"=", b"\"", b"'", b" ", b" ", b"\n", b"\t", b"v", b" v=\"1\"", b" w='2'", b"<!--", b"--", b"-->", b"-", b"!",
    b"?", b"&", b"&amp;", b"&#", b"x41;", b"&#65;", b"&#x41;", b"&lt", b";", b"#", b"]]>", b"]", b"<?xml", b" version=\"1.0\"", b" encoding='utf-8'",
    b"?>", b"\xEF\xBB\xBF", b"Kostenblatt", b"<Kostenblatt DtdBDEWNachrichtenVersion=\"1.0\">", b"</Kostenblatt>", b"Qty", b"a", b"0", b":", b".",
    b"\xC3\xA4", b"\xE2\x82\xAC", b"\x80", b"<NetworkConstraintDocument DtdVersion=\"4\" DtdRelease=\"1\">", b"</NetworkConstraintDocument>",
    b" DtdVersion=\"4\"", b" DtdRelease='1'", b"<NetworkConstraintDocument", b"\x00", b"DtdBDEWNachrichtenVersion",
    b"<DocumentIdentification v=\"\"", b" xmlns=\"\"", b" xsi:a=''", b"1.0",
];

fn soup(random: &mut Random) -> Vec<u8> {
    let mut bytes = Vec::new();
    for _ in 0..random.within(1, 10) {
        bytes.extend_from_slice(random.part(CRUMBS));
    }
    bytes
}

/// A short document of crumbs, sometimes after a root that is right.
fn soup_document(random: &mut Random) -> Document {
    let mut bytes = Vec::new();
    if random.one_in(2) {
        bytes.extend_from_slice(b"<Kostenblatt DtdBDEWNachrichtenVersion=\"1.0\">");
    } else if random.one_in(2) {
        bytes.extend_from_slice(b"<?xml version=\"1.0\"");
    }
    bytes.extend(soup(random));
    let lengths = Lengths { series: random.below(20), positions: random.below(6), amounts: random.below(6), note: random.below(41) };
    Document { bytes, lengths }
}

// ---------------------------------------------------------------- Damage

fn damage(random: &mut Random, bytes: &mut Vec<u8>) {
    if bytes.is_empty() {
        return;
    }
    let at = random.below(bytes.len());
    let end = (at + random.within(1, 60)).min(bytes.len());
    match random.below(9) {
        0 => bytes[at] = random.byte(),
        1 => bytes[at] = *random.pick(b"<>/=\"' &;#x-!?]:.\t\n0aA"),
        2 => bytes.insert(at, random.byte()),
        3 => bytes.insert(at, *random.pick(b"<>/=\"' &;#x-!?]:.\t\n0aA")),
        4 => drop(bytes.remove(at)),
        5 => change_digit(random, bytes, at),
        6 => drop(bytes.drain(at..end)),
        7 => {
            let copy = bytes[at..end].to_vec();
            let to = if random.one_in(2) { end } else { random.below(bytes.len()) };
            bytes.splice(to..to, copy);
        }
        _ => bytes[at] ^= 1 << random.below(8),
    }
}

/// The first digit from a place on becomes another one.
fn change_digit(random: &mut Random, bytes: &mut [u8], from: usize) {
    if let Some(digit) = bytes[from..].iter_mut().find(|b| b.is_ascii_digit()) {
        *digit = b'0' + random.below(10) as u8;
    }
}
