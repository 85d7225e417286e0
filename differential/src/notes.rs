//! Notes of both shapes, read and converted by the proved library and by the model.

use crate::library;
use differential::model::{self, Lengths, LEAST_CONVERTED, NEW_MARK, OLD};
use differential::random::Random;

const NEW: u32 = 1;

/// The numbers as far as there are cells, and 0 in the cells after them.
fn in_cells(numbers: &[u32], cells: usize) -> Vec<u32> {
    (0..cells).map(|at| numbers.get(at).copied().unwrap_or(0)).collect()
}

pub fn read_alike(note: &[u8], cells: usize) -> bool {
    let (refusal, six) = model::read_note(note);
    library::read_note(note, cells) == Ok((refusal, in_cells(&six, cells)))
}

pub fn converted_alike(note: &[u8], shape: u32, room: usize, cells: usize) -> bool {
    let (answer, out) = model::convert(note, shape, room);
    library::convert(note, shape, room, cells) == Ok((answer[0], in_cells(&answer, cells), out))
}

/// What the library makes of a note in a shape.
fn turned(note: &[u8], shape: u32) -> Option<Vec<u8>> {
    let (refusal, answer, out) = library::convert(note, shape, LEAST_CONVERTED, 2).ok()?;
    (refusal == 0).then(|| out[..answer[1] as usize].to_vec())
}

/// "Old to new to old gives the same bytes; new to old to new does exactly when the depth is 0." What is no note is turned into nothing.
pub fn there_and_back(note: &[u8]) -> bool {
    let (refusal, six) = model::read_note(note);
    let is_new = note.first() == Some(&(NEW_MARK as u8));
    let (there, back) = if is_new { (OLD, NEW) } else { (NEW, OLD) };
    match turned(note, there).and_then(|other| turned(&other, back)) {
        None => refusal != 0,
        Some(again) => refusal == 0 && (again == note) == (six[5] == 0),
    }
}

/// Both readers and both converters; what differs, where anything does.
fn difference(note: &[u8], shape: u32, room: usize, cells: usize) -> Option<&'static str> {
    if !read_alike(note, cells) {
        Some("read")
    } else if !converted_alike(note, shape, room, cells) {
        Some("converted")
    } else if !there_and_back(note) {
        Some("converted there and back")
    } else {
        None
    }
}

fn is_same(note: &[u8], shape: u32, room: usize, cells: usize) -> bool {
    let Some(what) = difference(note, shape, room, cells) else { return true };
    println!("difference, {what}: note {note:02X?}, shape {shape}, room {room}, {cells} cells");
    println!("model:   {:?}, {:?}", model::read_note(note), model::convert(note, shape, room));
    println!("library: {:?}, {:?}", library::read_note(note, cells), library::convert(note, shape, room, cells));
    false
}

/// How many bytes there were that may be a note, and how many of them are an old or a new one.
#[derive(Default)]
pub struct Tally {
    pub all: u64,
    pub old: u64,
    pub new: u64,
}

/// A few bytes that may be a note.
pub fn same(seed: u64, number: u64, tally: &mut Tally) -> bool {
    let random = &mut Random::new(seed ^ 0x6E6F_7465, number);
    let note = some_note(random);
    tally.all += 1;
    if model::read_note(&note).0 == 0 {
        *(if note.first() == Some(&(NEW_MARK as u8)) { &mut tally.new } else { &mut tally.old }) += 1;
    }
    let shape = *random.pick(&[0, 0, 1, 1, 2, 100, u32::MAX]);
    let room = if random.one_in(4) { random.below(31) } else { random.within(LEAST_CONVERTED, 30) };
    is_same(&note, shape, room, random.below(9))
}

fn some_note(random: &mut Random) -> Vec<u8> {
    let mut note = Vec::new();
    let numbers = random.one_of(&[0, 1, 4, 5, 5, 5, 5, 5, 6, 7, 7, 7, 7, 7, 8]);
    for at in 0..numbers {
        // Seven with another first number, and five with this one, are seldom.
        let is_mark = if at == 0 { random.one_in(6) != (numbers == 7) } else { random.one_in(12) };
        if is_mark {
            note.push(NEW_MARK as u8);
        } else {
            put_groups(random, &mut note);
        }
    }
    if random.one_in(6) {
        note.resize(note.len() + random.below(3), 0);
    }
    if random.one_in(6) {
        note.truncate(random.below(note.len() + 1));
    }
    note
}

/// A number of one to four groups, the last of which may be 0.
fn put_groups(random: &mut Random, note: &mut Vec<u8>) {
    let groups = random.one_of(&[1, 1, 1, 1, 1, 1, 2, 2, 2, 3, 3, 4]);
    for group in 1..=groups {
        let any = random.byte() & 0x7F;
        let low = *random.pick(&[0, 1, 0x7F, any, any, any]);
        note.push(if group < groups { low | 0x80 } else { low });
    }
}

/// Numbers as bytes: at the edges of 100, of a group and of 2^21; then three that are not shortest, 100 among them, and 2^21 itself.
const NUMBERS: [&[u8]; 13] = [
    &[0],
    &[3],
    &[99],
    &[100],
    &[101],
    &[0x7F],
    &[0x80, 1],
    &[0xE4, 1],
    &[0xFF, 0xFF, 0x7F],
    &[0x80, 0],
    &[0xE4, 0],
    &[0xE4, 0x80, 0],
    &[0x80, 0x80, 0x80, 1],
];

/// `count` numbers, each 5 but for these.
fn spelled(count: usize, but: &[(usize, &[u8])]) -> Vec<u8> {
    let number = |at| but.iter().find(|(k, _)| *k == at).map_or(&[5][..], |(_, number)| *number);
    (0..count).flat_map(|at| number(at).to_vec()).collect()
}

/// Notes that are right or nearly right: none to nine numbers, the first two each of each sort, then any of the others, with a byte more or less.
fn edge_notes() -> Vec<Vec<u8>> {
    let mut notes = Vec::new();
    for count in 0..=9 {
        for (first, second) in NUMBERS.iter().flat_map(|first| NUMBERS.map(|second| (*first, second))) {
            notes.push(spelled(count, &[(0, first), (1, second)]));
        }
        for (at, other) in (2..count).flat_map(|at| NUMBERS.map(|other| (at, other))) {
            notes.push(spelled(count, &[(at, other)]));
            notes.push(spelled(count, &[(0, &[NEW_MARK as u8]), (at, other)]));
        }
    }
    let more = notes.iter().map(|note| [&note[..], &[0]].concat());
    let less = notes.iter().map(|note| note[..note.len().saturating_sub(1)].to_vec());
    let mut all: Vec<Vec<u8>> = more.chain(less).collect();
    all.append(&mut notes);
    all.sort();
    all.dedup();
    all
}

/// Documents that are refused at several depths, and a note buffer of every length up to 30, in either shape.
fn edges_of_reading() -> bool {
    let root = "<Kostenblatt DtdBDEWNachrichtenVersion=\"1.0\">";
    let docs = [String::new(), root.to_string(), format!("{root}<a>"), format!("{root}</b>"), format!("{root}<DocumentIdentification v=''>x")];
    for doc in docs {
        for (shape, note) in [OLD, NEW, 7].into_iter().flat_map(|shape| (0..=30).map(move |note| (shape, note))) {
            let lengths = Lengths { series: 0, positions: 0, amounts: 0, note };
            if library::read_in(shape, doc.as_bytes(), &lengths).as_ref() != Ok(&model::read_in(shape, doc.as_bytes(), &lengths)) {
                println!("difference: {doc}, shape {shape}, note buffer of {note}");
                return false;
            }
        }
    }
    true
}

/// The edges, which every run has, whatever its seed: each of those notes in a few sizes, and a few of them in all sizes up to 30.
pub fn edges() -> Option<usize> {
    let notes = edge_notes();
    for (at, note) in notes.iter().enumerate() {
        for (shape, room) in [(OLD, 24), (NEW, 24), (2, 30), (OLD, 23)] {
            if !is_same(note, shape, room, 6 + at % 3) {
                return None;
            }
        }
    }
    for note in notes.iter().step_by(97).chain(notes.iter().filter(|note| model::read_note(note).0 == 0).step_by(13)) {
        for (shape, room, cells) in [OLD, NEW].into_iter().flat_map(|shape| (0..=30).map(move |room| (shape, room, room % 9))) {
            if !is_same(note, shape, room, cells) {
                return None;
            }
        }
    }
    edges_of_reading().then_some(notes.len())
}
