//! Notes of both shapes, there and back, and how deep a fault lies.
mod common;

use common::*;
use lumintayag::{read_note, Kind, Note, Refusal, Shape};

/// A number in groups of seven bits, lowest first, the top bit set on all but the last.
fn groups(mut n: u32) -> Vec<u8> {
    let mut all = Vec::new();
    while n >= 128 {
        all.push(128 + (n % 128) as u8);
        n /= 128;
    }
    all.push(n as u8);
    all
}

fn note(ns: &[u32]) -> Vec<u8> {
    ns.iter().flat_map(|&n| groups(n)).collect()
}

const EDGES: [u32; 12] = [0, 1, 99, 100, 101, 127, 128, 300, 16_383, 16_384, 1_048_576, (1 << 21) - 1];

#[test]
fn numbers_come_back() {
    assert_eq!(groups(300), [0xAC, 0x02]);
    for (a, b) in EDGES.iter().flat_map(|&a| EDGES.map(|b| (a, b))) {
        let (old, new) = (note(&[a, b, b, a, b]), note(&[100, a, b, b, a, b, a]));
        if a == 100 {
            assert!(read_note(&old).is_err() && read_note(&new).is_err(), "a refusal of 100");
            continue;
        }
        for (bytes, shape, depth) in [(old, Shape::Old, 0), (new, Shape::New, a as usize)] {
            let read = read_note(&bytes).expect("a note");
            assert_eq!((read.as_bytes(), read.shape(), read.depth()), (&bytes[..], shape, depth));
            assert_eq!((read.refusal(), read.kind()), (Refusal::from_number(a), Kind::from_number(b)));
            assert_eq!((read.place(), read.series(), read.intervals()), (b as usize, a as usize, b as usize));
            assert_eq!(read.to_string().parse(), Ok(read));
        }
    }
}

/// Old to new to old gives the same note; new to old to new exactly when the depth is 0.
#[test]
fn each_shape_is_turned_into_the_other() {
    for (a, depth) in EDGES.iter().flat_map(|&a| EDGES.map(|depth| (a, depth))).filter(|&(a, _)| a != 100) {
        let old = read_note(&note(&[a, depth, a, 7, depth])).expect("a note");
        let new = read_note(&note(&[100, a, depth, a, 7, depth, depth])).expect("a note");
        let flat = read_note(&note(&[100, a, depth, a, 7, depth, 0])).expect("a note");
        assert_eq!((old.in_shape(Shape::Old), old.in_shape(Shape::New)), (old, flat));
        assert_eq!((new.in_shape(Shape::New), new.in_shape(Shape::Old)), (new, old));
        assert_eq!(old.in_shape(Shape::New).in_shape(Shape::Old), old);
        assert_eq!(new.in_shape(Shape::Old).in_shape(Shape::New) == new, depth == 0);
    }
}

#[test]
fn nothing_else_is_a_note() {
    for whole in [note(&[9, 70_000, 2, 300, 2_047]), note(&[100, 9, 70_000, 2, 300, 2_047, 4])] {
        assert!(read_note(&whole).is_ok());
        for n in 0..whole.len() {
            assert!(read_note(&whole[..n]).is_err(), "{n} bytes");
        }
        for more in 0..=255 {
            assert!(read_note(&[&whole[..], &[more]].concat()).is_err(), "{more} after it");
        }
        for at in 0..whole.len() {
            let two = 1 + usize::from(whole[at] >= 128) + usize::from(at + 1 < whole.len() && whole[at] >= 128 && whole[at + 1] >= 128);
            let (front, number, back) = (&whole[..at], &whole[at..at + two], &whole[at + two..]);
            let not_shortest: Vec<u8> = number.iter().map(|b| b | 128).chain([0]).collect();
            assert!(read_note(&[front, &not_shortest[..], back].concat()).is_err(), "a number of {two} groups that is not shortest");
            assert!(read_note(&[front, &groups(1 << 21)[..], back].concat()).is_err(), "2^21");
        }
    }
    let counts =
        [&[0; 4][..], &[0; 6], &[0; 7], &[0; 8], &[100; 5], &[100; 7], &[100, 3, 1, 2, 3], &[100, 3, 1, 2, 3, 4], &[100, 3, 1, 2, 3, 4, 5, 6]];
    for numbers in counts.into_iter().chain([&[100, 100, 1, 2, 3, 4, 5][..], &[3, 100, 1, 2, 3, 4, 5], &[0, 0, 0, 0, u32::MAX]]) {
        assert!(read_note(&note(numbers)).is_err(), "{numbers:?}");
    }
    assert!(read_note(&note(&[0, 100, 0, 0, 0])).is_ok());
    assert!(read_note(&[]).is_err());
    assert_eq!(read_note(&[]).unwrap_err().to_string(), "the bytes are not one note");
}

#[test]
fn a_note_is_text_in_one_form() {
    let printed = "03 C2 07 02 01 02";
    let note: Note = printed.parse().expect("a note");
    assert_eq!((note.refusal(), note.place(), note.kind()), (Some(Refusal::NotDue), 962, Some(Kind::Kostenblatt)));
    assert_eq!((note.series(), note.intervals(), note.to_string()), (1, 2, printed.to_string()));
    let others =
        ["", " ", "03", "03 c2 07 02 01 02", " 03 C2 07 02 01 02", "03 C2 07 02 01 02 ", "03  C2 07 02 01 02", "03C207020102", "3 C2 07 02 01 02"];
    for (k, other) in others.into_iter().chain(["03\nC2 07 02 01 02", "+3 C2 07 02 01 02", "03 C2 07 02 01 0é"]).enumerate() {
        assert!(other.parse::<Note>().is_err(), "text {k}");
    }
    assert!("FF ".repeat(1000).parse::<Note>().is_err());
    let deep: Note = "64 03 2D 02 00 00 01".parse().expect("a note");
    assert_eq!((deep.shape(), deep.place(), deep.depth(), deep.in_shape(Shape::Old).to_string()), (Shape::New, 45, 1, "03 2D 02 00 00".into()));
    let longest = "64 FF FF 7F FF FF 7F FF FF 7F FF FF 7F FF FF 7F FF FF 7F";
    assert_eq!(longest.parse::<Note>().map(|note| (note.to_string(), note.as_bytes().len(), note.depth())), Ok((longest.into(), 19, (1 << 21) - 1)));
}

#[test]
fn how_deep_a_fault_lies() {
    let mut desk = Desk::large();
    let root = "<Kostenblatt DtdBDEWNachrichtenVersion=\"1.0\">";
    assert_eq!(desk.new_note(root.as_bytes()).to_string(), "64 03 2D 02 00 00 01");
    let whole = two_plants();
    let cases = [
        ("v=\"84.5\"", "v=\"84.\"", 6, 4),
        ("<Pos v=\"29\"/>", "<Pos v=\"29\">x</Pos>", 3, 5),
        ("</Period>", "</Kostenblatt>", 3, 3),
        ("</CostTimeSeries>", "</Period>", 3, 2),
        ("<DocumentType", "<DocumentVersion", 3, 1),
        ("</Kostenblatt>", "</Kostenblatt><a/>", 3, 0),
        ("<Kostenblatt ", "<Kostenblatt a=\"\" ", 5, 0),
    ];
    for (old, new, refusal, depth) in cases {
        let note = desk.new_note(whole.replacen(old, new, 1).as_bytes());
        assert_eq!((note.refusal().map(|refusal| refusal.number()), note.depth()), (Some(refusal), depth), "{new}");
    }
    let accepted = desk.new_note(whole.as_bytes());
    assert_eq!((accepted.refusal(), accepted.depth(), accepted.as_bytes().last()), (None, 0, Some(&0)));
    let long = desk.new_note(&vec![b' '; lumintayag::DOCUMENT_MOST + 1]);
    assert_eq!((long.refusal(), long.depth(), long.to_string()), (Some(Refusal::TooLong), 0, "64 01 00 00 00 00 00".into()));
}
