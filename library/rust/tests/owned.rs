//! Sheets that own their memory.
mod common;

use common::*;
use lumintayag::{OwnedSheet, Refusal, Refused, Room, Shape};
use std::collections::BTreeMap;

#[test]
fn it_shows_what_lent_tables_show() {
    for doc in [two_plants(), beschaffungsanforderung(DAY, &request("a", DAY, 96))] {
        let mut desk = Desk::large();
        let lent = desk.read(doc.as_bytes()).expect("accepted");
        let kept = OwnedSheet::read(doc.clone().into_bytes()).expect("accepted");
        assert!(kept.document() == doc.as_bytes());
        assert_eq!((kept.note(), kept.accepted()), (lent.note, lent));
        assert_eq!((kept.sheet(), kept.room()), (lent.sheet, Room::of_length(doc.len())));
        assert!(kept.into_iter().eq(lent.sheet));
    }
}

#[test]
fn its_note_has_the_shape_that_is_picked() {
    let doc = two_plants();
    for (room, doc) in
        [Room::EVERY, Room { series: 0, intervals: 0 }].into_iter().flat_map(|room| [&doc[..], &doc[..doc.len() - 1]].map(|doc| (room, doc)))
    {
        let note = |shape| OwnedSheet::read_with_shape(doc.into(), room, shape).map_or_else(|refused| refused.note(), |kept| kept.note());
        assert_eq!((note(Shape::Old).shape(), note(Shape::New)), (Shape::Old, Desk::large().new_note(doc.as_bytes())));
        assert_eq!(note(Shape::New).in_shape(Shape::Old), note(Shape::Old));
    }
}

#[test]
fn tables_grow_where_they_are_too_small() {
    let doc = two_plants();
    let whole = OwnedSheet::read(doc.clone().into_bytes()).expect("accepted");
    for series in 0..=3 {
        for intervals in 0..=6 {
            let room = Room { series, intervals };
            let kept = OwnedSheet::read_with_room(doc.clone().into_bytes(), room).expect("accepted");
            assert_eq!(kept.accepted(), whole.accepted());
            assert_eq!(kept.room(), if series < 2 || intervals < 5 { whole.room() } else { Room { series, intervals } });
        }
    }
    let most = Room { series: usize::MAX, intervals: usize::MAX };
    assert_eq!(OwnedSheet::read_with_room(doc.into_bytes(), most).expect("accepted").room(), whole.room());
}

#[test]
fn refusals_are_those_of_lent_tables() {
    let doc = two_plants();
    let mut long = doc.clone().into_bytes();
    long.resize(lumintayag::DOCUMENT_MOST + 1, b' ');
    let others = [Vec::new(), b"<Kostenblatt/>".to_vec(), doc.as_bytes()[..doc.len() - 1].to_vec(), doc.replace("84.5", "84.").into_bytes(), long];
    for other in others {
        let lent = Desk::large().read(&other).map(|_| ());
        assert_eq!(OwnedSheet::read(other.clone()).map(|_| ()), lent);
        assert_eq!(OwnedSheet::read_with_room(other, Room { series: 0, intervals: 0 }).map(|_| ()), lent);
    }
}

/// What a desk does: reads, keeps the sheets by name, and hands an error on.
fn keep(desk: &mut BTreeMap<String, OwnedSheet>, name: &str, doc: String) -> Result<usize, Refused> {
    let kept = OwnedSheet::read_with_room(doc.into_bytes(), Room { series: 1, intervals: 1 })?;
    let series = kept.sheet().len();
    desk.insert(name.into(), kept);
    Ok(series)
}

#[test]
fn a_desk_keeps_many_sheets() {
    let mut desk = BTreeMap::new();
    for n in 0..50 {
        assert_eq!(keep(&mut desk, &format!("sheet {n}"), two_plants()), Ok(2));
    }
    assert_eq!(keep(&mut desk, "none", "<a>".into()).map_err(|refused| refused.refusal()), Err(Refusal::NotDue));
    let all: usize = desk.values().flatten().map(|series| series.by_quarter().len()).sum();
    assert_eq!((desk.len(), all), (50, 50 * 2 * 96));
}

#[test]
fn it_goes_from_thread_to_thread() {
    fn moves<T: Send + Sync + 'static>() {}
    moves::<OwnedSheet>();
    moves::<Refused>();
    let kept = OwnedSheet::read(two_plants().into_bytes()).expect("accepted");
    assert_eq!(std::thread::spawn(move || kept.sheet().len()).join().expect("an end"), 2);
}
