//! Every sample document, in tables of different room.
mod common;

use common::*;
use lumintayag::{Accepted, Amount, Kind, Room, Series, Sheet};

/// The amount of each quarter hour, from the intervals alone: in kind 3 the intervals, else each until the next one, the last to the end.
fn expanded(sheet: Sheet<'_>, series: Series<'_>) -> Vec<(u32, Amount)> {
    let rows: Vec<_> = series.intervals().collect();
    if sheet.kind() == Kind::NetworkConstraintDocument {
        return rows;
    }
    let ends = rows.iter().skip(1).map(|&(position, _)| position).chain([sheet.quarters() + 1]);
    rows.iter().zip(ends).flat_map(|(&(position, amount), end)| (position..end).map(move |quarter| (quarter, amount))).collect()
}

fn is_whole(accepted: Accepted<'_>) -> bool {
    let (sheet, note) = (accepted.sheet, accepted.note);
    let counts = (sheet.iter().count(), sheet.iter().map(|series| series.intervals().len()).sum());
    counts == (note.series(), note.intervals())
        && sheet.len() == note.series()
        && sheet.iter().all(|series| {
            let all = expanded(sheet, series);
            let past = [0, all.len() as u32 + 1, sheet.quarters() + 1, u32::MAX];
            (all.len() == sheet.quarters() as usize || sheet.kind() == Kind::NetworkConstraintDocument)
                && all.iter().map(|&(quarter, _)| quarter).eq(1..=all.len() as u32)
                && series.by_quarter().eq(all.iter().copied())
                && series.by_quarter().rev().eq(all.iter().rev().copied())
                && all.iter().all(|&(quarter, amount)| series.amount_at(quarter) == Some(amount))
                && past.iter().all(|&quarter| series.amount_at(quarter).is_none())
        })
}

#[test]
fn every_sample_has_one_answer() {
    let (mut accepted, mut refused) = (0, 0);
    let mut every = Desk::of(Room::EVERY);
    for file in std::fs::read_dir(concat!(env!("CARGO_MANIFEST_DIR"), "/../../crates/samples_run/data")).expect("the samples") {
        let path = file.expect("a file").path();
        let (name, doc) = (path.file_name().unwrap_or_default(), std::fs::read(&path).expect("a sample"));
        let mut desk = Desk::of(Room::of_length(doc.len()));
        assert_eq!(verdict(&doc, &mut desk), verdict(&doc, &mut every), "{name:?}");
        let answer = desk.read(&doc);
        assert_eq!(answer, every.read(&doc), "{name:?}");
        #[cfg(feature = "alloc")]
        for room in [Room::EVERY, Room { series: 0, intervals: 0 }, Room { series: 1, intervals: 3 }] {
            let kept = lumintayag::OwnedSheet::read_with_room(doc.clone(), room);
            assert_eq!(kept.as_ref().map(|kept| kept.accepted()), answer.as_ref().copied(), "{name:?}");
        }
        match answer {
            Ok(told) => {
                assert!(is_whole(told), "{name:?}");
                accepted += 1;
            }
            Err(_) => refused += 1,
        }
    }
    assert!(accepted > 100 && refused > 400, "{accepted} accepted, {refused} refused");
}
