//! Every size of every table from none on, and how much room documents need.
mod common;

use common::*;
use lumintayag::{Room, DOCUMENT_MOST, SERIES_ROW};

/// The place of the k-th `tag` of doc, counted from 0.
fn place(doc: &str, tag: &str, k: usize) -> usize {
    doc.match_indices(tag).nth(k).expect("the tag").0
}

#[test]
fn a_series_table_of_every_size() {
    let doc = two_plants();
    for cells in 0..=3 * SERIES_ROW {
        let mut desk = Desk::new(cells, 9, 9);
        let said = verdict(doc.as_bytes(), &mut desk);
        match cells / SERIES_ROW {
            full @ 0..=1 => assert_eq!(said, (4, place(&doc, "<CostTimeSeries>", full)), "{cells} cells"),
            _ => {
                assert_eq!(said, (0, doc.len()), "{cells} cells");
                assert!(desk.series[..2 * SERIES_ROW].iter().any(|&n| n != 0) && desk.series[2 * SERIES_ROW..].iter().all(|&n| n == 0));
            }
        }
    }
}

#[test]
fn interval_tables_of_every_size() {
    let doc = two_plants();
    for positions in 0..=9 {
        for amounts in 0..=9 {
            let mut desk = Desk::new(2 * SERIES_ROW + 3, positions, amounts);
            let said = verdict(doc.as_bytes(), &mut desk);
            let room = positions.min(amounts);
            if room < 5 {
                assert_eq!(said, (4, place(&doc, "<Interval>", room)), "{positions} and {amounts}");
            } else {
                assert_eq!(said, (0, doc.len()));
                assert_eq!(desk.positions[..5], [1, 29, 96, 1, 2]);
                assert!(desk.amounts[..5] == [84_500, -61_250, 999_999_999_999_999, 0, -1]);
                assert!(desk.positions[5..].iter().all(|&n| n == 0) && desk.amounts[5..].iter().all(|&a| a == 0));
            }
        }
    }
}

#[test]
fn no_room_at_all() {
    let doc = two_plants();
    assert_eq!(verdict(doc.as_bytes(), &mut Desk::new(0, 0, 0)), (4, place(&doc, "<CostTimeSeries>", 0)));
    assert_eq!(verdict(b"", &mut Desk::new(0, 0, 0)), (3, 0));
}

#[test]
fn a_refusal_leaves_nothing_of_an_accepted_sheet() {
    let doc = two_plants();
    let mut desk = Desk::large();
    assert_eq!(verdict(doc.as_bytes(), &mut desk).0, 0);
    assert!(!desk.is_blank());
    assert_eq!(verdict(&doc.as_bytes()[..doc.len() - 1], &mut desk).0, 2);
    assert!(desk.is_blank());
}

#[test]
fn room_grows_with_the_length_up_to_that_of_every_document() {
    assert_eq!(Room::of_length(0), Room { series: 1, intervals: 1 });
    assert_eq!(Room::of_length(DOCUMENT_MOST), Room::EVERY);
    assert_eq!(Room::of_length(usize::MAX), Room::EVERY);
    assert_eq!(Room { series: usize::MAX, intervals: 1 }.series_numbers(), usize::MAX);
}

/// As short as a series of kind 2 can be.
fn shortest(k: usize) -> String {
    plant(&format!("{k:x}"), "A00000000Z5", &[(1, "0")]).replace("  A01 ", "A01")
}

/// As short as a series of kind 3 can be.
fn shortest_constraint(k: usize) -> String {
    constraint(&format!("{k:x}"), "B59", "A01", &[(1, "0")])
}

#[test]
fn the_shortest_series_and_the_shortest_interval() {
    assert_eq!((shortest(0).len() - 1, shortest_constraint(0).len() - 1, intervals(&[(1, "0")]).len()), (410, 398, 45));
}

/// Documents with as many series or intervals as there can be, whole and cut off after every part, have room by their length.
#[test]
fn no_document_is_refused_for_room_by_its_length() {
    let many: String = (0..2_600).map(shortest).collect();
    let most: String = (0..2_700).map(shortest_constraint).collect();
    let year = "2031-01-01T00:00Z/2032-01-01T00:00Z";
    let rows: Vec<(u32, &str)> = (1..=22_000).map(|pos| (pos, "0")).collect();
    let long = plant_in(year, "", "A00000000Z5", &rows);
    let constraints = (network_constraint_document(&most), "<NetworkConstraintTimeSeries>", 97);
    for (doc, tag, step) in [(kostenblatt(&many), "<CostTimeSeries>", 97), (kostenblatt_in(year, &long), "<Interval>", 991), constraints] {
        let ends: Vec<usize> = doc.match_indices(tag).map(|(at, _)| at + tag.len()).filter(|&end| end <= DOCUMENT_MOST).collect();
        for &end in ends.iter().step_by(step).chain(ends.last()) {
            assert_eq!(verdict(&doc.as_bytes()[..end], &mut Desk::of(Room::of_length(end))), (3, end));
        }
    }
}
