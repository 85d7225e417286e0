//! The crate's numbers are those of the C header.
mod common;

use common::{two_plants, Desk};
use lumintayag::{HeaderValue, Kind, Refusal, Room, Series, SeriesValue, Shape};
use lumintayag::{DOCUMENT_MOST, HEADER_PAIRS, INTERVALS_ROOM, SERIES_PAIRS, SERIES_ROOM, SERIES_ROW, TOTALS_MOST};
use std::fmt::Debug;

/// The number that the header defines by a name, also in an enum.
fn defined(name: &str) -> usize {
    let header = include_str!("../../lumintayag.h");
    let line = header.lines().map(|line| line.trim_start_matches("#define").trim_start()).find_map(|line| line.strip_prefix(name)?.strip_prefix(' '));
    let number: String = line.expect("a definition").trim_start_matches('=').trim_start().chars().take_while(char::is_ascii_digit).collect();
    number.parse().expect("a number")
}

#[test]
fn sizes() {
    assert_eq!(defined("LUMINTAYAG_DOCUMENT_MOST"), DOCUMENT_MOST);
    assert_eq!(defined("LUMINTAYAG_SERIES_ROW"), SERIES_ROW);
    assert_eq!(defined("LUMINTAYAG_SERIES_ROOM"), SERIES_ROOM);
    assert_eq!(defined("LUMINTAYAG_INTERVALS_ROOM"), INTERVALS_ROOM);
    assert_eq!(defined("LUMINTAYAG_TOTALS_MOST"), TOTALS_MOST);
    assert_eq!((defined("LUMINTAYAG_HEADER_PAIRS"), defined("LUMINTAYAG_SERIES_PAIRS")), (HEADER_PAIRS, SERIES_PAIRS));
    assert_eq!(2 * (HEADER_PAIRS + SERIES_PAIRS * SERIES_ROOM), Room::EVERY.views_numbers());
    assert_eq!((defined("LUMINTAYAG_VIEWS_NUMBERS"), defined("LUMINTAYAG_FROM"), defined("LUMINTAYAG_TO")), (6, 4, 5));
    assert_eq!((defined("LUMINTAYAG_WRITE_NUMBERS"), defined("LUMINTAYAG_WRITE_REFUSAL"), defined("LUMINTAYAG_WRITE_LEN")), (2, 0, 1));
}

/// `TimeInterval` is `TIME_INTERVAL`.
fn loud(name: &dyn Debug) -> String {
    let words =
        format!("{name:?}").chars().flat_map(|c| [c.is_uppercase().then_some('_'), Some(c.to_ascii_uppercase())]).flatten().collect::<String>();
    words.trim_start_matches('_').to_string()
}

/// Each value has the same pair by its name in the header and in the crate, in every kind; and the header has no other.
#[test]
fn pairs_of_views() {
    for (k, value) in HeaderValue::ALL.iter().enumerate() {
        assert_eq!((defined(&format!("LUMINTAYAG_VIEW_{}", loud(value))), value.pair()), (k, k));
    }
    let kinds = [Kind::Beschaffungsanforderung, Kind::Kostenblatt, Kind::NetworkConstraintDocument];
    for (number, kind) in (1..).zip(kinds) {
        for (k, value) in SeriesValue::all(kind).iter().enumerate() {
            assert_eq!(defined(&format!("LUMINTAYAG_VIEW_{number}_{}", loud(value))), HEADER_PAIRS + k, "{value:?}");
            assert_eq!(value.pair(kind), Some(HEADER_PAIRS + k));
        }
    }
    let all = HEADER_PAIRS + kinds.iter().map(|&kind| SeriesValue::all(kind).len()).sum::<usize>();
    assert_eq!(include_str!("../../lumintayag.h").matches("    LUMINTAYAG_VIEW_").count(), all);
    assert_eq!((SeriesValue::Status.pair(kinds[0]), SeriesValue::InArea.pair(kinds[1]), SeriesValue::Product.pair(kinds[2])), (None, None, None));
}

/// What the cells that the header names show is what the crate shows.
#[test]
fn cells_of_a_series_row() {
    const VIEWS: [&str; 5] = ["IDENTIFICATION", "OBJECT", "BUSINESS_TYPE", "DIRECTION", "AREA"];
    let (doc, mut desk) = (two_plants(), Desk::large());
    let sheet = desk.read(doc.as_bytes()).expect("accepted").sheet;
    let texts = |s: Series<'_>| {
        [Some(s.identification()), Some(s.object()), Some(s.business_type()), s.direction(), s.area()].map(|text| text.map(String::from))
    };
    let told: Vec<_> = sheet.iter().map(|series| (texts(series), series.intervals().len() as u32)).collect();
    let mut first = 0;
    for (row, (shown, count)) in desk.series.chunks(SERIES_ROW).zip(told) {
        for (name, said) in VIEWS.iter().zip(shown) {
            let cell = defined(&format!("LUMINTAYAG_{name}"));
            let (start, len) = (row[cell] as usize, row[cell + 1] as usize);
            assert!(if start == 0 { said.is_none() && len == 0 } else { said.as_deref() == doc.get(start..start + len) }, "{name}");
        }
        assert_eq!((row[defined("LUMINTAYAG_FIRST_INTERVAL")], row[defined("LUMINTAYAG_INTERVAL_COUNT")]), (first, count));
        first += count;
    }
    assert_eq!(first, 5);
}

#[test]
fn kinds_and_refusals() {
    let kinds = [
        ("BESCHAFFUNGSANFORDERUNG", Kind::Beschaffungsanforderung),
        ("KOSTENBLATT", Kind::Kostenblatt),
        ("NETWORK_CONSTRAINT_DOCUMENT", Kind::NetworkConstraintDocument),
    ];
    for (name, kind) in kinds {
        assert_eq!(defined(&format!("LUMINTAYAG_{name}")), kind.number() as usize);
    }
    let refusals = [
        ("TOO_LONG", Refusal::TooLong),
        ("UNREADABLE", Refusal::Unreadable),
        ("NOT_DUE", Refusal::NotDue),
        ("TABLE_FULL", Refusal::TableFull),
        ("ATTRIBUTE", Refusal::Attribute),
        ("FORM", Refusal::Form),
        ("CODE", Refusal::Code),
        ("AGAINST", Refusal::Against),
        ("USED_BEFORE", Refusal::UsedBefore),
        ("NOTE_TOO_SHORT", Refusal::NoteTooShort),
        ("NOT_ONE_NOTE", Refusal::NotOneNote),
        ("CONTENT_UNFIT", Refusal::ContentUnfit),
        ("NO_ROOM_TO_WRITE", Refusal::NoRoomToWrite),
        ("TOO_MANY_SERIES", Refusal::TooManySeries),
        ("WRONG_TABLES", Refusal::WrongTables),
    ];
    for (name, refusal) in refusals {
        assert_eq!(defined(&format!("LUMINTAYAG_{name}")), refusal.number() as usize, "{name}");
    }
}

/// A new note has its depth in the cell that the header names, and begins with a number that no old one begins with.
#[test]
fn shapes() {
    assert_eq!((defined("LUMINTAYAG_NOTE_OLD"), defined("LUMINTAYAG_NOTE_NEW")), (Shape::Old as usize, Shape::New as usize));
    assert_eq!((defined("LUMINTAYAG_NOTE_NUMBERS"), defined("LUMINTAYAG_DEPTH")), (6, 5));
    assert_eq!((defined("LUMINTAYAG_NOTE_ROOM"), defined("LUMINTAYAG_CONVERTED_ROOM"), defined("LUMINTAYAG_CONVERTED_NUMBERS")), (16, 24, 2));
    assert_eq!((defined("LUMINTAYAG_CONVERTED_REFUSAL"), defined("LUMINTAYAG_CONVERTED_LEN")), (0, 1));
}
