//! Accepted and refused sheets, all invented.
mod common;

use common::*;
use lumintayag::{Accepted, Kind, Refusal, Series, SERIES_ROW};

fn views(series: Series<'_>) -> (&str, &str, &str, Option<&str>, Option<&str>) {
    (series.identification(), series.object(), series.business_type(), series.direction(), series.area())
}

#[test]
fn a_kostenblatt_is_shown_row_by_row() {
    let doc = two_plants();
    let mut desk = Desk::large();
    let Accepted { sheet, note, .. } = desk.read(doc.as_bytes()).expect("accepted");
    assert_eq!((sheet.kind(), sheet.quarters(), sheet.len(), sheet.is_empty()), (Kind::Kostenblatt, 96, 2, false));
    assert!(note.as_bytes().len() >= 5 && note.as_bytes().len() <= 15);
    let (first, second) = (sheet.get(0).expect("a first series"), sheet.get(1).expect("a second series"));
    assert_eq!(views(first), ("Straße ä", "C0000000017", "A01", Some("A02"), Some(AREA)));
    assert_eq!(views(second), ("", "A00000000Z5", "A01", None, None));
    assert_eq!((sheet.get(2), sheet.get(usize::MAX)), (None, None));
    assert_eq!(sheet.iter().collect::<Vec<_>>(), [first, second]);
    assert!(sheet.into_iter().eq(&sheet));
    let rows = [(1, amount(84_500)), (29, amount(-61_250)), (96, amount(999_999_999_999_999))];
    assert!(first.intervals().eq(rows) && first.intervals().rev().eq(rows.into_iter().rev()));
    assert!(second.intervals().eq([(1, amount(0)), (2, amount(-1))]));
    assert!(desk.series[2 * SERIES_ROW..].iter().chain(&desk.positions[5..]).all(|&n| n == 0) && desk.amounts[5..].iter().all(|&a| a == 0));
}

#[test]
fn a_direction_and_an_area_are_those_of_their_own_series() {
    let rows = [(1, "5")];
    let bare = |id: &str| plant(id, "C0000000017", &rows);
    let (up, down) = (placed(&bare("up"), "A01", "10YFLENSBURG---3"), placed(&bare("down"), "  A02", AREA));
    let direction_alone = placed(&bare("here"), "A02 ", AREA).replace("<ConnectingArea v=\"10YDE-EON------1\" codingScheme=\"A01\"/>", "");
    let area_alone = placed(&bare("there"), "A01", AREA).replace("<Direction v=\"A01\"/>", "");
    let doc = kostenblatt(&(up + &down + &bare("none") + &direction_alone + &area_alone + &bare("last")));
    let mut desk = Desk::large();
    let sheet = desk.read(doc.as_bytes()).expect("accepted").sheet;
    let told: Vec<_> = sheet.iter().map(|series| (series.identification(), series.direction(), series.area())).collect();
    let expected = [
        ("up", Some("A01"), Some("10YFLENSBURG---3")),
        ("down", Some("A02"), Some(AREA)),
        ("none", None, None),
        ("here", Some("A02"), None),
        ("there", None, Some(AREA)),
        ("last", None, None),
    ];
    assert_eq!(told, expected);
}

#[test]
fn an_amount_stands_until_the_next_position_and_not_past_the_last_quarter_hour() {
    let doc = two_plants();
    let mut desk = Desk::large();
    let sheet = desk.read(doc.as_bytes()).expect("accepted").sheet;
    let first = sheet.get(0).expect("a first series");
    let stands = |quarter: u32| match quarter {
        1..=28 => Some(amount(84_500)),
        29..=95 => Some(amount(-61_250)),
        96 => Some(amount(999_999_999_999_999)),
        _ => None,
    };
    for quarter in (0..300).chain([u32::MAX - 1, u32::MAX]) {
        assert_eq!(first.amount_at(quarter), stands(quarter), "quarter hour {quarter}");
    }
    let all = || (1..=96).filter_map(|quarter| Some((quarter, stands(quarter)?)));
    assert!(first.by_quarter().eq(all()) && first.by_quarter().rev().eq(all().rev()));
    assert_eq!((first.by_quarter().len(), first.by_quarter().nth(28), first.intervals().len()), (96, Some((29, amount(-61_250))), 3));
}

#[test]
fn a_period_may_begin_at_any_minute() {
    let covered = "2031-02-02T22:07Z/2031-02-02T22:52Z";
    let doc = kostenblatt_in(covered, &plant_in(covered, "a", "C0000000017", &[(1, "5"), (3, "6")]));
    let mut desk = Desk::large();
    let sheet = desk.read(doc.as_bytes()).expect("accepted").sheet;
    assert_eq!(sheet.quarters(), 3);
    let all = [(1, amount(5_000)), (2, amount(5_000)), (3, amount(6_000))];
    assert!(sheet.get(0).expect("a series").by_quarter().eq(all));
    assert_eq!(sheet.get(0).expect("a series").amount_at(4), None);
}

#[test]
fn a_beschaffungsanforderung_has_its_quarter_hours() {
    for (covered, n) in [(DAY, 96), ("2024-03-30T23:00Z/2024-03-31T22:00Z", 92), ("2024-10-26T22:00Z/2024-10-27T23:00Z", 100)] {
        let doc = beschaffungsanforderung(covered, &(request("a", covered, n) + &request("b", covered, n)));
        let mut desk = Desk::large();
        let sheet = desk.read(doc.as_bytes()).expect("accepted").sheet;
        assert_eq!((sheet.kind(), sheet.quarters(), sheet.len()), (Kind::Beschaffungsanforderung, n, 2));
        let b = sheet.get(1).expect("a second series");
        assert_eq!(views(b), ("b", "11XINVENTED----1", "A02", None, Some("10YDE-VE-------2")));
        assert!(b.intervals().eq((1..=n).map(|quarter| (quarter, amount(-1_250)))) && b.by_quarter().eq(b.intervals()));
        assert_eq!((b.amount_at(0), b.amount_at(n).is_some(), b.amount_at(n + 1)), (None, true, None));
    }
}

#[test]
fn a_network_constraint_document_has_an_amount_for_each_of_its_positions() {
    let (rows, one) = ([(1, "0.5"), (2, "-1"), (3, "0")], [(1, "7")]);
    let doc = network_constraint_document(&(constraint("p", " A77", "A02 ", &rows) + &constraint("n", "B59", "A02", &one)));
    let mut desk = Desk::large();
    let sheet = desk.read(doc.as_bytes()).expect("accepted").sheet;
    assert_eq!((sheet.kind(), sheet.quarters(), sheet.len()), (Kind::NetworkConstraintDocument, 96, 2));
    assert_eq!((sheet.kind().to_string().as_str(), sheet.kind().number()), ("NetworkConstraintDocument", 3));
    let (first, second) = (sheet.get(0).expect("a first series"), sheet.get(1).expect("a second series"));
    assert_eq!(views(first), ("p", "", "A77", Some("A02"), Some(AREA)));
    assert_eq!(views(second), ("n", "", "B59", Some("A02"), Some(AREA)));
    let all = [(1, amount(500)), (2, amount(-1_000)), (3, amount(0))];
    assert!(first.intervals().eq(all) && first.by_quarter().eq(all) && first.by_quarter().rev().eq(all.into_iter().rev()));
    let told = [0, 1, 3, 4, 96, 97, u32::MAX].map(|quarter| first.amount_at(quarter));
    assert_eq!(told, [None, Some(amount(500)), Some(amount(0)), None, None, None, None]);
    assert_eq!((second.by_quarter().len(), second.amount_at(1), second.amount_at(2)), (1, Some(amount(7_000)), None));
}

#[test]
fn a_network_constraint_document_may_have_no_series() {
    for status in ["", "<DocStatus v=\"A13\"/>"] {
        let doc = network_constraint_document(status);
        let mut desk = Desk::new(0, 0, 0);
        assert_eq!(verdict(doc.as_bytes(), &mut desk), (0, doc.len()));
        let Accepted { sheet, note, .. } = desk.read(doc.as_bytes()).expect("accepted");
        assert!(sheet.is_empty() && sheet.iter().next().is_none() && sheet.get(0).is_none());
        assert_eq!((sheet.kind(), sheet.quarters(), note.kind(), note.series()), (Kind::NetworkConstraintDocument, 96, Some(sheet.kind()), 0));
    }
}

#[test]
fn the_series_of_a_network_constraint_document_go_together() {
    let rows = [(1, "5")];
    let [up, down, equal, element] =
        [("p", "A77", "A01"), ("q", "A77", "A02"), ("r", "A77", "A01"), ("n", "B59", "A01")].map(|(id, b, d)| constraint(id, b, d, &rows));
    let status = "<DocStatus v=\"A13\"/>";
    let cases = [
        (format!("{up}{down}{element}"), 0, ""),
        (format!("{status}{up}"), 0, ""),
        (format!("{status}{element}"), 0, ""),
        (format!("{up}{element}{equal}"), 8, "<Direction"),
        (format!("{up}{down}{element}{equal}"), 8, "<BusinessType"),
        (format!("{status}{up}{element}"), 8, "<NetworkConstraintTimeSeries"),
        (format!("{up}{down}"), 8, "</NetworkConstraintDocument"),
        (element.clone(), 8, "</NetworkConstraintDocument"),
    ];
    for (k, (rest, number, at)) in cases.into_iter().enumerate() {
        let doc = network_constraint_document(&rest);
        let place = if number == 0 { doc.len() } else { doc.rfind(at).expect("the place") };
        assert_eq!(verdict(doc.as_bytes(), &mut Desk::large()), (number, place), "case {k}");
    }
}

#[test]
fn a_mark_and_a_declaration_count_in_places() {
    let doc = format!("\u{FEFF}<?xml version='1.0' encoding=\"utf-8\"?>\n{}", two_plants());
    let mut desk = Desk::large();
    assert_eq!(verdict(doc.as_bytes(), &mut desk), (0, doc.len()));
    let sheet = desk.read(doc.as_bytes()).expect("accepted").sheet;
    assert_eq!(sheet.get(0).map(|series| series.object()), Some("C0000000017"));
}

#[test]
fn the_first_examples() {
    let root = "<Kostenblatt DtdBDEWNachrichtenVersion=\"1.0\">";
    let other = root.replace("1.0", "1.1");
    let cases: [(&str, (u32, usize)); 5] = [("", (3, 0)), ("<Kostenblatt>", (5, 0)), ("<Kostenblatt/>", (3, 0)), (root, (3, 45)), (&other, (6, 0))];
    for (k, (doc, said)) in cases.into_iter().enumerate() {
        assert_eq!(verdict(doc.as_bytes(), &mut Desk::large()), said, "example {k}");
    }
}

/// The document with `new` in the place of the last `old`: refused with `number` at the last `at` before it.
fn refused(doc: &str, old: &str, new: &str, number: u32, at: &str) {
    let from = doc.rfind(old).expect("the old text");
    let other = format!("{}{new}{}", &doc[..from], &doc[from + old.len()..]);
    let end = (from + at.len()).min(other.len());
    let place = other[..end].rfind(at).expect("the place");
    assert_eq!(verdict(other.as_bytes(), &mut Desk::large()), (number, place), "{number} at {at}");
}

#[test]
fn every_refusal_has_its_number_and_place() {
    let doc = two_plants();
    refused(&doc, "<CurveType", "<CurveType v='A03' ", 2, "<CurveType");
    refused(&doc, "</Period>", "&</Period>", 2, "&");
    refused(&doc, "</Period>", "x</Period>", 3, "x");
    refused(&doc, "<CurveType v=\"A03\"/>", "<MeasurementUnit v=\"Z02\"/>", 3, "<MeasurementUnit");
    refused(&doc, "<Interval>", "<Interval a='1'>", 5, "<Interval");
    refused(&doc, "<Qty v=\"-0.001\"/>", "<Qty v=\"5.\"/>", 6, "<Qty");
    refused(&doc, "v=\"Z02\"", "v=\"Z09\"", 7, "<MeasurementUnit ");
    refused(&doc, "<Pos v=\"2\"/>", "<Pos v=\"97\"/>", 8, "<Pos");
    refused(&doc, "PT15M", "PT60M", 8, "<Resolution v");
    refused(&doc, "TimeSeriesIdentification v=\"\"", "TimeSeriesIdentification v=\"Straße ä\"", 9, "<TimeSeriesIdentification");
    let cut = &doc[..doc.len() - "</Kostenblatt>".len()];
    assert_eq!(verdict(cut.as_bytes(), &mut Desk::large()), (3, cut.len()));
    let second = doc.clone() + &doc;
    assert_eq!(verdict(second.as_bytes(), &mut Desk::large()), (3, doc.len()));
}

#[test]
fn a_refusal_is_an_error_that_tells_number_place_and_reason() {
    fn as_error(doc: &[u8]) -> Result<(), Box<dyn std::error::Error>> {
        let mut desk = Desk::large();
        let _ = desk.read(doc)?;
        Ok(())
    }
    let doc = two_plants();
    assert!(as_error(doc.as_bytes()).is_ok());
    let told = as_error(&doc.as_bytes()[..45]).expect_err("refused").to_string();
    assert_eq!(told, "refused with 3 at byte 45: an element, an end tag or text is not due here, or the document ends too early");
}

#[test]
fn numbers_and_names_of_refusals_and_kinds() {
    assert_eq!((Refusal::from_number(0), Kind::from_number(0)), (None, None));
    for number in 1..100 {
        let (refusal, kind) = (Refusal::from_number(number).expect("a refusal"), Kind::from_number(number).expect("a kind"));
        assert_eq!((refusal.number(), kind.number()), (number, number));
        assert_eq!(matches!(refusal, Refusal::Other { .. }), !matches!(number, 1..=13 | 17 | 18));
        assert_eq!(matches!(kind, Kind::Other { .. }), number > 3);
        assert!(!refusal.to_string().is_empty() && !kind.to_string().is_empty());
    }
}

#[test]
fn a_long_document_is_one() {
    let doc = two_plants();
    let mut long = doc.clone().into_bytes();
    long.resize(lumintayag::DOCUMENT_MOST, b' ');
    assert_eq!(verdict(&long, &mut Desk::large()), (0, 1_048_576));
    long.push(b' ');
    assert_eq!(verdict(&long, &mut Desk::large()), (1, 0));
}

#[test]
fn every_cut_is_refused() {
    let doc = two_plants().into_bytes();
    for n in 0..doc.len() {
        let (number, place) = verdict(&doc[..n], &mut Desk::large());
        assert!((number == 2 && place < n) || (number == 3 && place <= n), "{number} at {place} of {n}");
    }
}
