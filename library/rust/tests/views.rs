//! Views of invented sheets and of every sample.
mod common;

use common::*;
use lumintayag::{
    unescaped, views, HeaderValue, Kind, Refusal, Room, SeriesValue, SeriesViews, Views, ViewsRefused, DOCUMENT_MOST, HEADER_PAIRS, SERIES_PAIRS,
};

/// A table for views, full of old numbers.
fn table(series: usize) -> Vec<u32> {
    vec![77; Room { series, intervals: 0 }.views_numbers()]
}

/// All values of a header, `-` where one is absent.
fn header<'a>(shown: &Views<'a>) -> Vec<&'a str> {
    HeaderValue::ALL.iter().map(|&value| shown.header(value).unwrap_or("-")).collect()
}

/// All values that the kind knows of a series, `-` where one is absent.
fn values<'a>(kind: Kind, series: SeriesViews<'a>) -> Vec<&'a str> {
    SeriesValue::all(kind).iter().map(|&value| series.get(value).unwrap_or("-")).collect()
}

#[test]
fn of_a_kostenblatt() {
    let (doc, mut table) = (two_plants(), table(2));
    let shown = views(doc.as_bytes(), &mut table).expect("accepted");
    assert_eq!((shown.kind(), shown.len(), shown.is_empty(), shown.period().quarters()), (Kind::Kostenblatt, 2, false, 96));
    let (sender, receiver, at) = ("9900000000017", "9900000000024", "2031-02-02T10:15:00Z");
    assert_eq!(header(&shown), ["-", "-", "1.0", "D-1", "1", "Z05", "A14", sender, "NDE", "A27", receiver, "A10", "A18", at, DAY, "-"]);
    let first = shown.get(0).expect("a series");
    assert_eq!(
        values(shown.kind(), first),
        [
            "Straße ä", "A01", "A02", "8716867000016", AREA, "A01", "C0000000017", "NDE", sender, "NDE", "A03", "Z02", "-", "-", "-", "-", "-", "-",
            "-", DAY, "PT15M"
        ]
    );
    let second = shown.get(1).expect("a series");
    assert_eq!((second.identification(), second.object(), second.direction(), second.area()), (Some(""), Some("A00000000Z5"), None, None));
    assert_eq!((second.get(SeriesValue::InArea), second.get(SeriesValue::GridElement)), (None, None), "of another kind");
    assert!(
        shown.get(2).is_none()
            && shown.iter().eq([first, second])
            && shown.into_iter().eq(&shown)
            && shown.iter().len() == 2
            && shown.iter().rev().eq([second, first])
    );
}

#[test]
fn of_a_beschaffungsanforderung() {
    let doc = beschaffungsanforderung(DAY, &(request("a", DAY, 96) + &request("b", DAY, 96)));
    let mut table = table(2);
    let shown = views(doc.as_bytes(), &mut table).expect("accepted");
    for (series, id) in shown.iter().zip(["a", "b"]) {
        let (from, to) = ("10YDE-VE-------2", "10YDE-EON------1");
        assert_eq!(
            values(shown.kind(), series),
            [
                id, "A02", "8716867000016", from, "A01", to, "A01", "11XINVENTED----1", "A01", "11XINVENTED----2", "A01", "MAW", "-", "-", "-", "-",
                "-", "-", DAY, "PT15M"
            ]
        );
        assert_eq!((series.area(), series.object(), series.unit(), series.direction()), (Some(from), Some("11XINVENTED----1"), Some("MAW"), None));
    }
}

#[test]
fn of_a_network_constraint_document() {
    let originals = "<OriginalSenderIdentification v=\"9900000000031\" codingScheme=\" A10\"/><OriginalDocumentIdentification v=\" o \"/>\
        <OriginalDocumentVersion v=\"7\"/><OriginalDocumentDateTime v=\" 2031-01-01T00:00:00Z \"/><OriginalTimeSeriesIdentification v=\"\"/><Period>";
    let operator = "<RequestingGridOperator v=\"9900000000048\" codingScheme=\"NDE\"/><GridElement v=\"\" codingScheme=\"Z01 \"/><MeasurementUnit";
    let series = constraint("n", "B59", "A01", &[(1, "0")]).replace("<Period>", originals).replace("<MeasurementUnit", operator);
    let doc = network_constraint_document(&("<DocStatus v=\"  A13\"/>".to_string() + &series));
    let mut table = table(1);
    let shown = views(doc.as_bytes(), &mut table).expect("accepted");
    assert_eq!((&header(&shown)[..3], shown.doc_status()), (&["4", "1", "-"][..], Some("A13")));
    let series = shown.get(0).expect("a series");
    assert_eq!(
        values(shown.kind(), series),
        [
            "n", "B59", "A01", AREA, "A01", "", "Z01", "-", "-", "9900000000048", "NDE", "", "Z01", "C62", "9900000000031", "A10", " o ", "7",
            "2031-01-01T00:00:00Z", "", DAY, "PT15M"
        ]
    );
    let told = [series.original_sender(), series.original_document(), series.original_version(), series.original_date_time()];
    assert_eq!(told, [Some("9900000000031"), Some(" o "), Some("7"), Some("2031-01-01T00:00:00Z")]);
    assert_eq!((series.original_identification(), series.provider(), series.product(), series.status()), (Some(""), None, None, None));
    let empty = network_constraint_document("");
    assert!(views(empty.as_bytes(), &mut [0; 2 * HEADER_PAIRS]).is_ok_and(|shown| shown.is_empty() && shown.iter().next().is_none()));
}

/// What a comment holds is no value, and the spaces of a collapsed one are not shown.
#[test]
fn of_the_element_and_not_of_a_comment() {
    let commented = plant("a", "C0000000017", &[(1, "5")]).replace("<Product", "<!-- <Direction v=\"A02\"/> --><Direction v=\" A01 \"/><Product");
    let doc = kostenblatt(&commented);
    let mut table = table(1);
    assert_eq!(views(doc.as_bytes(), &mut table).expect("accepted").get(0).and_then(|series| series.direction()), Some("A01"));
}

#[test]
fn a_quarter_hour_has_its_time() {
    for (covered, n, last) in [
        ("2024-03-30T23:00Z/2024-03-31T22:00Z", 92, "2024-03-31T21:45Z"),
        ("2024-10-26T22:00Z/2024-10-27T23:00Z", 100, "2024-10-27T22:45Z"),
        ("2024-02-28T23:00Z/2024-02-29T23:00Z", 96, "2024-02-29T22:45Z"),
        ("2099-12-30T23:00Z/2099-12-31T23:00Z", 96, "2099-12-31T22:45Z"),
    ] {
        let doc = beschaffungsanforderung(covered, &request("a", covered, n));
        let mut table = table(1);
        let period = views(doc.as_bytes(), &mut table).expect("accepted").period();
        assert_eq!((format!("{}/{}", period.from(), period.to()), period.quarters()), (covered.to_string(), n));
        assert_eq!((period.quarter(1), period.quarter(n).map(|time| time.to_string())), (Some(period.from()), Some(last.into())));
        assert_eq!((period.quarter(0), period.quarter(n + 1), period.quarter(u32::MAX)), (None, None, None));
        assert_eq!(period.to().minutes() - period.from().minutes(), 15 * n);
    }
}

/// What a value says, without its references.
fn said(value: Option<&str>) -> Option<String> {
    value.map(|value| unescaped(value).collect())
}

/// A view in a table of this room says of the document what the reader says of it.
fn agrees(doc: &[u8]) -> bool {
    let (mut desk, mut table) = (Desk::of(Room::of_length(doc.len())), table(Room::of_length(doc.len()).series));
    let answer = desk.read(doc).map(|accepted| accepted.sheet);
    match (answer, views(doc, &mut table)) {
        (Ok(sheet), Ok(shown)) => {
            let covered = said(shown.header(HeaderValue::TimePeriodCovered));
            let row = |i: usize| sheet.get(i).map(|s| (Some(s.identification()), Some(s.object()), Some(s.business_type()), s.direction(), s.area()));
            let pairs = |i: usize| shown.get(i).map(|s| (s.identification(), s.object(), s.business_type(), s.direction(), s.area()));
            (shown.kind(), shown.len(), shown.period().quarters()) == (sheet.kind(), sheet.len(), sheet.quarters())
                && covered == Some(format!("{}/{}", shown.period().from(), shown.period().to()))
                && shown.iter().all(|series| series.unit().is_some() && said(series.get(SeriesValue::TimeInterval)) == covered)
                && (0..=sheet.len()).all(|i| row(i) == pairs(i))
                && sheet.views(&mut vec![77; sheet.views_numbers()]).is_ok_and(|again| header(&again) == header(&shown))
        }
        (Err(refused), Err(unseen)) => {
            let told = |unseen: ViewsRefused| (unseen.refusal(), unseen.place(), unseen.kind(), unseen.series());
            let alike =
                told(unseen) == (refused.refusal(), refused.place(), refused.kind(), refused.series()) && unseen.to_string() == refused.to_string();
            alike && table.iter().all(|&cell| cell == 0)
        }
        _ => false,
    }
}

#[test]
fn of_every_sample() {
    let mut seen = 0;
    for file in std::fs::read_dir(concat!(env!("CARGO_MANIFEST_DIR"), "/../../crates/samples_run/data")).expect("the samples") {
        let path = file.expect("a file").path();
        let doc = std::fs::read(&path).expect("a sample");
        assert!(agrees(&doc), "{:?}", path.file_name());
        seen += 1;
    }
    assert!(seen > 500, "{seen} samples");
}

#[test]
fn a_table_of_every_size() {
    let doc = two_plants();
    let place = |k: usize| doc.match_indices("<CostTimeSeries>").nth(k).map_or(0, |(at, _)| at);
    for cells in 0..=2 * (HEADER_PAIRS + 3 * SERIES_PAIRS) {
        let mut table = vec![77; cells];
        let told = views(doc.as_bytes(), &mut table).map(|shown| shown.len());
        let said = told.map_err(|refused| (refused.refusal(), refused.place(), refused.kind(), refused.series()));
        let full = |k: usize| Err((Refusal::TableFull, place(k), Some(Kind::Kostenblatt), k));
        match cells {
            0..32 => assert_eq!(said, Err((Refusal::TableFull, 0, None, 0)), "{cells} cells"),
            32..76 => assert_eq!(said, full(0), "{cells} cells"),
            76..120 => assert_eq!(said, full(1), "{cells} cells"),
            _ => assert_eq!(said, Ok(2), "{cells} cells"),
        }
        assert!(table.iter().skip(if said.is_ok() { 120 } else { 0 }).all(|&cell| cell == 0), "{cells} cells");
    }
}

/// A table that is too short is refused before a document that is too long.
#[test]
fn of_a_document_that_is_too_long() {
    let long = vec![b' '; DOCUMENT_MOST + 1];
    let refusal = |cells: usize| views(&long, &mut vec![77; cells]).map_err(|refused| refused.refusal()).map(|_| ());
    assert_eq!((refusal(31), refusal(32)), (Err(Refusal::TableFull), Err(Refusal::TooLong)));
}

/// No cell changes with the digits of a price.
#[test]
fn no_digit_of_a_price() {
    let (doc, mut one, mut other) = (two_plants(), table(2), table(2));
    let changed = doc.replace("84.5", "11.9").replace("999999999999.999", "000000000000.001");
    assert!(doc != changed && doc.len() == changed.len());
    assert!(views(doc.as_bytes(), &mut one).is_ok() && views(changed.as_bytes(), &mut other).is_ok());
    assert_eq!(one, other);
}

#[test]
fn room_for_views() {
    assert_eq!(Room { series: 0, intervals: 9 }.views_numbers(), 32);
    assert_eq!(Room { series: 2, intervals: 0 }.views_numbers(), 120);
    assert_eq!(Room { series: usize::MAX, intervals: 0 }.views_numbers(), usize::MAX);
}

#[cfg(feature = "alloc")]
#[test]
fn that_are_kept() {
    let (doc, mut table) = (two_plants(), table(2));
    let lent = views(doc.as_bytes(), &mut table).expect("accepted");
    let kept = lumintayag::OwnedSheet::read(doc.clone().into_bytes()).expect("accepted");
    let shown = kept.views().expect("views");
    assert!(shown == lent && shown.iter().eq(lent.iter()) && kept.views() == Ok(shown));
    let moved = Box::new(kept);
    assert!(moved.views() == Ok(lent), "also where it has moved");
}
