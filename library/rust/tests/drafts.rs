//! Drafts: sheets that are written again, and sheets from nothing. No test prints a document or an amount where it fails.
mod common;

use common::*;
use lumintayag::{unescaped, Draft, HeaderValue, Kind, OwnedSheet, Refusal, SeriesValue, Sheet, Views, WriteRefused, DOCUMENT_MOST};

/// What is written into a lent output.
fn written(draft: &Draft) -> Result<Vec<u8>, WriteRefused> {
    draft.write(&mut vec![77; 1 << 17]).map(|written| written.document().to_vec())
}

/// Number of the refusal, and 0 for a document that is written, which the reader then takes.
fn number(draft: &Draft) -> u32 {
    match written(draft) {
        Ok(document) => OwnedSheet::read(document).map_or(u32::MAX, |_| 0),
        Err(refused) => refused.refusal().number(),
    }
}

fn draft(doc: &str) -> Draft {
    let kept = OwnedSheet::read(doc.as_bytes().to_vec()).expect("accepted");
    Draft::from_sheet(&kept.sheet()).expect("viewed")
}

/// All that a document says: its values, with what the references stand for, and its intervals.
fn says(sheet: Sheet<'_>, shown: Views<'_>) -> Vec<(String, i64)> {
    let said = |value: Option<&str>| (value.map_or("-".into(), |value| unescaped(value).chain(['|']).collect()), 0);
    let mut all: Vec<_> = HeaderValue::ALL.iter().map(|&value| said(shown.header(value))).collect();
    for (series, values) in sheet.iter().zip(shown) {
        all.extend(SeriesValue::all(shown.kind()).iter().map(|&value| said(values.get(value))));
        all.extend(series.intervals().map(|(position, amount)| (position.to_string(), amount.thousandths())));
    }
    all
}

/// Every accepted sample of kinds 1 and 2, written: it says the same, and written once more it has the same bytes.
#[test]
fn every_sample_again() {
    let (mut same, mut others) = (0, 0);
    for file in std::fs::read_dir(concat!(env!("CARGO_MANIFEST_DIR"), "/../../crates/samples_run/data")).expect("the samples") {
        let path = file.expect("a file").path();
        let Ok(kept) = OwnedSheet::read(std::fs::read(&path).expect("a sample")) else { continue };
        let draft = Draft::from_sheet(&kept.sheet()).expect("viewed");
        let answer = written(&draft);
        if kept.sheet().kind() == Kind::NetworkConstraintDocument {
            assert_eq!(answer.map(|_| ()).map_err(|refused| refused.refusal()), Err(Refusal::ContentUnfit), "{path:?}");
            others += 1;
            continue;
        }
        let again = OwnedSheet::read(answer.expect("written")).expect("accepted");
        let (first, second) = (kept.views().expect("views"), again.views().expect("views"));
        assert!(says(kept.sheet(), first) == says(again.sheet(), second) && first.period() == second.period(), "{path:?}");
        let twice = Draft::from_sheet(&again.sheet()).expect("viewed");
        assert!(written(&twice).is_ok_and(|document| document == again.document()), "{path:?}");
        same += 1;
    }
    assert!(same > 80 && others > 30, "{same} written, {others} of kind 3");
}

/// The draft of the type's own page.
fn from_nothing() -> Draft {
    let mut draft = Draft::new(Kind::Kostenblatt);
    for (value, text) in [
        (HeaderValue::DtdBdewNachrichtenVersion, "1.0"),
        (HeaderValue::DocumentIdentification, "KB-8"),
        (HeaderValue::DocumentVersion, "1"),
        (HeaderValue::DocumentType, "Z05"),
        (HeaderValue::ProcessType, "A14"),
        (HeaderValue::SenderIdentification, "9900000000017"),
        (HeaderValue::SenderScheme, "NDE"),
        (HeaderValue::SenderRole, "A27"),
        (HeaderValue::ReceiverIdentification, "9900000000024"),
        (HeaderValue::ReceiverScheme, "NDE"),
        (HeaderValue::ReceiverRole, "A18"),
        (HeaderValue::DocumentDateTime, "2031-02-02T10:15:00Z"),
        (HeaderValue::TimePeriodCovered, DAY),
    ] {
        draft.set(value, text);
    }
    add_plant(&mut draft, "Neckar & Enz");
    draft
}

fn add_plant(draft: &mut Draft, id: &str) {
    let series = draft.add_series();
    for (value, text) in [
        (SeriesValue::TimeSeriesIdentification, id),
        (SeriesValue::BusinessType, "A01"),
        (SeriesValue::Product, "8716867000016"),
        (SeriesValue::ResourceObject, "C0000000017"),
        (SeriesValue::ResourceObjectScheme, "NDE"),
        (SeriesValue::ResourceProvider, "9900000000017"),
        (SeriesValue::ResourceProviderScheme, "NDE"),
        (SeriesValue::CurveType, "A03"),
        (SeriesValue::MeasurementUnit, "Z02"),
        (SeriesValue::TimeInterval, DAY),
        (SeriesValue::Resolution, "PT15M"),
    ] {
        series.set(value, text);
    }
    series.add_interval(1, amount(84_500)).add_interval(29, amount(-61_250));
}

/// To the byte.
#[test]
fn the_layout() {
    let expected = concat!(
        r#"<Kostenblatt DtdBDEWNachrichtenVersion="1.0"><DocumentIdentification v="KB-8"/><DocumentVersion v="1"/><DocumentType v="Z05"/>"#,
        r#"<ProcessType v="A14"/><SenderIdentification v="9900000000017" codingScheme="NDE"/><SenderRole v="A27"/>"#,
        r#"<ReceiverIdentification v="9900000000024" codingScheme="NDE"/><ReceiverRole v="A18"/><DocumentDateTime v="2031-02-02T10:15:00Z"/>"#,
        r#"<TimePeriodCovered v="2031-02-02T23:00Z/2031-02-03T23:00Z"/><CostTimeSeries><TimeSeriesIdentification v="Neckar &amp; Enz"/>"#,
        r#"<BusinessType v="A01"/><Product v="8716867000016"/><ResourceObject v="C0000000017" codingScheme="NDE"/>"#,
        r#"<ResourceProvider v="9900000000017" codingScheme="NDE"/><CurveType v="A03"/><MeasurementUnit v="Z02"/>"#,
        r#"<Period><TimeInterval v="2031-02-02T23:00Z/2031-02-03T23:00Z"/><Resolution v="PT15M"/><Interval><Pos v="1"/><Qty v="84.5"/></Interval>"#,
        r#"<Interval><Pos v="29"/><Qty v="-61.25"/></Interval></Period></CostTimeSeries></Kostenblatt>"#,
    );
    assert!(from_nothing().to_document().is_ok_and(|document| document == expected.as_bytes()));
}

/// A value is what was set last, and stands for itself; an empty one is there, and one that is not set is not.
#[test]
fn values() {
    let mut draft = from_nothing();
    for id in ["", " ", "&lt;", "a<b>'\"\t\r\nß\u{10FFFF}&#48;", "€€€€€€€€€€€€€€€€€€€€€€€€€€€€€€€€€€€"]
    {
        draft.series_mut()[0].set(SeriesValue::TimeSeriesIdentification, "before").set(SeriesValue::TimeSeriesIdentification, id);
        assert_eq!(draft.series()[0].get(SeriesValue::TimeSeriesIdentification), Some(id));
        let kept = OwnedSheet::read(draft.to_document().expect("written")).expect("accepted");
        assert!(kept.sheet().get(0).is_some_and(|series| unescaped(series.identification()).eq(id.chars())));
    }
    let series = &mut draft.series_mut()[0];
    series.set(SeriesValue::Direction, "A02").set(SeriesValue::BusinessType, "  A01 ");
    assert_eq!((series.get(SeriesValue::Status), series.get(SeriesValue::Direction)), (None, Some("A02")));
    let document = String::from_utf8(draft.to_document().expect("written")).expect("UTF-8");
    assert!(document.contains("<BusinessType v=\"  A01 \"/><Direction v=\"A02\"/><Product"));
    draft.series_mut()[0].unset(SeriesValue::Direction);
    assert!(draft.to_document().is_ok_and(|document| !document.windows(9).any(|window| window == b"Direction")));
    assert_eq!((draft.kind(), draft.get(HeaderValue::DocumentVersion), draft.get(HeaderValue::DocStatus)), (Kind::Kostenblatt, Some("1"), None));
}

fn escaped(text: &str) -> String {
    let one = |c| match c {
        '&' => "&amp;".into(),
        '<' => "&lt;".into(),
        '"' => "&quot;".into(),
        '\t' | '\n' | '\r' => format!("&#{};", c as u32),
        _ => c.to_string(),
    };
    text.chars().map(one).collect()
}

fn attribute(name: &str, text: Option<&str>) -> String {
    text.map_or(String::new(), |text| format!(" {name}=\"{}\"", escaped(text)))
}

/// The elements of values that come with their names. The codingScheme of an element comes after its `v`.
fn elements(values: &[(String, Option<&str>)]) -> String {
    let mut all = String::new();
    for (k, (name, v)) in values.iter().enumerate().filter(|(_, (name, _))| !name.ends_with("Scheme")) {
        let scheme = values.get(k + 1).and_then(|(name, scheme)| scheme.filter(|_| name.ends_with("Scheme")));
        let attributes = attribute("v", *v) + &attribute("codingScheme", scheme);
        all += if name == "TimeInterval" { "<Period>" } else { "" };
        all += &if attributes.is_empty() { attributes } else { format!("<{name}{attributes}/>") };
    }
    all
}

/// A second way to the layout, over the names of the values.
fn laid(draft: &Draft) -> String {
    let header: Vec<_> = HeaderValue::ALL.iter().map(|&value| (format!("{value:?}"), draft.get(value))).collect();
    let root: String = header[..3].iter().map(|(name, text)| attribute(&name.replace("Bdew", "BDEW"), *text)).collect();
    let (kind, series) = (draft.kind(), if draft.kind() == Kind::Kostenblatt { "CostTimeSeries" } else { "ScheduleTimeSeries" });
    let mut document = format!("<{kind}{root}>") + &elements(&header[3..]);
    for one in draft.series() {
        let values: Vec<_> = SeriesValue::all(kind).iter().map(|&value| (format!("{value:?}"), one.get(value))).collect();
        let rows: String = one.intervals().iter().map(|(pos, qty)| intervals(&[(*pos, &qty.to_string())])).collect();
        document += &format!("<{series}>{}{rows}</Period></{series}>", elements(&values));
    }
    document + &format!("</{kind}>")
}

/// Whether the reader takes that layout. Then it is what is written, and else 12 is told.
fn judged(draft: &Draft) -> bool {
    let document = laid(draft);
    let accepted = Desk::large().read(document.as_bytes()).is_ok();
    assert!(if accepted { written(draft).is_ok_and(|put| put == document.as_bytes()) } else { number(draft) == 12 });
    accepted
}

const TEXTS: [&str; 42] = [
    "", " ", "A01", " A02 ", "A03", "A04", "A10", "A14", "A18", "A27", "NDE", "Z01", "Z02", "Z03", "Z05", "Z07", "MAW", "PT15M", "1.0", "1", " 7",
    "007", "999", "1000", "a&b", "&#65;01", "A01\t", "\"<>'", "9900000000017", "8716867000016", "11XINVENTED----1", AREA, "C0000000017",
    "2031-02-02T10:15:00Z", "2031-02-30T10:15:00Z", DAY, "2031-02-02T23:00Z/2031-02-03T22:45Z", "2031-02-03T23:00Z/2031-02-02T23:00Z", "\u{FFFE}",
    "ä\u{85}", "35 characters, and not one more here", "35 characters, and not one more....",
];

/// Sheets with Originals and without.
fn sheets() -> [String; 3] {
    let originals = "<OriginalSenderIdentification v=\"9900000000031\" codingScheme=\"A10\"/><OriginalDocumentIdentification v=\"o\"/>\
        <OriginalDocumentVersion v=\"7\"/><OriginalDocumentDateTime v=\"2031-01-01T00:00:00Z\"/><OriginalTimeSeriesIdentification v=\"\"/><Period>";
    let request = request("a", DAY, 96).replace("<Period>", originals);
    let plants =
        placed(&plant("a", "C0000000017", &[(1, "5")]), "A01", AREA).replace("<Period>", originals) + &plant("A01", "C0000000017", &[(1, "0")]);
    [beschaffungsanforderung(DAY, &request), kostenblatt(&plants), kostenblatt(&plant("", "C0000000017", &[(1, "7"), (96, "-0.5")]))]
}

/// Each value of a draft in turn, absent and with each of the texts.
#[test]
fn judged_as_the_reader_judges() {
    let mut answers = Vec::new();
    for sheet in sheets() {
        for value in HeaderValue::ALL.into_iter().filter(|value| *value != HeaderValue::DocStatus) {
            let mut draft = draft(&sheet);
            answers.extend(TEXTS.map(|text| judged(draft.set(value, text))));
            answers.push(judged(draft.unset(value)));
        }
        for &value in SeriesValue::all(draft(&sheet).kind()) {
            let mut draft = draft(&sheet);
            answers.extend(TEXTS.map(|text| {
                draft.series_mut()[0].set(value, text);
                judged(&draft)
            }));
            draft.series_mut()[0].unset(value);
            answers.push(judged(&draft));
        }
    }
    let accepted = answers.iter().filter(|&&accepted| accepted).count();
    assert!(answers.len() > 4000 && accepted > 200, "{accepted} of {}", answers.len());
}

/// What is left out, what is against its form, and what the kind does not know.
#[test]
fn unfit_values() {
    for value in HeaderValue::ALL {
        let (mut draft, wrong) = (from_nothing(), [HeaderValue::DtdVersion, HeaderValue::DtdRelease, HeaderValue::DocStatus].contains(&value));
        assert_eq!(number(draft.set(value, "?")), if value == HeaderValue::DocumentIdentification { 0 } else { 12 }, "{value:?}");
        assert_eq!(number(draft.unset(value)), if wrong { 0 } else { 12 }, "{value:?}");
        assert_eq!(number(draft.set(value, "\0")), 12, "{value:?}");
    }
    let optional = [SeriesValue::Direction, SeriesValue::Status];
    for &value in SeriesValue::all(Kind::NetworkConstraintDocument).iter().chain(SeriesValue::all(Kind::Kostenblatt)) {
        let mut draft = from_nothing();
        let had = draft.series()[0].get(value).is_some();
        draft.series_mut()[0].set(value, "?");
        assert_eq!(number(&draft), if value == SeriesValue::TimeSeriesIdentification { 0 } else { 12 }, "{value:?}");
        draft.series_mut()[0].unset(value);
        assert_eq!(number(&draft), if had { 12 } else { 0 }, "{value:?}");
        draft.series_mut()[0].set(value, "A01");
        assert_eq!(number(&draft) == 0, matches!(value, SeriesValue::TimeSeriesIdentification | SeriesValue::BusinessType) || value == optional[0]);
    }
}

#[test]
fn unfit_kinds_and_series() {
    for kind in [Kind::Beschaffungsanforderung, Kind::NetworkConstraintDocument] {
        assert_eq!(number(&Draft::new(kind)), 12);
    }
    assert_eq!(number(&draft(&network_constraint_document(""))), 12);
    let mut draft = from_nothing();
    add_plant(&mut draft, "Neckar & Enz");
    assert_eq!(number(&draft), 12, "an identification twice");
    draft.series_mut()[1].set(SeriesValue::TimeSeriesIdentification, "Oste");
    assert_eq!(number(&draft), 0);
}

#[test]
fn unfit_intervals() {
    let with = |rows: &[(u32, i64)]| {
        let mut draft = from_nothing();
        draft.series_mut()[0].clear_intervals();
        for &(position, thousandths) in rows {
            draft.series_mut()[0].add_interval(position, amount(thousandths));
        }
        number(&draft)
    };
    let most = 999_999_999_999_999;
    for (rows, told) in [
        (&[][..], 12),
        (&[(1, 0)], 0),
        (&[(2, 0)], 12),
        (&[(1, most), (96, -most)], 0),
        (&[(1, most + 1)], 12),
        (&[(1, -most - 1)], 12),
        (&[(1, i64::MIN)], 12),
        (&[(1, 0), (97, 0)], 12),
        (&[(1, 0), (1, 0)], 12),
        (&[(1, 0), (u32::MAX, 0)], 12),
    ] {
        assert_eq!(with(rows), told, "{} rows", rows.len());
    }
    let mut draft = draft(&beschaffungsanforderung(DAY, &request("a", DAY, 96)));
    assert_eq!(number(&draft), 0);
    draft.series_mut()[0].intervals_mut()[95] = (97, amount(0));
    assert_eq!(number(&draft), 12);
    draft.series_mut()[0].intervals_mut()[95] = (96, amount(-1));
    assert_eq!((number(&draft), draft.series()[0].intervals().len()), (0, 96));
}

/// In an output of each length: written where it has room, and else 13 with every byte 0. 12 goes before 13.
#[test]
fn room() {
    let mut draft = from_nothing();
    let document = draft.to_document().expect("written");
    for len in 0..document.len() + 3 {
        let mut out = vec![77; len];
        match draft.write(&mut out) {
            Ok(written) => assert!(len >= document.len() && written.document() == document),
            Err(refused) => assert!(len < document.len() && refused.refusal() == Refusal::NoRoomToWrite),
        }
        let put = if len < document.len() { 0 } else { document.len() };
        assert!(out[..put] == document[..put] && out[put..].iter().all(|&byte| byte == 0));
    }
    for unfit in [HeaderValue::DocStatus, HeaderValue::DtdVersion] {
        let mut out = [77; 10];
        assert_eq!(draft.set(unfit, "A13").write(&mut out).err().map(|refused| refused.refusal()), Some(Refusal::ContentUnfit));
        assert_eq!(out, [0; 10]);
        draft.unset(unfit);
    }
}

/// 1,048,576 bytes are written, and one more is 13, whatever is lent.
#[test]
fn the_longest_document() {
    let mut draft = from_nothing();
    let one = draft.to_document().expect("written").len();
    add_plant(&mut draft, "0000");
    let each = draft.to_document().expect("written").len() - one;
    let many = (DOCUMENT_MOST - one) / each;
    for k in 1..many {
        add_plant(&mut draft, &format!("{k:04}"));
    }
    let mut left = DOCUMENT_MOST - draft.to_document().expect("written").len();
    for series in draft.series_mut() {
        let room = left.min(31);
        let id = series.get(SeriesValue::TimeSeriesIdentification).unwrap_or_default().to_string();
        if id.len() == 4 {
            series.set(SeriesValue::TimeSeriesIdentification, &(id + &"x".repeat(room)));
            left -= room;
        }
    }
    assert_eq!((left, draft.to_document().map(|document| document.len())), (0, Ok(DOCUMENT_MOST)));
    draft.set(HeaderValue::DocumentVersion, "10");
    assert_eq!(draft.write(&mut vec![0; 2 * DOCUMENT_MOST]).err().map(|refused| refused.refusal()), Some(Refusal::NoRoomToWrite));
    assert_eq!(draft.set(HeaderValue::DocumentVersion, "0").to_document().err().map(|refused| refused.refusal().number()), Some(12));
}
