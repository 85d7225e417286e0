//! The examples of 01 and of the readings of its open points, held against the model alone.

use crate::documents::{document, right_document, shape};
use crate::model::{convert, identifications, judge, read, read_in, read_note, Lengths, Outcome, COUNT, FIRST, LONGEST, ROW};
use crate::random::Random;
use crate::renaming::{clean, renamed};
use crate::tables::tables;
use crate::totals::{add_up, causes, Asked, Cause, CAUSES, MOST_SERIES, TOO_LARGE};
use crate::views::{lent, view, Viewed, HEADER_CELLS, SERIES_CELLS};

mod references;
mod samples;
mod writing;

const ROOM: Lengths = Lengths { series: 64 * ROW, positions: 2048, amounts: 2048, note: 16 };
const ROOT: &str = "<Kostenblatt DtdBDEWNachrichtenVersion=\"1.0\">";

/// A right document of kind 2 in pieces that a test may change; `@` stands where the series are.
const HEAD: &str = "<DocumentIdentification v=\"d\"/><DocumentVersion v=\"1\"/><DocumentType v=\"Z05\"/><ProcessType v=\"A14\"/>\
    <SenderIdentification v=\"9900000000001\" codingScheme=\"NDE\"/><SenderRole v=\"A27\"/><ReceiverIdentification v=\"9900000000002\" codingScheme=\"A10\"/>\
    <ReceiverRole v=\"A18\"/><DocumentDateTime v=\"2024-02-29T00:00:59Z\"/><TimePeriodCovered v=\"2024-02-29T00:07Z/2024-02-29T01:07Z\"/>";
const SERIES: &str = "<CostTimeSeries><TimeSeriesIdentification v=\"s1\"/><BusinessType v=\" A01 \"/><Product v=\"8716867000016\"/>\
    <ResourceObject v=\"A0000000001\" codingScheme=\"NDE\"/><ResourceProvider v=\"9900000000003\" codingScheme=\"NDE\"/><CurveType v=\"A03\"/><MeasurementUnit v=\"Z01\"/>\
    <Period><TimeInterval v=\"2024-02-29T00:07Z/2024-02-29T01:07Z\"/><Resolution v=\"PT15M\"/><Interval><Pos v=\"1\"/><Qty v=\"-0.001\"/></Interval></Period></CostTimeSeries>";

fn kind_2() -> String {
    [ROOT, HEAD, SERIES, "</Kostenblatt>"].concat()
}

fn kind_1(covered: &str, intervals: usize) -> String {
    let head = HEAD.replace("Z05", "Z07").replace("A27", "A39").replace("2024-02-29T00:07Z/2024-02-29T01:07Z", covered);
    let areas = "<InArea v=\"10YDE-VE-------2\" codingScheme=\"A01\"/><OutArea v=\"10YFLENSBURG---3\" codingScheme=\"A01\"/>";
    let parties =
        "<InParty v=\"11XIN----------A\" codingScheme=\"A01\"/><OutParty v=\"11XOUT---------B\" codingScheme=\"A01\"/><MeasurementUnit v=\"MAW\"/>";
    let rows: String = (1..=intervals).map(|pos| format!("<Interval><Pos v=\"{pos}\"/><Qty v=\"{pos}.5\"/></Interval>")).collect();
    let period = format!("<Period><TimeInterval v=\"{covered}\"/><Resolution v=\"PT15M\"/>{rows}</Period>");
    let series = format!("<TimeSeriesIdentification v=\"s\"/><BusinessType v=\"A02\"/><Product v=\"8716867000016\"/>{areas}{parties}{period}");
    let root = "<Beschaffungsanforderung DtdBDEWNachrichtenVersion=\"1.0\">";
    format!("{root}{head}<ScheduleTimeSeries>{series}</ScheduleTimeSeries></Beschaffungsanforderung>")
}

const ROOT_3: &str = "<NetworkConstraintDocument DtdVersion=\"4\" DtdRelease=\"1\">";
const END_3: &str = "</NetworkConstraintDocument>";
const WITHDRAWN: &str = "<DocStatus v=\" A13\"/>";

/// A series of kind 3 with its intervals.
fn constraint(identification: &str, business: &str, direction: &str, intervals: usize) -> String {
    let rows: String = (1..=intervals).map(|pos| format!("<Interval><Pos v=\"{pos}\"/><Qty v=\"0.{pos}\"/></Interval>")).collect();
    let first = format!("<TimeSeriesIdentification v=\"{identification}\"/><BusinessType v=\"{business}\"/><Direction v=\"{direction}\"/>");
    let object =
        "<ConnectingArea v=\"10YDE-VE-------2\" codingScheme=\"A01\"/><ResourceObject v=\"nbm ä\" codingScheme=\"Z01\"/><MeasurementUnit v=\"C62\"/>";
    let period = format!("<Period><TimeInterval v=\"2024-02-29T00:07Z/2024-02-29T01:07Z\"/><Resolution v=\"PT15M\"/>{rows}</Period>");
    format!("<NetworkConstraintTimeSeries>{first}{object}{period}</NetworkConstraintTimeSeries>")
}

/// A document of kind 3 with a status or none, and its series.
fn kind_3(status: &str, series: &[String]) -> String {
    let head = HEAD.replace("Z05", "B15").replace("A27", "A39");
    [ROOT_3, &head, status, &series.concat(), END_3].concat()
}

/// One series of A77 with Direction A01 and one of B59.
fn plain_3() -> Vec<String> {
    vec![constraint("p", "A77", "A01", 2), constraint("n", "B59", "A01", 1)]
}

/// The last place where `piece` stands in a document.
fn last(doc: &str, number: u32, piece: &str) -> (u32, u32) {
    (number, doc.rfind(piece).unwrap_or(usize::MAX) as u32)
}

fn refusal(doc: &str) -> (u32, u32) {
    let answer = read(doc.as_bytes(), &ROOM).answer;
    (answer[0], answer[1])
}

fn accepted(doc: &str) -> Outcome {
    let outcome = read(doc.as_bytes(), &ROOM);
    assert_eq!((outcome.answer[0], outcome.answer[1] as usize), (0, doc.len()), "{doc}");
    outcome
}

/// The refusal at the first place where `piece` stands in a document.
fn at(doc: &str, number: u32, piece: &str) -> (u32, u32) {
    (number, doc.find(piece).unwrap_or(usize::MAX) as u32)
}

fn amount(text: &str) -> Option<i64> {
    let outcome = read(kind_2().replace("-0.001", text).as_bytes(), &ROOM);
    match outcome.answer[0] {
        0 => outcome.amounts.first().copied(),
        _ => None,
    }
}

#[test]
fn p1_to_p5() {
    assert_eq!(refusal(""), (3, 0));
    assert_eq!(refusal("<Kostenblatt>"), (5, 0));
    assert_eq!(refusal("<Kostenblatt/>"), (3, 0));
    assert_eq!(read(ROOT.as_bytes(), &ROOM).answer, [3, 45, 2, 0, 0, 0, 5]);
    assert_eq!(read(ROOT.as_bytes(), &ROOM).note[..5], [3, 0x2D, 2, 0, 0]);
    assert_eq!(refusal(&ROOT.replace("1.0", "1.1")), (6, 0));
}

#[test]
fn p6_to_p9() {
    assert_eq!(amount("-0"), Some(0));
    assert_eq!(amount("-0.001"), Some(-1));
    assert_eq!(amount("999999999999.999"), Some(999_999_999_999_999));
    for wrong in ["5.", ".5", "+5", "1.0000", "1234567890123"] {
        assert_eq!(amount(wrong), None, "{wrong}");
    }
}

#[test]
fn p10() {
    accepted(&kind_2());
    let doc = kind_2().replace("2024-02-29T00:00:59Z", "2023-02-29T00:00:59Z");
    assert_eq!(refusal(&doc), at(&doc, 6, "<DocumentDateTime"));
}

#[test]
fn p11_p12_and_counts() {
    assert_eq!(accepted(&kind_1("2024-03-30T23:00Z/2024-03-31T22:00Z", 92)).answer[5], 92);
    assert_eq!(accepted(&kind_1("2024-10-26T22:00Z/2024-10-27T23:00Z", 100)).answer[5], 100);
    for (intervals, number) in [(91, 3), (95, 8)] {
        let doc = kind_1("2024-05-10T22:00Z/2024-05-11T22:00Z", intervals);
        assert_eq!(refusal(&doc), at(&doc, number, "</Period>"));
    }
    let doc = kind_1("2024-10-26T22:00Z/2024-10-27T23:00Z", 101);
    assert_eq!(refusal(&doc), at(&doc, 3, "<Interval><Pos v=\"101\""));
    let doc = kind_1("2024-05-10T22:00Z/2024-05-11T22:00Z", 97);
    assert_eq!(refusal(&doc), at(&doc, 8, "<Pos v=\"97\""));
}

#[test]
fn local_midnight() {
    let days = ["2024-05-10T22:00Z/2024-05-11T22:00Z", "2000-01-01T23:00Z/2000-01-02T23:00Z", "2099-12-30T23:00Z/2099-12-31T23:00Z"];
    for covered in days {
        assert_eq!(accepted(&kind_1(covered, 96)).answer[5], 96);
    }
    let others = ["2024-05-10T23:00Z/2024-05-11T22:00Z", "2024-03-23T23:00Z/2024-03-24T22:00Z", "2024-05-10T22:00Z/2024-05-12T22:00Z"];
    for covered in others {
        let doc = kind_1(covered, 92);
        assert_eq!(refusal(&doc), at(&doc, 8, "<TimePeriodCovered"));
    }
}

#[test]
fn kind_3_root() {
    assert_eq!(read(ROOT_3.as_bytes(), &ROOM).answer, [3, 57, 3, 0, 0, 0, 5]);
    assert_eq!(read(ROOT_3.as_bytes(), &ROOM).note[..5], [3, 0x39, 3, 0, 0]);
    for (old, new, number) in [
        (" DtdVersion=\"4\"", "", 5),
        (" DtdRelease=\"1\"", "", 5),
        ("\"4\"", "\" 4\"", 6),
        ("\"1\"", "\"2\"", 6),
        (">", " DtdBDEWNachrichtenVersion=\"\">", 6),
        (">", " DtdBDEWNachrichtenVersion=\"1.0\">", 6),
        (">", " v=\"4\">", 5),
        (">", "/>", 3),
    ] {
        assert_eq!(refusal(&ROOT_3.replace(old, new)), (number, 0), "{new}");
    }
    let doc = kind_3("", &plain_3());
    accepted(&doc);
    for more in [" DtdBDEWNachrichtenVersion=\"1.1a\">", " xsi:x=''>", " xmlns='urn:x' DtdBDEWNachrichtenVersion='1.1a'>"] {
        accepted(&doc.replacen('>', more, 1));
    }
    assert_eq!(refusal(&ROOT.replace('>', " DtdVersion=\"4\">")), (5, 0));
}

/// "Without DocStatus, a document with series has one or two of BusinessType A77, two only with different Direction, and at least one B59."
#[test]
fn kind_3_series() {
    let up = || constraint("p", "A77", "A01", 2);
    let down = || constraint("q", " A77", "A02 ", 4);
    let element = || constraint("n", "B59", "A01", 1);
    for series in [vec![], vec![up(), element()], vec![element(), up(), down()], vec![up(), element(), down()], vec![down(), up(), element()]] {
        let outcome = accepted(&kind_3("", &series));
        assert_eq!((outcome.answer[2], outcome.answer[3] as usize, outcome.answer[5]), (3, series.len(), 4));
    }
    for series in [vec![], vec![up()], vec![element()]] {
        accepted(&kind_3(WITHDRAWN, &series));
    }
    for series in [vec![up()], vec![up(), down()], vec![element()]] {
        let doc = kind_3("", &series);
        assert_eq!(refusal(&doc), at(&doc, 8, END_3));
        let other = doc.replace(END_3, "</Kostenblatt>");
        assert_eq!(refusal(&other), at(&other, 3, "</Kostenblatt>"));
    }
    for direction in ["A01", "A02"] {
        let doc = kind_3("", &[up(), down(), element(), constraint("r", "A77", direction, 1)]);
        assert_eq!(refusal(&doc), last(&doc, 8, "<BusinessType"));
    }
    for between in [vec![], vec![element()]] {
        let doc = kind_3("", &[vec![up()], between, vec![constraint("r", "A77", " A01", 1)]].concat());
        assert_eq!(refusal(&doc), last(&doc, 8, "<Direction"));
        let other = doc.replace("v=\" A01\"", "v=\" A01\" w=\"\"");
        assert_eq!(refusal(&other), last(&other, 5, "<Direction"));
    }
}

/// "With DocStatus (A13) there is at most one series": 8 at the second one's start, after 3, 4 and 5; it is not counted.
#[test]
fn kind_3_withdrawn() {
    let start = "<NetworkConstraintTimeSeries>";
    let doc = kind_3(WITHDRAWN, &plain_3());
    let (_, place) = last(&doc, 8, start);
    assert_eq!(read(doc.as_bytes(), &ROOM).answer[..5], [8, place, 3, 1, 2]);
    assert_eq!(read(doc.as_bytes(), &Lengths { series: 23, ..ROOM }).answer[..5], [4, place, 3, 1, 2]);
    let (before, after) = doc.split_at(place as usize);
    for (tag, number) in [("<NetworkConstraintTimeSeries/>", 3), ("<NetworkConstraintTimeSeries a=''>", 5)] {
        assert_eq!(refusal(&[before, &after.replace(start, tag)].concat()), (number, place));
    }
    for (status, number) in [("<DocStatus v=\"A14\"/>", 7), ("<DocStatus/>", 5), ("<docStatus v=\"A13\"/>", 3)] {
        let doc = kind_3(status, &[]);
        assert_eq!(refusal(&doc), at(&doc, number, status));
    }
}

#[test]
fn kind_3_values() {
    let doc = kind_3("", &[constraint("p", "A77", "A01", 4), constraint("n", "B59", "A01", 1)]);
    let outcome = accepted(&doc);
    let find = |piece: &str| doc.find(piece).unwrap_or(0) as u32;
    assert_eq!(outcome.series[..ROW], [find("p\"/"), 1, find("nbm"), 6, find("A77"), 3, find("A01\"/><Conn"), 3, find("10YDE"), 16, 0, 4]);
    for (number, object) in [(0, "ä".repeat(36)), (6, "ä".repeat(37)), (0, String::new())] {
        let doc = doc.replacen("nbm ä", &object, 1);
        assert_eq!(refusal(&doc).0, number);
        let element = format!("<GridElement v=\"{object}\" codingScheme=\"A02\"/><MeasurementUnit");
        assert_eq!(refusal(&doc.replacen("<MeasurementUnit", &element, 1)).0, number);
    }
    for (old, new, number, piece) in [
        ("<ReceiverRole v=\"A18\"", "<ReceiverRole v=\"A27\"", 7, "<ReceiverRole"),
        ("\"Z01\"", "\"A10\"", 7, "<ResourceObject"),
        ("<Direction v=\"A01\"/>", "", 3, "<ConnectingArea"),
        ("<Pos v=\"2\"", "<Pos v=\"3\"", 8, "<Pos v=\"3\""),
        ("<Pos v=\"1\"", "<Pos v=\"101\"", 8, "<Pos"),
        ("<Pos v=\"1\"", "<Pos v=\"100000\"", 6, "<Pos"),
        ("2024-02-29T00:07Z/2024-02-29T01:07Z", "2024-02-29T00:07Z/2025-03-01T00:22Z", 8, "<TimePeriodCovered"),
    ] {
        let doc = doc.replacen(old, new, 1);
        assert_eq!(refusal(&doc), at(&doc, number, piece), "{new}");
    }
    let none = kind_3("", &[constraint("p", "A77", "A01", 0)]);
    assert_eq!(refusal(&none), at(&none, 3, "</Period>"));
    let fifth = kind_3("", &[constraint("p", "A77", "A01", 5)]);
    assert_eq!(refusal(&fifth), at(&fifth, 8, "<Pos v=\"5\""));
    let full = read(fifth.as_bytes(), &Lengths { amounts: 4, ..ROOM }).answer;
    assert_eq!((full[0], full[1]), last(&fifth, 4, "<Interval>"));
    let year = |intervals| kind_3("", &[constraint("p", "A77", "A01", intervals)]).replace("2024-02-29T01:07Z", "2025-03-01T00:07Z");
    assert_eq!(refusal(&year(100)), at(&year(100), 8, END_3));
    assert_eq!(refusal(&year(101)), at(&year(101), 3, "<Interval><Pos v=\"101\""));
    let full = read(year(101).as_bytes(), &Lengths { amounts: 100, ..ROOM }).answer;
    assert_eq!((full[0], full[1]), last(&year(101), 3, "<Interval>"));
}

#[test]
fn tables_and_note() {
    let doc = kind_2();
    let outcome = accepted(&doc);
    let find = |piece: &str| doc.find(piece).unwrap_or(0) as u32;
    let row = [find("s1\"/"), 2, find("A0000000001"), 11, find("A01 "), 3, 0, 0, 0, 0, 0, 1];
    assert_eq!(outcome.series[..ROW], row);
    assert!(outcome.series[ROW..].iter().all(|cell| *cell == 0));
    assert_eq!((outcome.positions[0], outcome.amounts[0], outcome.answer[5]), (1, -1, 4));
    assert_eq!(read_note(&outcome.note[..outcome.answer[6] as usize]), (0, [0, doc.len() as u32, 2, 1, 1, 0]));
}

#[test]
fn direction_and_area() {
    let product = "<Product v=\"8716867000016\"/>";
    let area = "<ConnectingArea v=\"10YFLENSBURG---3\" codingScheme=\"A01\"/>";
    let both = SERIES.replace(product, &["<Direction v=\"  A02 \"/>", product, area].concat());
    let doc = [ROOT, HEAD, &both, &SERIES.replace("s1", "s2"), "</Kostenblatt>"].concat();
    let find = |piece: &str| doc.find(piece).unwrap_or(0) as u32;
    let outcome = accepted(&doc);
    assert_eq!(outcome.series[6..ROW], [find("A02 "), 3, find("10YFLENSBURG---3"), 16, 0, 1]);
    assert_eq!(outcome.series[ROW + 6..2 * ROW], [0, 0, 0, 0, 1, 1]);
    let doc = kind_1("2024-05-10T22:00Z/2024-05-11T22:00Z", 96);
    let start = doc.find("10YDE-VE-------2").unwrap_or(0) as u32;
    assert_eq!(accepted(&doc).series[6..ROW], [0, 0, start, 16, 0, 96]);
}

/// "Room becomes the table length divided by 12."
#[test]
fn room_by_twelve() {
    let doc = [ROOT, HEAD, SERIES, &SERIES.replace("s1", "s2"), "</Kostenblatt>"].concat();
    let starts: Vec<u32> = doc.match_indices("<CostTimeSeries>").map(|(at, _)| at as u32).collect();
    for (cells, said) in [(0, (4, starts[0])), (11, (4, starts[0])), (12, (4, starts[1])), (23, (4, starts[1])), (24, (0, doc.len() as u32))] {
        let answer = read(doc.as_bytes(), &Lengths { series: cells, ..ROOM }).answer;
        assert_eq!((answer[0], answer[1]), said, "{cells} cells");
    }
}

#[test]
fn notes() {
    assert_eq!(read_note(&[0xAC, 2, 0, 0, 0, 0]), (0, [300, 0, 0, 0, 0, 0]));
    assert_eq!(read_note(&[0xFF, 0xFF, 0x7F, 0, 0, 0, 0]), (0, [0x1F_FFFF, 0, 0, 0, 0, 0]));
    assert_eq!(read_note(&[0, 100, 0, 0, 0]), (0, [0, 100, 0, 0, 0, 0]));
    assert_eq!(read_note(&[100, 3, 45, 2, 0, 0, 1]), (0, [3, 45, 2, 0, 0, 1]));
    assert_eq!(read_note(&[100, 3, 100, 2, 0, 0, 0xFF, 0xFF, 0x7F]), (0, [3, 100, 2, 0, 0, 0x1F_FFFF]));
}

/// Four, six and eight numbers; five that begin with 100, seven that do not and seven whose second is 100; not shortest, 2^21, a byte too many.
#[test]
fn no_notes() {
    let wrong: [&[u8]; 16] = [
        &[],
        &[0, 0, 0, 0],
        &[0; 6],
        &[100, 0, 0, 0, 0, 0],
        &[0; 7],
        &[0; 8],
        &[100, 0, 0, 0, 0, 0, 0, 0],
        &[100, 45, 2, 0, 0],
        &[100, 100, 45, 2, 0, 0, 1],
        &[0x80, 0, 0, 0, 0, 0],
        &[0xE4, 0, 3, 45, 2, 0, 0, 1],
        &[100, 3, 45, 2, 0, 0, 0x81, 0],
        &[0x80, 0x80, 0x80, 1, 0, 0, 0, 0],
        &[100, 3, 45, 2, 0, 0, 0x80, 0x80, 0x80, 1],
        &[3, 45, 2, 0, 0, 1],
        &[100, 3, 45, 2, 0, 0, 0x81],
    ];
    for note in wrong {
        assert_eq!(read_note(note), (11, [0; 6]), "{note:02X?}");
        for shape in [0, 1] {
            assert_eq!(convert(note, shape, 24), ([11, 0], vec![0; 24]));
            assert_eq!(convert(note, shape, 23), ([10, 0], vec![0; 23]));
        }
    }
}

#[test]
fn converted_notes() {
    let (old, flat, deep) = ([3, 0xAC, 2, 2, 0, 0], [100, 3, 0xAC, 2, 2, 0, 0, 0], [100, 3, 0xAC, 2, 2, 0, 0, 4]);
    for room in 0..=30 {
        let all_of =
            |note: &[u8]| if room < 24 { ([10, 0], vec![0; room]) } else { ([0, note.len() as u32], [note, &vec![0; room - note.len()]].concat()) };
        assert_eq!(convert(&old, 1, room), all_of(&flat));
        assert_eq!(convert(&old, 0, room), all_of(&old));
        for new in [flat, deep] {
            assert_eq!(convert(&new, 0, room), all_of(&old));
            assert_eq!(convert(&new, u32::MAX, room), all_of(&new));
        }
    }
}

/// The new note of a document in its first seven numbers, which all have one byte but for the place.
fn depth(doc: &str) -> u32 {
    let outcome = read_in(1, doc.as_bytes(), &ROOM);
    let (refusal, six) = read_note(&outcome.note[..outcome.answer[6] as usize]);
    assert_eq!((refusal, &six[..5]), (0, &read(doc.as_bytes(), &ROOM).answer[..5]), "{doc}");
    assert_eq!(outcome.answer[6], read(doc.as_bytes(), &ROOM).answer[6] + 2, "{doc}");
    six[5]
}

/// "the count of elements open before the faulty item; on acceptance 0"
#[test]
fn depths() {
    assert_eq!(read_in(1, ROOT.as_bytes(), &ROOM).note[..8], [0x64, 3, 0x2D, 2, 0, 0, 1, 0]);
    assert_eq!(depth(&kind_2()), 0);
    for (old, new, deep) in [
        ("<Qty v=\"-0.001\"/>", "<Qty v=\"5.\"/>", 4),
        ("<Qty v=\"-0.001\"/>", "<Qty v=\"5.\"></Qty>", 4),
        ("<Pos v=\"1\"/>", "<Pos v=\"1\">x</Pos>", 5),
        ("<Pos v=\"1\"/>", "<Pos v=\"1\"></Qty>", 5),
        ("<Interval>", "<Interval a=''>", 3),
        ("</Interval>", "</Period>", 4),
        ("</Period>", "</CostTimeSeries>", 3),
        ("<CostTimeSeries>", "<Kostenblatt>", 1),
        ("</Kostenblatt>", "</CostTimeSeries>", 1),
        ("</Kostenblatt>", "</Kostenblatt>x", 0),
        ("</Kostenblatt>", "</Kostenblatt><Kostenblatt/>", 0),
        ("</Kostenblatt>", "", 1),
        ("<Kostenblatt ", "<Kostenblat ", 0),
        ("<DocumentIdentification v=\"d\"/>", "<!-- <a> --> <DocumentIdentification v=\"d\"></DocumentIdentification > <!>", 1),
    ] {
        let doc = kind_2().replacen(old, new, 1);
        assert!(doc != kind_2() && depth(&doc) == deep, "{new}");
    }
    assert_eq!((depth(""), depth("<?xml?>"), depth("<a>"), depth("</a>"), depth("x")), (0, 0, 0, 0, 0));
    let mut open = ROOT.to_string();
    for (more, deep) in [(HEAD, 1), ("<CostTimeSeries>", 2), ("<TimeSeriesIdentification v=''>", 3), ("</TimeSeriesIdentification>", 2)] {
        open += more;
        assert_eq!(depth(&open), deep, "{more}");
    }
}

/// Refused with 1 it is 0; with 10 there is no note, in either shape, and 16 bytes are asked for.
#[test]
fn depths_without_items() {
    let long = read_in(1, &vec![b' '; LONGEST + 1], &ROOM);
    assert_eq!((long.answer, &long.note[..8]), ([1, 0, 0, 0, 0, 0, 7], &[100, 1, 0, 0, 0, 0, 0, 0][..]));
    for shape in [0, 1, 2] {
        for note in 0..=30 {
            let outcome = read_in(shape, ROOT.as_bytes(), &Lengths { note, ..ROOM });
            let (refusal, length) = if note < 16 { (10, 0) } else { (3, if shape == 0 { 5 } else { 7 }) };
            assert_eq!((outcome.answer[0], outcome.answer[6]), (refusal, length));
            assert!(note >= 16 || outcome.note == vec![0; note]);
        }
    }
}

#[test]
fn marks_and_declarations() {
    assert_eq!(refusal("\u{FEFF}"), (3, 3));
    assert_eq!(refusal("\u{FEFF}\u{FEFF}"), (3, 3));
    assert_eq!(read(b"\xEF\xBB", &ROOM).answer[..2], [2, 0]);
    assert_eq!(refusal(" <?xml version=\"1.0\"?>"), (2, 1));
    assert_eq!(refusal("<?xml version=\"1.0\"?>"), (3, 21));
    let alone = "\u{FEFF}<?xml version='1.0' encoding=\"uTf-8\" ?>";
    assert_eq!(refusal(alone), (3, alone.len() as u32));
    assert_eq!(refusal("\u{FEFF}<?xml version='1.0' standalone='yes'?>"), (2, 3));
    accepted(&["\u{FEFF}<?xml version='1.0'?>", &kind_2(), " <!-- & --> "].concat());
}

#[test]
fn items() {
    for (piece, number) in [
        ("abc &", 2),
        ("abc", 3),
        ("]]>", 2),
        ("<!-- --->", 2),
        ("<x a='' a=''/>", 2),
        ("<x", 2),
        ("<!DOCTYPE x>", 2),
        ("</ x>", 2),
        ("<x a='\t'/>", 2),
        ("<x a='>]]>'/>", 3),
        ("<:a/>", 2),
        ("<a:b:c/>", 3),
        ("\u{FFFE}", 2),
        ("\u{1FFFE}", 3),
        ("</x a=''>", 2),
        ("<x a=''b=''/>", 2),
    ] {
        assert_eq!(refusal(&[ROOT, piece].concat()), (number, 45), "{piece}");
        assert_eq!(refusal(&[&kind_2(), piece].concat()), (number, kind_2().len() as u32), "{piece}");
    }
    accepted(&kind_2().replace("<DocumentVersion v=\"1\"/>", "<!---->\n<DocumentVersion\tv\n=\r' 1 ' >\n<!--->--></DocumentVersion >"));
}

#[test]
fn several_faults() {
    let no_room = Lengths { series: 7, ..ROOM };
    let doc = kind_2().replace("<CostTimeSeries>", "<CostTimeSeries a=''>");
    let place = at(&doc, 4, "<CostTimeSeries");
    assert_eq!(read(doc.as_bytes(), &no_room).answer, [4, place.1, 2, 0, 0, 0, 6]);
    assert_eq!(refusal(&doc), (5, place.1));
    let doc = kind_2().replace("<Period>", "<OriginalDocumentVersion v=\"7\"/><Period>");
    assert_eq!(refusal(&doc), at(&doc, 8, "<Period>"));
    let doc = kind_2().replace("<Period>", "<OriginalDocumentVersion v=\" 7\"/><Period>");
    assert_eq!(refusal(&doc), at(&doc, 6, "<OriginalDocumentVersion"));
    let doc = kind_2().replace("</Kostenblatt>", &[SERIES, "</Kostenblatt>"].concat());
    let twice = doc.rfind("<TimeSeriesIdentification").unwrap_or(0) as u32;
    assert_eq!(read(doc.as_bytes(), &ROOM).answer[..5], [9, twice, 2, 2, 1]);
    accepted(&doc.replacen("\"s1\"", "\"\"", 1));
}

#[test]
fn values() {
    for (old, new, number, piece) in [
        ("<DocumentIdentification v=\"d\"", "<DocumentIdentification v=\"123456789012345678901234567890123456\"", 6, "<DocumentIdentification"),
        ("\"PT15M\"", "\"\"", 8, "<Resolution"),
        ("<Pos v=\"1\"", "<Pos v=\"0\"", 6, "<Pos"),
        ("<Pos v=\"1\"", "<Pos v=\"2\"", 8, "<Pos"),
        ("<ReceiverRole v=\"A18\"", "<ReceiverRole v=\"A27\"", 7, "<ReceiverRole"),
        ("00:00:59Z", "00:00:60Z", 6, "<DocumentDateTime"),
        ("2024-02-29T00:07Z/2024-02-29T01:07Z", "2024-02-29T01:07Z/2024-02-29T01:07Z", 8, "<TimePeriodCovered"),
        ("2024-02-29T00:07Z/2024-02-29T01:07Z", "2024-02-29T00:07Z/2025-03-01T00:22Z", 8, "<TimePeriodCovered"),
    ] {
        let doc = kind_2().replace(old, new);
        assert_eq!(refusal(&doc), at(&doc, number, piece), "{new}");
    }
    accepted(&kind_2().replace("v=\"d\"", "v=\"ääääääääääääääääääää\""));
    let year = kind_2().replace("2024-02-29T00:07Z/2024-02-29T01:07Z", "2024-02-29T00:07Z/2025-03-01T00:07Z");
    assert_eq!(accepted(&year).answer[5], 35_136);
}

#[test]
fn ten_and_one() {
    let short = Lengths { note: 15, ..ROOM };
    assert_eq!(read(&vec![b' '; 1_048_577], &short).answer, [10, 0, 0, 0, 0, 0, 0]);
    assert_eq!(read(&vec![b' '; 1_048_577], &ROOM).answer, [1, 0, 0, 0, 0, 0, 5]);
    assert_eq!(read(&vec![b' '; 1_048_576], &ROOM).answer, [3, 1_048_576, 0, 0, 0, 0, 7]);
}

/// Documents of kind 3 come up with no series, with a DocStatus, with one A77 and with two, with all 100 Intervals, and refused at each of 02's four places.
#[test]
fn generated_of_kind_3() {
    let (mut accepted, mut places) = ([0; 5], [0; 4]);
    for number in 0..30_000 {
        let made = document(5, number);
        let outcome = read(&made.bytes, &made.lengths);
        let [refusal, place, 3, series, ..] = outcome.answer else { continue };
        let rows = || outcome.series.chunks_exact(ROW).take(series as usize);
        let a77 = rows().filter(|row| made.bytes[row[4] as usize..].starts_with(b"A77")).count();
        let shapes = [series == 0, made.bytes.windows(10).any(|part| part == b"<DocStatus"), a77 == 1, a77 == 2, rows().any(|row| row[11] == 100)];
        for (many, there) in accepted.iter_mut().zip(shapes) {
            *many += usize::from(refusal == 0 && there);
        }
        let names = ["<BusinessType", "<Direction", "<NetworkConstraintTimeSeries", "</NetworkConstraintDocument"];
        for (many, name) in places.iter_mut().zip(names) {
            *many += usize::from(refusal == 8 && made.bytes[place as usize..].starts_with(name.as_bytes()));
        }
    }
    assert!(accepted.iter().chain(&places).all(|many| *many > 50), "{accepted:?} {places:?}");
}

/// Every refusal comes up among the documents, of kind 2 rows with and without Direction and area, spaces on either side of a Direction and after a
/// series that has one a series that has none, and accepted documents in tables whose length 12 does not divide. The same number makes the same document.
#[test]
fn generated() {
    let mut seen = [0; 12];
    let (mut shapes, mut spaces, mut after, mut odd) = ([0; 4], [0; 2], 0, 0);
    for number in 0..30_000 {
        let made = document(5, number);
        let outcome = read(&made.bytes, &made.lengths);
        seen[outcome.answer[0] as usize] += 1;
        if outcome.answer[0] != 0 || outcome.answer[2] != 2 {
            continue;
        }
        odd += usize::from(made.lengths.series % ROW != 0);
        let mut before = false;
        for row in outcome.series.chunks_exact(ROW).take(outcome.answer[3] as usize) {
            let (direction, area) = (row[6] > 0, row[8] > 0);
            shapes[usize::from(direction) + 2 * usize::from(area)] += 1;
            if direction {
                let (start, end) = (row[6] as usize, (row[6] + row[7]) as usize);
                spaces[0] += usize::from(made.bytes[start - 1] == b' ');
                spaces[1] += usize::from(made.bytes[end] == b' ');
            }
            after += usize::from(before && !direction);
            before = direction;
        }
    }
    assert!(seen[..11].iter().all(|many| *many > 0), "{seen:?}");
    let all = shapes.iter().chain(&spaces).chain([&after, &odd]);
    assert!(all.clone().all(|many| *many > 100), "{shapes:?} {spaces:?} {after} {odd}");
    assert_eq!(document(5, 77).bytes, document(5, 77).bytes);
}

/// Days of 92, 96 and 100 quarter hours are among the accepted documents of kind 1, and most right documents are accepted.
#[test]
fn generated_days() {
    let (mut days, mut right) = ([0; 101], 0);
    for number in 0..6_000 {
        let room = Lengths { series: 2 * ROW, positions: 200, amounts: 200, note: 16 };
        let [refusal, _, kind, _, _, n, _] = read(&document(5, number).bytes, &room).answer;
        if refusal == 0 && kind == 1 {
            days[n as usize] += 1;
        }
        right += usize::from(judge(&right_document(5, number), usize::MAX).refusal == 0);
    }
    assert!([92, 96, 100].iter().all(|n| days[*n] > 10) && right > 5_000, "{days:?} {right}");
}

#[test]
fn identifications_replaced() {
    let mut many = 0;
    for number in 0..5000 {
        let made = document(7, number);
        let Some(other) = renamed(&mut Random::new(7, number), &made.bytes) else { continue };
        let places = identifications(&made.bytes);
        let value = |doc: &[u8], at: usize| clean(&doc[places[at].clone()]).map(str::to_string);
        for at in 0..places.len() {
            let (before, after) = (value(&made.bytes, at), value(&other, at));
            assert_eq!(before.as_ref().map(|text| text.chars().count()), after.as_ref().map(|text| text.chars().count()), "{number}");
            assert!(after.is_some() && (0..at).all(|i| (value(&made.bytes, i) == before) == (value(&other, i) == after)), "{number}");
        }
        let mut back = other.clone();
        places.iter().for_each(|place| back[place.clone()].copy_from_slice(&made.bytes[place.clone()]));
        assert!(back == made.bytes, "{number}");
        assert!(read(&made.bytes, &made.lengths) == read(&other, &made.lengths), "{number}");
        many += usize::from(other != made.bytes);
    }
    assert!(many > 1000, "{many}");
}

#[test]
fn a_rule_that_is_not_one_to_one() {
    let doc = [ROOT, HEAD, SERIES, &SERIES.replace("\"s1\"", "\"s2\""), "</Kostenblatt>"].concat();
    accepted(&doc);
    assert_eq!(identifications(doc.as_bytes()).len(), 2);
    let twice = doc.replace("\"s2\"", "\"s1\"");
    let second = twice.rfind("<TimeSeriesIdentification").unwrap_or(0) as u32;
    assert_eq!(refusal(&twice), (9, second));
}

#[test]
fn identifications_before_an_unreadable_item() {
    let tags = "<TimeSeriesIdentification v='a'/><x/><TimeSeriesIdentification w=\"1\" v=\"bc\"><TimeSeriesIdentification/>&<TimeSeriesIdentification v='d'/>";
    let found: Vec<&str> = identifications(tags.as_bytes()).into_iter().map(|place| &tags[place]).collect();
    assert_eq!(found, ["a", "bc"]);
}

/// Both shapes are asked for, the new one by several numbers, and the generated documents are refused at every depth that a right document has.
#[test]
fn generated_shapes_and_depths() {
    let (mut shapes, mut depths) = (std::collections::BTreeMap::new(), [0; 6]);
    for number in 0..30_000 {
        *shapes.entry(shape(5, number)).or_insert(0) += 1;
        let made = document(5, number);
        let outcome = read_in(1, &made.bytes, &made.lengths);
        let (none, six) = read_note(&outcome.note[..outcome.answer[6] as usize]);
        if none == 0 && six[0] != 0 {
            depths[six[5] as usize] += 1;
        }
    }
    assert!(shapes.len() > 3 && shapes.contains_key(&0) && shapes.contains_key(&1), "{shapes:?}");
    assert!(depths.iter().all(|many| *many > 20), "{depths:?}");
}

/// A series for each list of Pos and thousandths, and cells for all totals.
fn asked(kind: u32, n: u32, all: &[&[(u32, i64)]]) -> Asked {
    let rows = all.concat();
    let mut asked = Asked {
        kind,
        n,
        count: all.len(),
        series: vec![7; all.len() * ROW],
        positions: rows.iter().map(|(pos, _)| *pos).collect(),
        amounts: rows.iter().map(|(_, amount)| *amount).collect(),
        totals: 2 * all.len(),
        sum: 2,
    };
    let mut first = 0;
    for (row, rows) in asked.series.chunks_mut(ROW).zip(all) {
        (row[FIRST], row[COUNT]) = (first, rows.len() as u32);
        first += rows.len() as u32;
    }
    asked
}

#[test]
fn totals() {
    let added = add_up(&asked(2, 4, &[&[(1, 12_500), (3, -1)], &[(1, -7)], &[(1, 1), (2, 0), (4, -1_000)]]));
    assert_eq!((added.refusal, added.totals, added.sum), (0, vec![24, 998, -1, 972, -1, 1], vec![23, 971]));
    assert_eq!(add_up(&asked(2, 1, &[&[(1, -1)]])).sum, [-1, 999]);
    let of_three = add_up(&asked(3, 35_136, &[&[(1, 1), (2, -2_000)], &[(1, 5)]]));
    assert_eq!((of_three.totals, of_three.sum), (vec![-2, 1, 0, 5], vec![-2, 6]));
    let day: Vec<(u32, i64)> = (1..=92).map(|pos| (pos, i64::from(pos))).collect();
    assert_eq!(add_up(&asked(1, 92, &[&day])).sum, [4, 278]);
    let most = TOO_LARGE as i64 - 1;
    assert_eq!(add_up(&asked(2, 35_136, &[&[(1, most)]])).sum, [35_135_999_999_999_964, 864]);
    assert_eq!(add_up(&Asked { totals: 5, sum: 1, ..asked(2, 1, &[&[(1, -1)]]) }).totals, [-1, 999, 0, 0, 0]);
    assert_eq!(add_up(&Asked { totals: 1, sum: 1, ..asked(2, 1, &[&[(1, -1)]]) }).totals, [-1]);
    for kind in 1..=3 {
        assert_eq!(add_up(&asked(kind, 96, &[])).refusal, 0, "no series of kind {kind}");
    }
}

#[test]
fn refusals_of_totals() {
    let right = asked(2, 4, &[&[(1, 5), (4, 5)], &[(1, 5)]]);
    assert_eq!(add_up(&Asked { count: MOST_SERIES + 1, kind: 9, ..right.clone() }).refusal, 17);
    for (kind, n, refusal) in
        [(1, 91, 18), (1, 92, 0), (1, 96, 0), (1, 100, 0), (1, 101, 18), (2, 0, 18), (2, 35_136, 0), (3, 35_137, 18), (0, 96, 18)]
    {
        assert_eq!(add_up(&asked(kind, n, &[])).refusal, refusal, "{kind} and {n}");
    }
    assert_eq!((causes(&right), causes(&Asked { n: 3, ..right.clone() })), (vec![], vec![Cause::Pos]));
    for (rows, refusal) in [(0, 18), (1, 0), (100, 0), (101, 18)] {
        let all: Vec<(u32, i64)> = (1..=rows).map(|pos| (pos, 5)).collect();
        assert_eq!(add_up(&asked(3, 200, &[&all])).refusal, refusal, "{rows} rows of kind 3");
    }
    for (amount, refusal) in [(TOO_LARGE as i64 - 1, 0), (TOO_LARGE as i64, 18), (1 - TOO_LARGE as i64, 0), (-(TOO_LARGE as i64), 18), (i64::MIN, 18)]
    {
        assert_eq!(add_up(&asked(2, 4, &[&[(1, 5), (4, amount)]])).refusal, refusal);
    }
}

/// By quarter hours one by one: "the last Pos not after it".
#[test]
fn totals_by_quarter_hours() {
    let mut seen = 0;
    for made in (0..4_000).map(|number| tables(6, number)).filter(|made| made.kind == 2 && made.n < 200) {
        let added = add_up(&Asked { totals: 2 * MOST_SERIES, sum: 2, ..made.clone() });
        if added.refusal != 0 {
            continue;
        }
        for (row, told) in made.series.chunks_exact(ROW).take(made.count).zip(added.totals.chunks(2)) {
            let rows = row[FIRST] as usize..(row[FIRST] + row[COUNT]) as usize;
            let stands = |quarter: u32| rows.clone().rev().find(|k| made.positions[*k] <= quarter).map_or(0, |k| i128::from(made.amounts[k]));
            assert_eq!((1..=made.n).map(stands).sum::<i128>(), 1000 * i128::from(told[0]) + i128::from(told[1]));
            seen += 1;
        }
    }
    assert!(seen > 500, "{seen}");
}

/// Each cause of 18 is the only one of many tables; 200 series are added up and 201 are not; what is lent is at times too short, at times too long.
#[test]
fn generated_tables() {
    let (mut alone, mut kinds, mut refusals, mut most, mut lent) = ([0; CAUSES.len()], [0; 3], [0; 19], [0; 2], [0; 4]);
    for number in 0..60_000 {
        let made = tables(5, number);
        let added = add_up(&made);
        refusals[added.refusal as usize] += 1;
        if let (18, [cause]) = (added.refusal, &causes(&made)[..]) {
            alone[CAUSES.iter().position(|other| other == cause).unwrap_or(0)] += 1;
        }
        if added.refusal == 0 {
            kinds[made.kind as usize - 1] += 1;
            lent[usize::from(made.totals < 2 * made.count)] += 1;
            lent[2 + usize::from(made.sum < 2)] += 1;
        }
        most[0] += usize::from(made.count == MOST_SERIES && added.refusal == 0);
        most[1] += usize::from(made.count == MOST_SERIES + 1 && causes(&made).is_empty());
    }
    assert!(alone.iter().all(|many| *many > 100), "{alone:?}");
    assert!(kinds.iter().chain(&lent).all(|many| *many > 1_000) && most.iter().all(|many| *many > 50), "{kinds:?} {lent:?} {most:?}");
    assert!([0, 17, 18].iter().all(|refusal| refusals[*refusal] > 500), "{refusals:?}");
    assert_eq!(tables(5, 77), tables(5, 77));
}

/// A document viewed with room for eight series.
fn viewed(doc: &str) -> Viewed {
    view(doc.as_bytes(), HEADER_CELLS + 8 * SERIES_CELLS, 6)
}

/// What pair k shows, in the header or in series i; nothing where it is absent.
fn shown<'d>(doc: &'d str, views: &Viewed, k: usize, i: usize) -> Option<&'d str> {
    let at = 2 * (k + 22 * i);
    let (start, length) = (views.table[at] as usize, views.table[at + 1] as usize);
    assert!(start != 0 || length == 0);
    (start != 0).then(|| &doc[start..start + length])
}

fn all_shown<'d>(doc: &'d str, views: &Viewed, pairs: std::ops::Range<usize>, i: usize) -> Vec<&'d str> {
    pairs.map(|k| shown(doc, views, k, i).unwrap_or("-")).collect()
}

#[test]
fn views_of_a_header() {
    let doc = kind_2().replace("<DocumentVersion v=\"1\"/>", "<DocumentVersion v=\"  12 \"/>").replace("\"A10\"", "' A10 '");
    let views = viewed(&doc);
    // 29 February 2024 is day 8825 from 2000-01-01
    let from = 8825 * 1440 + 7;
    assert_eq!((views.refusal, &views.answer[..]), (0, &[0, doc.len() as u32, 2, 1, from, from + 60][..]));
    let told = [
        "-", "-", "1.0", "d", "12", "Z05", "A14", "9900000000001", "NDE", "A27", "9900000000002", "A10", "A18", "2024-02-29T00:00:59Z",
        "2024-02-29T00:07Z/2024-02-29T01:07Z", "-",
    ];
    assert_eq!(all_shown(&doc, &views, 0..16, 0), told);
    let of_three = kind_3(WITHDRAWN, &[]);
    let header = all_shown(&of_three, &viewed(&of_three), 0..16, 0);
    assert_eq!((&header[..3], header[15]), (&["4", "1", "-"][..], "A13"));
    assert!(viewed(&of_three).table[HEADER_CELLS..].iter().all(|cell| *cell == 0));
}

#[test]
fn views_of_series() {
    let period = "2024-02-29T00:07Z/2024-02-29T01:07Z";
    let doc = kind_2();
    let two = [
        "s1", "A01", "-", "8716867000016", "-", "-", "A0000000001", "NDE", "9900000000003", "NDE", "A03", "Z01", "-", "-", "-", "-", "-", "-", "-",
        period, "PT15M", "-",
    ];
    assert_eq!(all_shown(&doc, &viewed(&doc), 16..38, 0), two);
    let day = "2024-03-30T23:00Z/2024-03-31T22:00Z";
    let doc = kind_1(day, 92);
    let one = [
        "s", "A02", "8716867000016", "10YDE-VE-------2", "A01", "10YFLENSBURG---3", "A01", "11XIN----------A", "A01", "11XOUT---------B", "A01",
        "MAW", "-", "-", "-", "-", "-", "-", day, "PT15M", "-", "-",
    ];
    assert_eq!(all_shown(&doc, &viewed(&doc), 16..38, 0), one);
    let doc = kind_3("", &plain_3());
    for (i, (id, business)) in [("p", "A77"), ("n", "B59")].into_iter().enumerate() {
        let three = [
            id, business, "A01", "10YDE-VE-------2", "A01", "nbm ä", "Z01", "-", "-", "-", "-", "-", "-", "C62", "-", "-", "-", "-", "-", "-",
            period, "PT15M",
        ];
        assert_eq!(all_shown(&doc, &viewed(&doc), 16..38, i), three);
    }
}

/// A comment says nothing, and the spaces of a collapsed value are not shown.
#[test]
fn a_view_is_of_the_element() {
    let product = "<Product v=\"8716867000016\"/>";
    let doc = kind_2().replace(product, &["<!-- <Direction v=\"A02\"/> --><Direction v=\" A01 \"/>", product].concat());
    assert_eq!(shown(&doc, &viewed(&doc), 18, 0), Some("A01"));
    let empty = kind_2().replace("v=\"s1\"", "v=\"\"");
    assert_eq!(shown(&empty, &viewed(&empty), 16, 0), Some(""));
    let kept = kind_2().replace("v=\"s1\"", "v=\" s \"");
    assert_eq!(shown(&kept, &viewed(&kept), 16, 0), Some(" s "));
}

#[test]
fn views_in_short_tables() {
    let doc = kind_3("", &plain_3());
    let second = last(&doc, 4, "<NetworkConstraintTimeSeries>").1;
    let first = at(&doc, 4, "<NetworkConstraintTimeSeries>").1;
    for (cells, six) in [
        (0, [4, 0, 0, 0]),
        (31, [4, 0, 0, 0]),
        (32, [4, first, 3, 0]),
        (75, [4, first, 3, 0]),
        (76, [4, second, 3, 1]),
        (119, [4, second, 3, 1]),
        (120, [0, doc.len() as u32, 3, 2]),
    ] {
        let views = view(doc.as_bytes(), cells, 9);
        assert_eq!((views.refusal, &views.answer[..4]), (six[0], &six[..]), "{cells} cells");
        assert!(views.answer[6..] == [0, 0, 0] && (views.answer[5] == 0) == (six[0] != 0));
        assert!(views.table.len() == cells && (six[0] == 0 || views.table.iter().all(|cell| *cell == 0)));
    }
    let long = vec![b' '; LONGEST + 1];
    assert_eq!((view(&long, 31, 6).answer, view(&long, 32, 2).answer), (vec![4, 0, 0, 0, 0, 0], vec![1, 0]));
}

/// Every pair that a kind has is shown in many generated documents, every one that it has not in none; tables are short of a header, of a series and of nothing.
#[test]
fn generated_views() {
    const PAIRS: [usize; 3] = [36, 37, 38];
    let (mut shown, mut refusals) = ([[0; 38]; 3], [0; 10]);
    for number in 0..12_000 {
        let made = document(8, number);
        for (table, answer) in lent(8, number, &made.bytes) {
            let views = view(&made.bytes, table, answer);
            refusals[views.refusal as usize] += 1;
            if let (0, Some(kind)) = (views.refusal, views.answer.get(2)) {
                let there = |k: usize| views.table.get(2 * k).is_some_and(|start| *start != 0);
                (0..38).filter(|k| there(*k)).for_each(|k| shown[*kind as usize - 1][k] += 1);
            }
        }
    }
    for (kind, shown) in shown.iter().enumerate() {
        let known = |k: usize| k < PAIRS[kind] && (kind == 2 || !matches!(k, 0 | 1 | 15));
        assert!((0..38).all(|k| if known(k) { shown[k] > 5 } else { shown[k] == 0 }), "kind {}: {shown:?}", kind + 1);
    }
    assert!(refusals[2..9].iter().all(|many| *many > 100) && refusals[0] > 1_000, "{refusals:?}");
}
