//! K6: documents by hand, to the byte, and both sides of each line of 02, held against the second writer alone.

use super::*;
use crate::drafts::draft;
use crate::writing::{document as written_as, laid_out, shortest, write, Draft, Written};

/// A draft of what a document says, by views and tables, with the document as the text: it holds no reference.
fn draft_of(doc: &str) -> Draft {
    let outcome = accepted(doc);
    let [_, _, kind, count, intervals, ..] = outcome.answer;
    let mut pairs = viewed(doc).table;
    pairs.truncate(HEADER_CELLS + SERIES_CELLS * count as usize);
    let (positions, amounts) = (outcome.positions[..intervals as usize].to_vec(), outcome.amounts[..intervals as usize].to_vec());
    Draft { kind, text: doc.as_bytes().to_vec(), pairs, count, series: outcome.series[..ROW * count as usize].to_vec(), positions, amounts }
}

/// The same with pair k of the header or of series i showing another text.
fn with(draft: &Draft, k: usize, i: usize, said: &[u8]) -> Draft {
    let mut other = draft.clone();
    let at = 2 * (k + 22 * i);
    (other.pairs[at], other.pairs[at + 1]) = (other.text.len() as u32, said.len() as u32);
    other.text.extend_from_slice(said);
    other
}

fn said_of(draft: &Draft) -> String {
    String::from_utf8(written_as(draft).expect("a legal draft")).expect("UTF-8")
}

fn refuses(draft: &Draft) {
    assert_eq!(write(draft, 1 << 20, 2), Written { refusal: 12, out: vec![0; 1 << 20], answer: vec![12, 0] });
}

#[test]
fn what_is_laid_out_is_written_again() {
    // BusinessType loses its spaces, since views do not show them.
    let two = kind_2();
    assert_eq!(said_of(&draft_of(&two)), two.replace("\" A01 \"", "\"A01\""));
    let one = kind_1("2024-03-30T23:00Z/2024-03-31T22:00Z", 92);
    assert_eq!(said_of(&draft_of(&one)), one);
    let loose = one.replace("/>", " />\n ").replace('"', "'");
    assert_eq!(said_of(&draft_of(&loose)), one);
    assert_eq!(written_as(&Draft { kind: 3, ..draft_of(&two) }), None);
}

/// "references only where a byte needs one"; "The text is literal"; "Spaces at collapsed ends are written as given."
#[test]
fn bytes_of_values() {
    let draft = draft_of(&kind_2());
    for (said, between) in [
        ("A&B<C>\"'\t\n\r", "A&amp;B&lt;C>&quot;'&#9;&#10;&#13;"),
        ("A&#48;1&amp;", "A&amp;#48;1&amp;amp;"),
        ("  \u{7F}\u{85}ä€𝄞 ", "  \u{7F}\u{85}ä€𝄞 "),
        ("", ""),
    ] {
        assert!(said_of(&with(&draft, 3, 0, said.as_bytes())).contains(&format!("<DocumentIdentification v=\"{between}\"/>")), "{said}");
    }
    assert!(said_of(&with(&draft, 5, 0, b" Z05  ")).contains("<DocumentType v=\" Z05  \"/>"));
    assert!(said_of(&with(&draft, 8, 0, b" NDE")).contains("codingScheme=\" NDE\"/>"));
    refuses(&with(&draft, 5, 0, b"Z05\t"));
    refuses(&with(&draft, 5, 0, b"Z0&#53;"));
    refuses(&with(&draft, 16, 0, "ä".repeat(36).as_bytes()));
    assert!(written_as(&with(&draft, 16, 0, "ä".repeat(35).as_bytes())).is_some());
    for none in [&b"\xFF"[..], b"\0", b"\x0B", b"\xC3", b"\xED\xA0\x80", b"\xEF\xBF\xBE", b"\xC0\x80"] {
        refuses(&with(&draft, 16, 0, none));
    }
}

#[test]
fn amounts_are_shortest() {
    for (thousandths, text) in [
        (0, "0"),
        (1, "0.001"),
        (-1, "-0.001"),
        (500, "0.5"),
        (-120, "-0.12"),
        (12_500, "12.5"),
        (10_000, "10"),
        (-100_010, "-100.01"),
        (999_999_999_999_999, "999999999999.999"),
        (1_000_000_000_000_000, "1000000000000"),
        (i64::MIN, "-9223372036854775.808"),
    ] {
        assert_eq!(shortest(thousandths), text);
        let draft = Draft { amounts: vec![thousandths], ..draft_of(&kind_2()) };
        assert_eq!(written_as(&draft).is_some(), thousandths.unsigned_abs() < 1_000_000_000_000_000);
    }
}

/// "An optional element is absent where its cells are 0 and 0"; "(5, 0) is an empty value"; "a pair (length, 0) is fine".
#[test]
fn pairs() {
    let draft = draft_of(&kind_2());
    let cells = |k: usize, start: u32, length: u32| {
        let mut other = draft.clone();
        (other.pairs[2 * k], other.pairs[2 * k + 1]) = (start, length);
        other
    };
    let length = draft.text.len() as u32;
    assert!(said_of(&cells(3, 5, 0)).contains("<DocumentIdentification v=\"\"/>"));
    assert!(said_of(&cells(3, length, 0)).contains("<DocumentIdentification v=\"\"/>"));
    for (start, length) in [(0, 0), (length + 1, 0), (length, 1), (0, length + 1), (u32::MAX, u32::MAX), (u32::MAX, 1), (1, u32::MAX)] {
        refuses(&cells(3, start, length));
    }
    // Kind 2 knows no DocStatus: it has to be lent, and is not written.
    assert_eq!(said_of(&cells(15, 1, 1)), said_of(&draft));
    refuses(&cells(15, length, 1));
    // The area of a series needs its codingScheme.
    refuses(&with(&draft, 20, 0, b"10YDE-VE-------2"));
    let area = with(&with(&draft, 20, 0, b"10YDE-VE-------2"), 21, 0, b"A01");
    assert!(said_of(&area).contains("<Product v=\"8716867000016\"/><ConnectingArea v=\"10YDE-VE-------2\" codingScheme=\"A01\"/><ResourceObject"));
    // "the Originals are all absent or all there"
    let originals: [(usize, &[u8]); 6] = [(29, b"9900000000001"), (30, b"NDE"), (31, b""), (32, b"7"), (33, b"2024-01-01T00:00:00Z "), (34, b"o")];
    let all = originals.iter().fold(draft.clone(), |draft, (k, said)| with(&draft, *k, 0, said));
    assert!(said_of(&all).contains("<OriginalDocumentIdentification v=\"\"/><OriginalDocumentVersion v=\"7\"/>"));
    for (left_out, _) in originals {
        let mut half = all.clone();
        half.pairs[2 * left_out..2 * left_out + 2].fill(0);
        refuses(&half);
    }
}

/// "Rows of series may overlap, leave gaps or come in another order"
#[test]
fn rows() {
    let second = SERIES
        .replace("\"s1\"", "\"s2\"")
        .replace("<Qty v=\"-0.001\"/></Interval>", "<Qty v=\"2\"/></Interval><Interval><Pos v=\"3\"/><Qty v=\"0\"/></Interval>");
    let draft = draft_of(&[ROOT, HEAD, SERIES, &second, "</Kostenblatt>"].concat());
    let rows = |series: [(u32, u32); 2], positions: &[u32]| {
        let mut other = Draft { positions: positions.to_vec(), amounts: vec![7; positions.len()], ..draft.clone() };
        for (row, (first, count)) in other.series.chunks_mut(ROW).zip(series) {
            (row[FIRST], row[COUNT]) = (first, count);
        }
        other
    };
    for right in [
        rows([(0, 1), (1, 2)], &[1, 1, 3]),
        rows([(2, 1), (0, 2)], &[1, 4, 1]),
        rows([(1, 2), (1, 1)], &[0, 1, 2]),
        rows([(5, 1), (0, 1)], &[1, 0, 9, 9, 9, 1]),
    ] {
        assert!(written_as(&right).is_some(), "{right:?}");
    }
    for wrong in [
        rows([(0, 1), (1, 3)], &[1, 1, 3]),
        rows([(0, 1), (3, 1)], &[1, 1, 1]),
        rows([(0, 1), (u32::MAX, 1)], &[1, 1, 1]),
        rows([(0, 1), (1, u32::MAX)], &[1, 1, 1]),
        rows([(0, 1), (1, 0)], &[1, 1, 1]),
        rows([(0, 1), (1, 1)], &[1, 2]),
        rows([(0, 1), (1, 1)], &[1, 0]),
        rows([(0, 1), (1, 2)], &[1, 1, 1]),
        rows([(0, 1), (1, 2)], &[1, 1, 5]),
    ] {
        refuses(&wrong);
    }
    refuses(&Draft { amounts: vec![1, 2], ..draft.clone() });
    refuses(&Draft { count: 0, ..draft.clone() });
    refuses(&Draft { count: 3, ..draft.clone() });
    refuses(&Draft { count: u32::MAX, ..draft.clone() });
    refuses(&Draft { series: draft.series[..2 * ROW - 1].to_vec(), ..draft.clone() });
    refuses(&Draft { pairs: draft.pairs[..HEADER_CELLS + 2 * SERIES_CELLS - 1].to_vec(), ..draft.clone() });
    assert!(said_of(&Draft { count: 1, ..draft.clone() }).matches("<CostTimeSeries>").count() == 1);
    refuses(&with(&draft, 16, 1, b"s1"));
}

/// "12 content .., then 13 length": the document in bytes that just hold it, one less, and as long as a document may be.
#[test]
fn lengths_of_output() {
    let draft = draft_of(&kind_2());
    let length = written_as(&draft).expect("legal").len();
    for (out, refusal) in [(length, 0), (length + 3, 0), (length - 1, 13), (0, 13)] {
        let answered = write(&draft, out, 3);
        assert_eq!((answered.refusal, &answered.answer[..]), (refusal, &[refusal, if refusal == 0 { length as u32 } else { 0 }, 0][..]));
        assert!(answered.out.len() == out && answered.out.iter().skip(if refusal == 0 { length } else { 0 }).all(|byte| *byte == 0));
    }
    assert_eq!(write(&with(&draft, 5, 0, b"Z06"), 0, 1), Written { refusal: 12, out: vec![], answer: vec![12] });
    for (more, refusal) in [(0, 0), (1, 13)] {
        let spaces = vec![b' '; LONGEST - length + more];
        let long = with(&draft, 5, 0, &[&b"Z05"[..], &spaces].concat());
        assert_eq!((write(&long, LONGEST + 2, 2).refusal, laid_out(&long).map(|doc| doc.len())), (refusal, Some(LONGEST + more)));
    }
}

/// Drafts of both kinds are written, with references, shared rows and rows in another order; each reason of 12 is the first one of many.
#[test]
fn generated_drafts() {
    let (mut kinds, mut refusals, mut not_lent, mut seen) = ([0; 2], [0; 10], 0, [0; 5]);
    for number in 0..30_000 {
        let made = draft(5, number);
        let Some(doc) = laid_out(&made) else {
            not_lent += 1;
            continue;
        };
        let refusal = judge(&doc, usize::MAX).refusal;
        refusals[refusal as usize] += 1;
        if refusal != 0 {
            continue;
        }
        kinds[made.kind as usize - 1] += 1;
        let rows: Vec<(u32, u32)> = made.series.chunks_exact(ROW).take(made.count as usize).map(|row| (row[FIRST], row[COUNT])).collect();
        seen[0] += usize::from(doc.contains(&b'&'));
        seen[1] += usize::from(rows.windows(2).any(|two| two[1].0 < two[0].0 + two[0].1 && two[0].0 < two[1].0 + two[1].1));
        seen[2] += usize::from(rows.windows(2).any(|two| two[1].0 < two[0].0));
        seen[3] += usize::from(rows[0].0 > 0);
        seen[4] += usize::from(doc.windows(3).any(|three| three == b"=\" "));
    }
    assert!(kinds.iter().chain(&seen).chain([&not_lent]).all(|many| *many > 200), "{kinds:?} {seen:?} {not_lent}");
    assert!([3, 5, 6, 7, 8, 9].iter().all(|refusal| refusals[*refusal] > 100) && refusals[2] == 0, "{refusals:?}");
    assert_eq!(draft(5, 77), draft(5, 77));
}
