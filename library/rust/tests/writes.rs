//! The writer over lent tables, with a document that has no reference as the text of what it shows.
mod common;

use common::*;
use lumintayag::{unescape, views, write, Kind, Refusal, Tables, WriteRefused, HEADER_PAIRS, SERIES_PAIRS, SERIES_ROW};

/// A document with its pairs and tables.
struct Held {
    doc: String,
    desk: Desk,
    pairs: Vec<u32>,
}

impl Held {
    fn new(doc: String) -> Self {
        let (mut desk, mut pairs) = (Desk::large(), vec![77; 2 * (HEADER_PAIRS + 64 * SERIES_PAIRS)]);
        assert!(desk.read(doc.as_bytes()).is_ok() && views(doc.as_bytes(), &mut pairs).is_ok());
        Held { doc, desk, pairs }
    }

    /// The document that is written of the first `count` series; every byte past it, or on a refusal all, are 0.
    fn write(&self, kind: Kind, count: usize) -> Result<String, Refusal> {
        let mut out = vec![77; 1 << 16];
        let answer = write(kind, self.doc.as_bytes(), &self.pairs, count, self.tables(), &mut out);
        let document = answer.map(|written| written.document().to_vec()).map_err(|refused: WriteRefused| refused.refusal());
        let len = document.as_ref().map_or(0, |document| document.len());
        assert!(out[len..].iter().all(|&byte| byte == 0));
        document.map(|document| String::from_utf8(document).expect("UTF-8"))
    }

    fn tables(&self) -> Tables<'_> {
        Tables { series: &self.desk.series, positions: &self.desk.positions, amounts: &self.desk.amounts }
    }

    fn unfit(&self) -> bool {
        self.write(Kind::Kostenblatt, 2) == Err(Refusal::ContentUnfit)
    }
}

fn is_accepted(document: &str) -> bool {
    Desk::large().read(document.as_bytes()).is_ok()
}

#[test]
fn what_was_read() {
    let held = Held::new(two_plants());
    let document = held.write(Kind::Kostenblatt, 2).expect("written");
    assert!(is_accepted(&document) && document.contains("<TimeSeriesIdentification v=\"Straße ä\"/>") && document.contains("<Qty v=\"-0.001\"/>"));
    assert!(Held::new(document.clone()).write(Kind::Kostenblatt, 2) == Ok(document), "a document of the layout is written as it is");
    assert!(held.write(Kind::Kostenblatt, 1).is_ok_and(|document| is_accepted(&document)), "the first series alone");
    let day = "2024-10-26T22:00Z/2024-10-27T23:00Z";
    let held = Held::new(beschaffungsanforderung(day, &(request("a", day, 100) + &request("b", day, 100))));
    assert!(held.write(Kind::Beschaffungsanforderung, 2).is_ok_and(|document| is_accepted(&document)));
    assert_eq!(held.write(Kind::Kostenblatt, 2), Err(Refusal::ContentUnfit));
}

#[test]
fn kinds_and_counts() {
    let held = Held::new(two_plants());
    for kind in
        [Kind::Beschaffungsanforderung, Kind::NetworkConstraintDocument].into_iter().chain([4, u32::MAX].into_iter().filter_map(Kind::from_number))
    {
        assert_eq!(held.write(kind, 2), Err(Refusal::ContentUnfit));
    }
    for count in [0, 3, 64, 65, u32::MAX as usize, usize::MAX] {
        assert_eq!(held.write(Kind::Kostenblatt, count), Err(Refusal::ContentUnfit), "{count} series");
    }
}

/// A pair past the text, also one that the kind has no value for; one that ends with the text; and one that cuts a character.
#[test]
fn pairs_past_the_text() {
    let mut held = Held::new(two_plants());
    let len = held.doc.len() as u32;
    for pair in [0, 3, 15, 16, 36, 37, 38, 59] {
        let kept = held.pairs.clone();
        for past in [[len, 1], [len + 1, 0], [1, u32::MAX], [u32::MAX, u32::MAX]] {
            held.pairs[2 * pair..][..2].copy_from_slice(&past);
            assert!(held.unfit(), "pair {pair}");
        }
        held.pairs = kept;
    }
    for (pair, empty) in [(15, [len, 0]), (37, [len, 0]), (59, [1, 3])] {
        held.pairs[2 * pair..][..2].copy_from_slice(&empty);
    }
    held.pairs[32..34].copy_from_slice(&[len, 0]);
    assert!(held.unfit(), "the identification of both is empty");
    let umlaut = held.doc.find('ß').expect("a name") as u32;
    held.pairs[32..34].copy_from_slice(&[umlaut, 2]);
    assert!(held.write(Kind::Kostenblatt, 2).is_ok_and(|document| document.contains("<TimeSeriesIdentification v=\"ß\"/>")));
    held.pairs[33] = 1;
    assert!(held.unfit(), "half of a character");
}

/// Rows past the tables, without wrap; in another order, with a gap, or overlapping they are content like any other.
#[test]
fn rows_of_intervals() {
    let mut held = Held::new(two_plants());
    for rows in [[4, 2], [5, 1], [u32::MAX, 1], [1, u32::MAX], [0, 0], [2047, 2]] {
        held.desk.series[SERIES_ROW + 10..][..2].copy_from_slice(&rows);
        assert!(held.unfit(), "{rows:?}");
    }
    for (first, second) in [([3, 2], [0, 3]), ([0, 1], [0, 3]), ([3, 2], [3, 2]), ([0, 2], [3, 1])] {
        held.desk.series[10..12].copy_from_slice(&first);
        held.desk.series[SERIES_ROW + 10..][..2].copy_from_slice(&second);
        let document = held.write(Kind::Kostenblatt, 2).expect("written");
        assert!(is_accepted(&document));
    }
    held.desk.amounts.truncate(3);
    assert!(held.unfit(), "an amount past its table");
}

#[test]
fn unescaped_into_lent_bytes() {
    for (value, says) in [("", ""), ("A01", "A01"), ("M&amp;B &#x4a;&#228;&#x10FFFF;", "M&B Jä\u{10FFFF}"), ("&amp;lt;", "&lt;"), ("&bad;", "\0bad;")]
    {
        for len in 0..says.len() + 3 {
            let mut out = vec![77; len];
            assert_eq!(unescape(value, &mut out), says.len());
            let put = len.min(says.len());
            assert!(out[..put] == says.as_bytes()[..put] && out[put..].iter().all(|&byte| byte == 77));
        }
    }
}
