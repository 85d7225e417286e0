//! Writing documents, from document 02 alone (K6): what is lent is laid out as 02 fixes it, and the second reader says whether that would be accepted.

use crate::model::{judge, xml_characters, COUNT, FIRST, LONGEST, ROW};
use crate::rows::{Attribute, Row, Task, ROOTS};
use crate::views::{cell_of, HEADER_CELLS, SERIES_CELLS};

/// "from her tables, with a lent text of the unescaped header values and identifications": each value is a pair of that text, where views have it.
#[derive(Clone, PartialEq, Eq, Debug)]
pub struct Draft {
    pub kind: u32,
    pub text: Vec<u8>,
    pub pairs: Vec<u32>,
    pub count: u32,
    pub series: Vec<u32>,
    pub positions: Vec<u32>,
    pub amounts: Vec<i64>,
}

/// What is answered, and what is left in all that was lent.
#[derive(Clone, PartialEq, Eq, Debug)]
pub struct Written {
    pub refusal: u32,
    pub out: Vec<u8>,
    pub answer: Vec<u32>,
}

/// "a Beschaffungsanforderung or Kostenblatt"
const LAST_KIND: u32 = 2;

impl Draft {
    /// "pairs or rows past what is lent": every pair of the header and of the series that are counted, and their rows.
    fn is_lent(&self) -> bool {
        let count = u64::from(self.count);
        let cells = HEADER_CELLS as u64 + SERIES_CELLS as u64 * count;
        let lent = cells <= self.pairs.len() as u64 && ROW as u64 * count <= self.series.len() as u64;
        lent && self.pairs[..cells as usize].chunks(2).all(|pair| self.value(pair).is_some_and(xml_characters))
    }

    /// What a pair shows of the text; nothing where it lies past it.
    fn value(&self, pair: &[u32]) -> Option<&[u8]> {
        let (start, length) = (pair[0] as usize, pair[1] as usize);
        self.text.get(start..start.checked_add(length)?)
    }

    /// The value of an attribute in series 1 and so on, or in the header with 0; "absent where its cells are 0 and 0".
    fn given(&self, series: usize, row: &Row, wanted: &Attribute) -> Option<&[u8]> {
        let cell = cell_of(self.kind, series, row.name, wanted.name)?;
        let pair = self.pairs.get(cell..cell + 2)?;
        (pair != [0, 0]).then(|| self.value(pair))?
    }

    /// Position and amount of each row of series 1 and so on; nothing where one lies past the tables.
    fn rows(&self, series: usize) -> Option<Vec<(u32, i64)>> {
        let row = self.series.get((series - 1) * ROW..series * ROW)?;
        let (first, end) = (row[FIRST] as usize, row[FIRST] as usize + row[COUNT] as usize);
        let (positions, amounts) = (self.positions.get(first..end)?, self.amounts.get(first..end)?);
        Some(positions.iter().copied().zip(amounts.iter().copied()).collect())
    }
}

/// "references only where a byte needs one (`&amp;`, `&lt;`, `&quot;`, `&#9;`, `&#10;`, `&#13;`)"
fn escaped(value: &[u8]) -> Vec<u8> {
    let mut out = Vec::with_capacity(value.len());
    for byte in value {
        match byte {
            b'&' => out.extend_from_slice(b"&amp;"),
            b'<' => out.extend_from_slice(b"&lt;"),
            b'"' => out.extend_from_slice(b"&quot;"),
            b'\t' => out.extend_from_slice(b"&#9;"),
            b'\n' => out.extend_from_slice(b"&#10;"),
            b'\r' => out.extend_from_slice(b"&#13;"),
            other => out.push(*other),
        }
    }
    out
}

/// "no leading zeros but one before a point, no trailing fraction zeros, no minus at zero"
pub fn shortest(thousandths: i64) -> String {
    let (whole, fraction) = (thousandths.unsigned_abs() / 1000, thousandths.unsigned_abs() % 1000);
    let text = format!("{}{whole}.{fraction:03}", if thousandths < 0 { "-" } else { "" });
    text.trim_end_matches('0').trim_end_matches('.').to_string()
}

/// "no declaration, no text between tags, double quotes, guideline order of attributes, empty tags for single values"
struct Layout<'d> {
    draft: &'d Draft,
    out: Vec<u8>,
}

impl Layout<'_> {
    fn put(&mut self, parts: &[&[u8]]) {
        parts.iter().for_each(|part| self.out.extend_from_slice(part));
    }

    fn attribute(&mut self, name: &str, value: &[u8]) {
        self.put(&[b" ", name.as_bytes(), b"=\"", &escaped(value), b"\""]);
    }

    fn single(&mut self, name: &str, v: &str) {
        self.put(&[b"<", name.as_bytes()]);
        self.attribute("v", v.as_bytes());
        self.put(&[b"/>"]);
    }

    /// The children between both tags of their parent.
    fn group(&mut self, series: usize, row: &Row) -> Option<()> {
        self.put(&[b"<", row.name.as_bytes()]);
        self.given(series, row);
        self.put(&[b">"]);
        for child in row.children {
            match child.task {
                Task::Series => (1..=self.draft.count as usize).try_for_each(|each| self.group(each, child))?,
                Task::Interval => self.intervals(child.name, &self.draft.rows(series)?),
                _ if child.children.is_empty() => self.leaf(series, child),
                _ => self.group(series, child)?,
            }
        }
        self.put(&[b"</", row.name.as_bytes(), b">"]);
        Some(())
    }

    /// The attributes that have a value; how many there are. A root may be given those of every kind, though the reader knows DtdVersion and DtdRelease in kind 3 alone.
    fn given(&mut self, series: usize, row: &Row) -> usize {
        let attributes = if row.task == Task::Root { ROOTS[2].attributes } else { row.attributes };
        let given: Vec<_> = attributes.iter().filter_map(|wanted| Some((wanted.name, self.draft.given(series, row, wanted)?))).collect();
        given.iter().for_each(|(name, value)| self.attribute(name, value));
        given.len()
    }

    /// An element is there where one of its attributes is.
    fn leaf(&mut self, series: usize, row: &Row) {
        let before = self.out.len();
        self.put(&[b"<", row.name.as_bytes()]);
        if self.given(series, row) > 0 {
            self.put(&[b"/>"]);
        } else {
            self.out.truncate(before);
        }
    }

    fn intervals(&mut self, name: &str, rows: &[(u32, i64)]) {
        for (position, amount) in rows {
            self.put(&[b"<", name.as_bytes(), b">"]);
            self.single("Pos", &position.to_string());
            self.single("Qty", &shortest(*amount));
            self.put(&[b"</", name.as_bytes(), b">"]);
        }
    }
}

/// What is lent in the fixed layout, legal or not; nothing where the kind is not written or not all of it is lent.
pub fn laid_out(draft: &Draft) -> Option<Vec<u8>> {
    if !(1..=LAST_KIND).contains(&draft.kind) || !draft.is_lent() {
        return None;
    }
    let mut layout = Layout { draft, out: Vec::new() };
    layout.group(0, &ROOTS[draft.kind as usize - 1])?;
    Some(layout.out)
}

/// "The writer refuses exactly when no document of these kinds, length and room left aside, would be accepted with the given content": by meaning every
/// document with this content is judged as this one is.
pub fn document(draft: &Draft) -> Option<Vec<u8>> {
    laid_out(draft).filter(|doc| judge(doc, usize::MAX).refusal == 0)
}

/// "12 content (pairs or rows past what is lent too), then 13 length": the document, or nothing, in so many bytes of output and cells of answer.
pub fn written(doc: Option<&[u8]>, out: usize, answer: usize) -> Written {
    let (refusal, doc) = match doc {
        None => (12, &b""[..]),
        Some(doc) if doc.len() > out || doc.len() > LONGEST => (13, &b""[..]),
        Some(doc) => (0, doc),
    };
    let mut bytes = doc.to_vec();
    bytes.resize(out, 0);
    let mut cells = vec![refusal, doc.len() as u32];
    cells.resize(answer, 0);
    Written { refusal, out: bytes, answer: cells }
}

pub fn write(draft: &Draft, out: usize, answer: usize) -> Written {
    written(document(draft).as_deref(), out, answer)
}
