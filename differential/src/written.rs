//! Documents written by the proved library and by the second writer: what was read of one, written again from its tables, and drafts.

use crate::library;
use differential::documents::right_document;
use differential::drafts::{draft, outputs};
use differential::model::{Lengths, COUNT, FIRST, LONGEST, OLD, ROW};
use differential::references::meaning;
use differential::views::{HEADER_CELLS, SERIES_CELLS};
use differential::writing::{document, written, Draft, Written};
use std::ops::Range;

/// How many documents were written again by kind, those of kind 3 being refused; and how many of kinds 1 and 2 with themselves as the text too.
#[derive(Default)]
pub struct Tally {
    pub kinds: [u64; 4],
    pub as_text: u64,
    /// Drafts that are written, 12, and 13, in two outputs each; and of those the ones whose document is exactly as long as one may be, and one byte longer.
    pub drafts: [u64; 3],
    pub longest: [u64; 2],
}

/// A document as the library reads and views it.
struct Sheet {
    kind: u32,
    n: u32,
    count: u32,
    pairs: Vec<u32>,
    series: Vec<u32>,
    positions: Vec<u32>,
    amounts: Vec<i64>,
}

/// No series and no Interval is shorter, so that there is room for all of them.
const SHORTEST_SERIES: usize = 398;
const SHORTEST_INTERVAL: usize = 45;

/// Nothing where it is refused.
fn read(doc: &[u8]) -> Result<Option<Sheet>, &'static str> {
    let (most, rows) = (doc.len() / SHORTEST_SERIES, doc.len() / SHORTEST_INTERVAL);
    let outcome = library::read_in(OLD, doc, &Lengths { series: ROW * most, positions: rows, amounts: rows, note: 16 })?;
    let [refusal, _, kind, count, intervals, n, _] = outcome.answer;
    if refusal != 0 {
        return Ok(None);
    }
    let first = |table: Vec<u32>, cells: usize| table.into_iter().take(cells).collect::<Vec<u32>>();
    let cells = HEADER_CELLS + SERIES_CELLS * count as usize;
    let (pairs, positions) = (first(library::view(doc, cells, 6)?.table, cells), first(outcome.positions, intervals as usize));
    let amounts = outcome.amounts.into_iter().take(intervals as usize).collect();
    Ok(Some(Sheet { kind, n, count, pairs, series: first(outcome.series, ROW * count as usize), positions, amounts }))
}

impl Sheet {
    /// A draft with a text of what the values say, behind a byte that is of none, so that an empty value doesn't start at 0.
    fn draft(&self, doc: &[u8]) -> Result<Draft, &'static str> {
        let (mut text, mut pairs) = (vec![b'?'], Vec::new());
        for pair in self.pairs.chunks(2) {
            if pair == [0, 0] {
                pairs.extend_from_slice(pair);
                continue;
            }
            let said = said(doc, pair[0] as usize, pair[1] as usize)?;
            pairs.extend([text.len() as u32, said.len() as u32]);
            text.extend(said);
        }
        Ok(Draft { text, pairs, ..self.draft_in(&[]) })
    }

    /// A draft with the document as the text.
    fn draft_in(&self, doc: &[u8]) -> Draft {
        let (series, positions, amounts) = (self.series.clone(), self.positions.clone(), self.amounts.clone());
        Draft { kind: self.kind, text: doc.to_vec(), pairs: self.pairs.clone(), count: self.count, series, positions, amounts }
    }

    fn rows(&self) -> Vec<(u32, u32)> {
        self.series.chunks(ROW).map(|row| (row[FIRST], row[COUNT])).collect()
    }

    fn is_same(&self, other: &Sheet) -> bool {
        (self.kind, self.n, self.rows(), &self.positions, &self.amounts) == (other.kind, other.n, other.rows(), &other.positions, &other.amounts)
    }
}

/// What a value says by the library, in as much room as it has and in half of it, held against the second reader.
fn said(doc: &[u8], start: usize, length: usize) -> Result<Vec<u8>, &'static str> {
    let (value, expected) = (&doc[start..start + length], meaning(doc, start..start + length));
    for room in [length / 2, length] {
        let (long, front) = library::unescape(value, room)?;
        if long != expected.len() || front[..] != expected[..expected.len().min(room)] {
            return Err("a value says another thing");
        }
    }
    Ok(expected)
}

/// Written by both into bytes that just hold it, more, and one less: the document.
fn both(draft: &Draft) -> Result<Vec<u8>, &'static str> {
    let doc = document(draft).ok_or("what was accepted is 12 to the second writer")?;
    for out in [doc.len(), doc.len() + 9, doc.len() - 1] {
        if library::write(draft, out, 2)? != written(Some(&doc), out, 2) {
            return Err("the two write different bytes");
        }
    }
    Ok(doc)
}

/// "What is written is accepted by the reader given room, and gives back the same positions, amounts and texts": what each value says, without the spaces that
/// views leave out.
fn again(doc: &[u8], tally: &mut Tally) -> Result<(), &'static str> {
    let Some(sheet) = read(doc)? else { return Ok(()) };
    let draft = sheet.draft(doc)?;
    tally.kinds[sheet.kind as usize] += 1;
    if sheet.kind == 3 {
        return if library::write(&draft, doc.len(), 2)? == written(None, doc.len(), 2) { Ok(()) } else { Err("kind 3 is not 12") };
    }
    let bytes = both(&draft)?;
    if !doc.contains(&b'&') {
        tally.as_text += 1;
        if library::write(&sheet.draft_in(doc), bytes.len(), 2)? != written(Some(&bytes), bytes.len(), 2) {
            return Err("with itself as the text it is written otherwise");
        }
    }
    let back = read(&bytes)?.ok_or("what was written is refused")?;
    let once_more = back.draft(&bytes)?;
    if !back.is_same(&sheet) || (&once_more.text, &once_more.pairs) != (&draft.text, &draft.pairs) {
        return Err("what was written says another thing");
    }
    if library::write(&once_more, bytes.len(), 2)? != written(Some(&bytes), bytes.len(), 2) {
        return Err("what was read back is written otherwise");
    }
    Ok(())
}

fn same_again(doc: &[u8], seed: u64, number: u64, tally: &mut Tally) -> bool {
    let Err(what) = again(doc, tally) else { return true };
    println!("difference: seed {seed}, number {number}, {} bytes, written again: {what}\n{}", doc.len(), doc.escape_ascii());
    false
}

/// Of how many numbers one has a right document, and one a draft.
const RIGHT: u64 = 4;
const DRAFTS: u64 = 2;

fn same_right(seed: u64, number: u64, tally: &mut Tally) -> bool {
    number % RIGHT != 0 || same_again(&right_document(seed, number), seed, number, tally)
}

/// A document that is accepted, and right ones, written again; and drafts.
pub fn same(doc: &[u8], seed: u64, number: u64, tally: &mut Tally) -> bool {
    same_again(doc, seed, number, tally) && same_right(seed, number, tally) && (number % DRAFTS != 0 || same_draft(seed, number, tally))
}

/// Right documents, and a draft for each number.
pub fn all(numbers: Range<u64>, seed: u64) -> bool {
    let mut tally = Tally::default();
    for number in numbers {
        if !same_right(seed, number, &mut tally) || !same_draft(seed, number, &mut tally) {
            return false;
        }
    }
    tally.print();
    println!("no difference");
    true
}

/// A draft in two outputs of other lengths.
fn same_draft(seed: u64, number: u64, tally: &mut Tally) -> bool {
    let draft = draft(seed, number);
    let doc = document(&draft);
    let length = doc.as_ref().map(Vec::len);
    for (out, answer) in outputs(seed, number, length) {
        let (expected, answered) = (written(doc.as_deref(), out, answer), library::write(&draft, out, answer));
        tally.drafts[expected.refusal.saturating_sub(11) as usize] += 1;
        (0..2).filter(|more| length == Some(LONGEST + more) && out >= LONGEST + more).for_each(|more| tally.longest[more] += 1);
        if answered.as_ref() != Ok(&expected) {
            println!("difference: seed {seed}, number {number}, a draft in {out} and {answer}; {draft:?}\ntext: {}", draft.text.escape_ascii());
            let told = |it: &Written| format!("{}, {:?}, {}", it.refusal, it.answer, front(&it.out).escape_ascii());
            println!("model:   {}\nlibrary: {}", told(&expected), answered.map_or_else(str::to_string, |it| told(&it)));
            return false;
        }
    }
    true
}

/// An output without the zeros at its end.
fn front(out: &[u8]) -> &[u8] {
    &out[..out.iter().rposition(|byte| *byte != 0).map_or(0, |last| last + 1)]
}

impl Tally {
    pub fn print(&self) {
        let ([_, one, two, three], as_text) = (self.kinds, self.as_text);
        println!("written again: {one} of kind 1, {two} of kind 2, {as_text} of them with themselves as the text too; {three} of kind 3 refused");
        let ([taken, content, length], [longest, longer]) = (self.drafts, self.longest);
        println!("drafts: {taken} written, refusal 12: {content}, 13: {length}; with room, {longest} of {LONGEST} bytes and {longer} of one more");
    }
}
