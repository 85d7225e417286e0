//! The proved library, called as C calls it.

use differential::model::{Lengths, Outcome};
use differential::totals::{Added, Asked};
use differential::views::Viewed;
use differential::writing::{Draft, Written};
use lumintayag_sys::{
    lumintayag_convert_note, lumintayag_read_note_v2, lumintayag_read_v3, lumintayag_readable_len, lumintayag_totals, lumintayag_unescape,
    lumintayag_views, lumintayag_write,
};

/// Cells after those that are lent; none of them may change.
const GUARD: usize = 3;

/// `length` cells and the guard, full of the pattern.
fn full<T: Copy>(length: usize, pattern: T) -> Vec<T> {
    vec![pattern; length + GUARD]
}

/// The lent cells, where the guard was kept.
fn lent<T: Copy + PartialEq>(cells: Vec<T>, pattern: T) -> Result<Vec<T>, &'static str> {
    let mut cells = cells;
    let guard = cells.split_off(cells.len() - GUARD);
    if guard.iter().all(|cell| *cell == pattern) {
        Ok(cells)
    } else {
        Err("wrote past the end of what was lent")
    }
}

const WORD: u32 = 0xA5A5_5A5A;
const LONG: i64 = -0x5A5A_A5A5_1234_5678;
const BYTE: u8 = 0xC7;

pub fn read_in(shape: u32, doc: &[u8], lengths: &Lengths) -> Result<Outcome, &'static str> {
    let (mut series, mut positions) = (full(lengths.series, WORD), full(lengths.positions, WORD));
    let (mut amounts, mut note, mut answer) = (full(lengths.amounts, LONG), full(lengths.note, BYTE), full(7, WORD));
    // Each length is at most that of the slice its pointer is from.
    let returned = unsafe {
        lumintayag_read_v3(
            doc.as_ptr(),
            doc.len(),
            series.as_mut_ptr(),
            lengths.series,
            positions.as_mut_ptr(),
            lengths.positions,
            amounts.as_mut_ptr(),
            lengths.amounts,
            shape,
            note.as_mut_ptr(),
            lengths.note,
            answer.as_mut_ptr(),
            7,
        )
    };
    let answer: [u32; 7] = lent(answer, WORD)?.try_into().map_err(|_| "no seven numbers")?;
    if returned != answer[0] {
        return Err("returned another number than the answer's refusal");
    }
    Ok(Outcome { answer, series: lent(series, WORD)?, positions: lent(positions, WORD)?, amounts: lent(amounts, LONG)?, note: lent(note, BYTE)? })
}

pub fn readable_len(doc: &[u8]) -> usize {
    // The length is the document's.
    unsafe { lumintayag_readable_len(doc.as_ptr(), doc.len()) }
}

/// The refusal and `cells` cells with the numbers of a note.
pub fn read_note(note: &[u8], cells: usize) -> Result<(u32, Vec<u32>), &'static str> {
    let mut six = full(cells, WORD);
    // Both lengths are at most those of the slices.
    let returned = unsafe { lumintayag_read_note_v2(note.as_ptr(), note.len(), six.as_mut_ptr(), cells) };
    Ok((returned, lent(six, WORD)?))
}

/// The refusal, `cells` cells with the numbers of the answer, and `room` bytes with the note that was written.
pub fn convert(note: &[u8], shape: u32, room: usize, cells: usize) -> Result<(u32, Vec<u32>, Vec<u8>), &'static str> {
    let (mut out, mut answer) = (full(room, BYTE), full(cells, WORD));
    // Each length is at most that of the slice its pointer is from.
    let returned = unsafe { lumintayag_convert_note(note.as_ptr(), note.len(), shape, out.as_mut_ptr(), room, answer.as_mut_ptr(), cells) };
    Ok((returned, lent(answer, WORD)?, lent(out, BYTE)?))
}

pub fn add_up(asked: &Asked) -> Result<Added, &'static str> {
    let (mut totals, mut sum) = (full(asked.totals, LONG), full(asked.sum, LONG));
    // Each length is at most that of the slice its pointer is from.
    let refusal = unsafe {
        lumintayag_totals(
            asked.kind,
            asked.n,
            asked.count,
            asked.series.as_ptr(),
            asked.series.len(),
            asked.positions.as_ptr(),
            asked.positions.len(),
            asked.amounts.as_ptr(),
            asked.amounts.len(),
            totals.as_mut_ptr(),
            asked.totals,
            sum.as_mut_ptr(),
            asked.sum,
        )
    };
    Ok(Added { refusal, totals: lent(totals, LONG)?, sum: lent(sum, LONG)? })
}

pub fn view(doc: &[u8], table_len: usize, answer_len: usize) -> Result<Viewed, &'static str> {
    let (mut table, mut answer) = (full(table_len, WORD), full(answer_len, WORD));
    // Each length is at most that of the slice its pointer is from.
    let refusal = unsafe { lumintayag_views(doc.as_ptr(), doc.len(), table.as_mut_ptr(), table_len, answer.as_mut_ptr(), answer_len) };
    Ok(Viewed { refusal, table: lent(table, WORD)?, answer: lent(answer, WORD)? })
}

pub fn write(draft: &Draft, out_len: usize, answer_len: usize) -> Result<Written, &'static str> {
    let (mut out, mut answer) = (full(out_len, BYTE), full(answer_len, WORD));
    // Each length is at most that of the slice its pointer is from.
    let refusal = unsafe {
        lumintayag_write(
            draft.kind,
            draft.text.as_ptr(),
            draft.text.len(),
            draft.pairs.as_ptr(),
            draft.pairs.len(),
            draft.count,
            draft.series.as_ptr(),
            draft.series.len(),
            draft.positions.as_ptr(),
            draft.positions.len(),
            draft.amounts.as_ptr(),
            draft.amounts.len(),
            out.as_mut_ptr(),
            out_len,
            answer.as_mut_ptr(),
            answer_len,
        )
    };
    Ok(Written { refusal, out: lent(out, BYTE)?, answer: lent(answer, WORD)? })
}

/// How many bytes a value says, and `room` bytes with the first of them: "Bytes past it stay as they were."
pub fn unescape(value: &[u8], room: usize) -> Result<(usize, Vec<u8>), &'static str> {
    let mut out = full(room, BYTE);
    // Both lengths are at most those of the slices.
    let said = unsafe { lumintayag_unescape(value.as_ptr(), value.len(), out.as_mut_ptr(), room) };
    let mut out = lent(out, BYTE)?;
    if out.iter().skip(said).any(|byte| *byte != BYTE) {
        return Err("wrote past what a value says");
    }
    out.truncate(said);
    Ok((said, out))
}
