//! The archive's functions, called with slices. What `library/lumintayag.h` asks of a caller Rust's slices keep: a pointer is aligned and never null,
//! also where the length is 0, and a slice that is written to overlaps no other. So nothing outside this file has to be unsafe to call them.
#![allow(unsafe_code)]

use crate::sheet::Tables;
use crate::Shape;
use lumintayag_sys::{
    lumintayag_convert_note, lumintayag_read_note_v2, lumintayag_read_v3, lumintayag_totals, lumintayag_unescape, lumintayag_views, lumintayag_write,
};

/// A longer document is refused with 1.
pub const DOCUMENT_MOST: usize = 1_048_576;
/// Numbers that a series takes in the series table.
pub const SERIES_ROW: usize = 12;
/// Series that are room for every document.
pub const SERIES_ROOM: usize = 2_635;
/// Intervals that are room for every document.
pub const INTERVALS_ROOM: usize = 23_302;
/// Series that are added up at most; more are refused with 17.
pub const TOTALS_MOST: usize = 200;
/// Pairs of numbers that a header takes in a table of views, in every kind.
pub const HEADER_PAIRS: usize = 16;
/// Pairs of numbers that a series takes there.
pub const SERIES_PAIRS: usize = 22;

/// Bytes that the converter asks of the buffer it writes to, which are room for every note. The reader asks for 16.
pub(crate) const NOTE_ROOM: usize = 24;
const ANSWER_NUMBERS: usize = 7;
pub(crate) const NOTE_NUMBERS: usize = 6;
const CONVERTED_NUMBERS: usize = 2;
pub(crate) const TOTAL_NUMBERS: usize = 2;
const VIEWS_NUMBERS: usize = 6;
const WRITE_NUMBERS: usize = 2;

/// The seven numbers of the answer.
pub(crate) fn read(
    doc: &[u8],
    series: &mut [u32],
    positions: &mut [u32],
    amounts: &mut [i64],
    shape: Shape,
    note: &mut [u8; NOTE_ROOM],
) -> [u32; ANSWER_NUMBERS] {
    let mut answer = [0; ANSWER_NUMBERS];
    // SAFETY: each pointer comes with the length of the slice that it is of, and Rust lends the written ones to nobody else.
    unsafe {
        lumintayag_read_v3(
            doc.as_ptr(),
            doc.len(),
            series.as_mut_ptr(),
            series.len(),
            positions.as_mut_ptr(),
            positions.len(),
            amounts.as_mut_ptr(),
            amounts.len(),
            shape.number(),
            note.as_mut_ptr(),
            note.len(),
            answer.as_mut_ptr(),
            answer.len(),
        );
    }
    answer
}

/// The six numbers that a note tells; `None` where the bytes aren't one.
pub(crate) fn read_note(note: &[u8]) -> Option<[u32; NOTE_NUMBERS]> {
    let mut six = [0; NOTE_NUMBERS];
    // SAFETY: each pointer comes with the length of the slice or array that it is of.
    let refusal = unsafe { lumintayag_read_note_v2(note.as_ptr(), note.len(), six.as_mut_ptr(), six.len()) };
    (refusal == 0).then_some(six)
}

/// The note in this shape, in a buffer that is 0 after it, and its length; `None` where the bytes aren't one.
pub(crate) fn convert_note(note: &[u8], shape: Shape) -> Option<([u8; NOTE_ROOM], usize)> {
    let (mut out, mut answer) = ([0; NOTE_ROOM], [0; CONVERTED_NUMBERS]);
    // SAFETY: each pointer comes with the length of the slice or array that it is of, and Rust lends the written ones to nobody else.
    let refusal =
        unsafe { lumintayag_convert_note(note.as_ptr(), note.len(), shape.number(), out.as_mut_ptr(), out.len(), answer.as_mut_ptr(), answer.len()) };
    (refusal == 0).then_some((out, answer[1] as usize))
}

/// Adds up the first `count` series, and answers the refusal.
pub(crate) fn totals(kind: u32, quarters: u32, count: usize, tables: Tables<'_>, totals: &mut [i64], sum: &mut [i64]) -> u32 {
    let Tables { series, positions, amounts } = tables;
    // SAFETY: each pointer comes with the length of the slice that it is of, and Rust lends the written ones to nobody else.
    unsafe {
        lumintayag_totals(
            kind,
            quarters,
            count,
            series.as_ptr(),
            series.len(),
            positions.as_ptr(),
            positions.len(),
            amounts.as_ptr(),
            amounts.len(),
            totals.as_mut_ptr(),
            totals.len(),
            sum.as_mut_ptr(),
            sum.len(),
        )
    }
}

/// The six numbers of the answer.
pub(crate) fn views(doc: &[u8], table: &mut [u32]) -> [u32; VIEWS_NUMBERS] {
    let mut answer = [0; VIEWS_NUMBERS];
    // SAFETY: each pointer comes with the length of the slice or array that it is of, and Rust lends the written ones to nobody else.
    unsafe {
        lumintayag_views(doc.as_ptr(), doc.len(), table.as_mut_ptr(), table.len(), answer.as_mut_ptr(), answer.len());
    }
    answer
}

/// The two numbers of the answer.
pub(crate) fn write(kind: u32, text: &[u8], pairs: &[u32], count: u32, tables: Tables<'_>, out: &mut [u8]) -> [u32; WRITE_NUMBERS] {
    let Tables { series, positions, amounts } = tables;
    let mut answer = [0; WRITE_NUMBERS];
    // SAFETY: each pointer comes with the length of the slice or array that it is of, and Rust lends the written ones to nobody else.
    unsafe {
        lumintayag_write(
            kind,
            text.as_ptr(),
            text.len(),
            pairs.as_ptr(),
            pairs.len(),
            count,
            series.as_ptr(),
            series.len(),
            positions.as_ptr(),
            positions.len(),
            amounts.as_ptr(),
            amounts.len(),
            out.as_mut_ptr(),
            out.len(),
            answer.as_mut_ptr(),
            answer.len(),
        );
    }
    answer
}

/// How many bytes the value says, whether they found room or not.
pub(crate) fn unescape(value: &[u8], out: &mut [u8]) -> usize {
    // SAFETY: each pointer comes with the length of the slice that it is of, and Rust lends the written one to nobody else.
    unsafe { lumintayag_unescape(value.as_ptr(), value.len(), out.as_mut_ptr(), out.len()) }
}
