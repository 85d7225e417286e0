//! The proved library, called as C calls it.

use differential::model::LONGEST;
use differential::writing::Draft;
use lumintayag_sys::{lumintayag_read_v3, lumintayag_views, lumintayag_write};

#[derive(Clone, Copy)]
pub struct Answer {
    pub refusal: u32,
    pub place: usize,
    pub kind: u32,
}

/// Numbers that a series takes.
const ROW: usize = 12;

/// The shape of the note, which is not looked at.
const OLD: u32 = 0;

/// A series is longer than this, and so is an Interval: with a row for each there is room for all of them. What is lent then
/// plays no part, and with less room no other document is accepted.
const SHORTEST_SERIES: usize = 200;
const SHORTEST_INTERVAL: usize = 40;

pub fn read(doc: &[u8]) -> Answer {
    let rows = doc.len() / SHORTEST_INTERVAL + 1;
    let mut series = vec![0_u32; ROW * (doc.len() / SHORTEST_SERIES + 1)];
    let (mut positions, mut amounts) = (vec![0_u32; rows], vec![0_i64; rows]);
    let (mut note, mut answer) = ([0_u8; 16], [0_u32; 7]);
    // Each length is that of the slice its pointer is from.
    unsafe {
        lumintayag_read_v3(
            doc.as_ptr(),
            doc.len(),
            series.as_mut_ptr(),
            series.len(),
            positions.as_mut_ptr(),
            rows,
            amounts.as_mut_ptr(),
            rows,
            OLD,
            note.as_mut_ptr(),
            note.len(),
            answer.as_mut_ptr(),
            answer.len(),
        );
    }
    Answer { refusal: answer[0], place: answer[1] as usize, kind: answer[2] }
}

/// The table of views of an accepted document, and its kind.
pub fn views(doc: &[u8]) -> Option<(u32, Vec<u32>)> {
    let (mut table, mut answer) = (vec![0_u32; 32 + 44 * (doc.len() / SHORTEST_SERIES + 1)], [0_u32; 6]);
    // Each length is that of the slice its pointer is from.
    let refusal = unsafe { lumintayag_views(doc.as_ptr(), doc.len(), table.as_mut_ptr(), table.len(), answer.as_mut_ptr(), answer.len()) };
    (refusal == 0).then_some((answer[2], table))
}

/// What is written of a draft, in as much room as a document may take; nothing where it is refused.
pub fn write(draft: &Draft) -> Option<Vec<u8>> {
    let (mut out, mut answer) = (vec![0_u8; LONGEST], [0_u32; 2]);
    // Each length is that of the slice its pointer is from.
    let refusal = unsafe {
        lumintayag_write(
            draft.kind,
            draft.text.as_ptr(),
            draft.text.len(),
            draft.pairs.as_ptr(),
            draft.pairs.len(),
            draft.count,
            draft.series.as_ptr(),
            draft.series.len(),
            draft.positions.as_ptr(),
            draft.positions.len(),
            draft.amounts.as_ptr(),
            draft.amounts.len(),
            out.as_mut_ptr(),
            out.len(),
            answer.as_mut_ptr(),
            answer.len(),
        )
    };
    out.truncate(answer[1] as usize);
    (refusal == 0).then_some(out)
}
