//! What the library writes of a draft, held against the attribute values that expat tells of it: each as it was given, to the byte.

use crate::expat;
use crate::views::SERIES;
use differential::model::{COUNT, FIRST, ROW};
use differential::views::{cell_of, HEADER_CELLS, SERIES_CELLS};
use differential::writing::{shortest, Draft};

/// Position and amount of each row, series after series.
fn rows(draft: &Draft) -> Vec<(u32, i64)> {
    let series = draft.series.chunks_exact(ROW).take(draft.count as usize);
    let all = series.flat_map(|row| row[FIRST] as usize..row[FIRST] as usize + row[COUNT] as usize);
    all.map(|row| (draft.positions[row], draft.amounts[row])).collect()
}

/// How many values a written document has, each of them as expat tells it what the draft gives; nothing where one differs, or is missing.
pub fn agreed(draft: &Draft, doc: &[u8]) -> Option<u64> {
    let mut pairs = draft.pairs[..HEADER_CELLS + SERIES_CELLS * draft.count as usize].to_vec();
    let mut numbers = rows(draft).into_iter().flat_map(|(position, amount)| [position.to_string(), shortest(amount)]);
    let (mut series, mut told) = (0, 0);
    for element in expat::elements(doc) {
        series += usize::from(SERIES.contains(&element.name.as_str()));
        for (attribute, value) in &element.attributes {
            told += 1;
            let Some(cell) = cell_of(draft.kind, series, &element.name, attribute) else {
                (numbers.next()? == *value).then_some(())?;
                continue;
            };
            let (start, length) = (pairs[cell] as usize, pairs[cell + 1] as usize);
            (draft.text[start..start + length] == *value.as_bytes() && (start, length) != (0, 0)).then_some(())?;
            (pairs[cell], pairs[cell + 1]) = (0, 0);
        }
    }
    let left = (0..pairs.len()).any(|cell| pairs[cell] != 0 && is_known(draft.kind, cell));
    (!left && numbers.next().is_none()).then_some(told)
}

/// Not those of pairs that the kind has no value for, which are not written: DocStatus, and the last ones of a series.
fn is_known(kind: u32, cell: usize) -> bool {
    match cell.checked_sub(HEADER_CELLS) {
        None => cell < HEADER_CELLS - 2,
        Some(cell) => cell % SERIES_CELLS < if kind == 1 { 40 } else { 42 },
    }
}
