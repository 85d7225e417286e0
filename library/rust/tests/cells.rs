//! The archive's own functions, with answer slices and note buffers of every size. A cell that was not to be written would show.
#![allow(unsafe_code)]
mod common;

use common::two_plants;
use lumintayag::SERIES_ROW;
use lumintayag_sys::{lumintayag_convert_note, lumintayag_read_note_v2, lumintayag_read_v3, lumintayag_totals, lumintayag_views, lumintayag_write};

/// The numbers as far as there are cells, 0 in the cells after them, and old numbers past the slice.
fn expected<T: Copy + From<u8>>(numbers: &[T], len: usize) -> Vec<T> {
    (0..12).map(|i| if i >= len { T::from(77) } else { numbers.get(i).copied().unwrap_or(T::from(0)) }).collect()
}

#[test]
fn an_answer_of_every_size() {
    let doc = b"<Kostenblatt DtdBDEWNachrichtenVersion=\"1.0\">";
    let told = [(0, &[3, 45, 2, 0, 0][..]), (1, &[100, 3, 45, 2, 0, 0, 1]), (2, &[100, 3, 45, 2, 0, 0, 1]), (u32::MAX, &[100, 3, 45, 2, 0, 0, 1])];
    for (len, (shape, expected_note)) in (0..=12).flat_map(|len| told.map(|of| (len, of))) {
        let (mut series, mut positions, mut amounts, mut note, mut answer) = ([77; SERIES_ROW], [77; 1], [77; 1], [77; 16], [77; 12]);
        // SAFETY: no length is more than that of the array.
        let refusal = unsafe {
            lumintayag_read_v3(
                doc.as_ptr(),
                doc.len(),
                series.as_mut_ptr(),
                series.len(),
                positions.as_mut_ptr(),
                1,
                amounts.as_mut_ptr(),
                1,
                shape,
                note.as_mut_ptr(),
                16,
                answer.as_mut_ptr(),
                len,
            )
        };
        assert_eq!((refusal, answer.to_vec()), (3, expected(&[3, 45, 2, 0, 0, 0, expected_note.len() as u32], len)));
        assert!(note.starts_with(expected_note) && note[expected_note.len()..].iter().all(|&b| b == 0));
        assert!((series, positions, amounts) == ([0; SERIES_ROW], [0], [0]));
    }
}

#[test]
fn a_note_buffer_of_every_size() {
    let docs = [two_plants(), String::new(), "<a".into()];
    for (doc, shape) in docs.iter().flat_map(|doc| [0, 1, 7].map(|shape| (doc, shape))) {
        let mut notes = Vec::new();
        for room in 0..=40 {
            let (mut series, mut positions, mut amounts, mut note, mut answer) = ([77; 2 * SERIES_ROW], [77; 5], [77; 5], [77; 40], [77; 7]);
            // SAFETY: no length is more than that of the array.
            let refusal = unsafe {
                lumintayag_read_v3(
                    doc.as_ptr(),
                    doc.len(),
                    series.as_mut_ptr(),
                    series.len(),
                    positions.as_mut_ptr(),
                    5,
                    amounts.as_mut_ptr(),
                    5,
                    shape,
                    note.as_mut_ptr(),
                    room,
                    answer.as_mut_ptr(),
                    7,
                )
            };
            assert_eq!(refusal, answer[0]);
            assert!(note[room..].iter().all(|&b| b == 77));
            if room < 16 {
                assert_eq!(answer, [10, 0, 0, 0, 0, 0, 0]);
                assert!(note[..room].iter().all(|&b| b == 0));
                assert!(series == [0; 2 * SERIES_ROW] && positions == [0; 5] && amounts == [0; 5]);
            } else {
                assert_ne!(refusal, 10);
                assert!(note[answer[6] as usize..room].iter().all(|&b| b == 0));
                notes.push(note[..16].to_vec());
            }
        }
        assert!(notes.windows(2).all(|w| w[0] == w[1]));
    }
}

#[test]
fn six_numbers_of_every_size() {
    let (old, new) = (&[9, 0xAC, 2, 2, 1, 7][..], &[100, 9, 0xAC, 2, 2, 1, 7, 3][..]);
    for len in 0..=12 {
        for (note, refusal, six) in [(old, 0, [9, 300, 2, 1, 7, 0]), (new, 0, [9, 300, 2, 1, 7, 3]), (&[9, 1][..], 11, [0; 6])] {
            let mut cells = [77; 12];
            // SAFETY: no length is more than that of the array.
            let said = unsafe { lumintayag_read_note_v2(note.as_ptr(), note.len(), cells.as_mut_ptr(), len) };
            assert_eq!((said, cells.to_vec()), (refusal, expected(&six, len)));
        }
    }
}

/// A note into each length of output, in both shapes; 10 goes before 11.
#[test]
fn a_converted_note_of_every_size() {
    let (old, flat, deep) = (&[9, 0xAC, 2, 2, 1, 7][..], &[100, 9, 0xAC, 2, 2, 1, 7, 0][..], &[100, 9, 0xAC, 2, 2, 1, 7, 3][..]);
    let (none, neither) = (&[][..], &[100, 1, 0, 0, 0][..]);
    let cases =
        [(old, 0, old), (old, 1, flat), (deep, 0, old), (deep, 1, deep), (flat, 0, old), (flat, 9, flat), (neither, 0, none), (neither, 1, none)];
    for (room, len) in (0..=40).flat_map(|room| (0..=4).map(move |len| (room, len))) {
        for (note, shape, written) in cases {
            let (mut out, mut answer) = ([77; 40], [77; 12]);
            // SAFETY: no length is more than that of the array.
            let said = unsafe { lumintayag_convert_note(note.as_ptr(), note.len(), shape, out.as_mut_ptr(), room, answer.as_mut_ptr(), len) };
            let (refusal, written) = if room < 24 { (10, none) } else { (if written.is_empty() { 11 } else { 0 }, written) };
            assert_eq!((said, answer.to_vec()), (refusal, expected(&[refusal, written.len() as u32], len)));
            assert!(out.starts_with(written) && out[written.len()..room].iter().all(|&b| b == 0) && out[room..].iter().all(|&b| b == 77));
        }
    }
}

#[test]
fn totals_of_every_size() {
    let mut series = [0; 3 * SERIES_ROW];
    for (i, (first, count)) in [(0, 2), (2, 1), (3, 3)].into_iter().enumerate() {
        (series[SERIES_ROW * i + 10], series[SERIES_ROW * i + 11]) = (first, count);
    }
    let (positions, amounts) = ([1, 3, 1, 1, 2, 4], [12_500, -1, -7, 1, 0, -1_000]);
    let told = [24, 998, -1, 972, -1, 1, 23, 971]; // 24.998, -0.028 and -0.999; all of them 23.971
    for len in 0..=12 {
        for sum_len in 0..=12 {
            for (quarters, refusal) in [(4, 0), (3, 18)] {
                let (mut totals, mut sum) = ([77; 12], [77; 12]);
                // SAFETY: no length is more than that of the array.
                let said = unsafe {
                    lumintayag_totals(
                        2,
                        quarters,
                        3,
                        series.as_ptr(),
                        series.len(),
                        positions.as_ptr(),
                        6,
                        amounts.as_ptr(),
                        6,
                        totals.as_mut_ptr(),
                        len,
                        sum.as_mut_ptr(),
                        sum_len,
                    )
                };
                let (each, all): (&[i64], &[i64]) = if refusal == 0 { told.split_at(6) } else { (&[], &[]) };
                assert_eq!(said, refusal);
                assert!(totals.to_vec() == expected(each, len) && sum.to_vec() == expected(all, sum_len), "{len} and {sum_len} cells");
            }
        }
    }
}

/// A table of 31, 32 and 120 cells, and an answer of every size; cells past the table keep their old numbers.
#[test]
fn views_of_every_size() {
    let doc = two_plants();
    // 2031-02-02T23:00Z is day 11355 from 2000-01-01
    let (from, series) = (11_355 * 1440 + 23 * 60, doc.find("<CostTimeSeries>").unwrap_or(0) as u32);
    let told = [(31, [4, 0, 0, 0, 0, 0]), (32, [4, series, 2, 0, 0, 0]), (120, [0, doc.len() as u32, 2, 2, from, from + 1440])];
    for (len, (cells, six)) in (0..=12).flat_map(|len| told.map(|of| (len, of))) {
        let (mut table, mut answer) = ([77; 130], [77; 12]);
        // SAFETY: no length is more than that of the array.
        let said = unsafe { lumintayag_views(doc.as_ptr(), doc.len(), table.as_mut_ptr(), cells, answer.as_mut_ptr(), len) };
        assert_eq!((said, answer.to_vec()), (six[0], expected(&six, len)));
        assert!(table[cells..].iter().all(|&cell| cell == 77) && (said == 0 || table[..cells].iter().all(|&cell| cell == 0)));
    }
}

/// An output that is too short, one that fits and one with room to spare, a refused count, and an answer of every size.
#[test]
fn written_of_every_size() {
    let (doc, mut pairs) = (two_plants(), [0; 120]);
    // SAFETY: no length is more than that of the array.
    assert_eq!(unsafe { lumintayag_views(doc.as_ptr(), doc.len(), pairs.as_mut_ptr(), pairs.len(), [0; 1].as_mut_ptr(), 0) }, 0);
    let mut series = [0; 2 * SERIES_ROW];
    (series[SERIES_ROW - 1], series[2 * SERIES_ROW - 2], series[2 * SERIES_ROW - 1]) = (3, 3, 2);
    let (positions, amounts) = ([1, 29, 96, 1, 2], [84_500, -61_250, 999_999_999_999_999, 0, -1]);
    let write = |count, room, len| {
        let (mut out, mut answer) = ([77; 4096], [77; 12]);
        // SAFETY: no length is more than that of the array.
        let said = unsafe {
            lumintayag_write(
                2,
                doc.as_ptr(),
                doc.len(),
                pairs.as_ptr(),
                pairs.len(),
                count,
                series.as_ptr(),
                series.len(),
                positions.as_ptr(),
                5,
                amounts.as_ptr(),
                5,
                out.as_mut_ptr(),
                room,
                answer.as_mut_ptr(),
                len,
            )
        };
        assert!(out[room..].iter().all(|&byte| byte == 77));
        (said, answer.to_vec(), out[..room].to_vec())
    };
    let whole = write(2, 4096, 2);
    let document = &whole.2[..whole.1[1] as usize];
    assert!(document.ends_with(b"</Kostenblatt>"));
    let told = [(2, document.len() - 1, 13), (2, document.len(), 0), (2, 4096, 0), (3, 4096, 12), (3, 0, 12), (2, 0, 13)];
    for (len, (count, room, refusal)) in (0..=12).flat_map(|len| told.map(|of| (len, of))) {
        let (said, answer, out) = write(count, room, len);
        let put = if refusal == 0 { document } else { &[] };
        assert_eq!((said, answer), (refusal, expected(&[refusal, put.len() as u32], len)));
        assert!(out.starts_with(put) && out[put.len()..].iter().all(|&byte| byte == 0));
    }
}
