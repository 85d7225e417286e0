//! Views of whole documents beside the document reader, in one run: both judge the document, and the walks take turns. There is no peer for views.
use lumintayag_sys::{lumintayag_read_v3, lumintayag_views};
use side_by_side::{best, document, grouped, print_head, print_row, short, worst, Walk};
use std::cell::RefCell;

/// What is lent. All of it is cleared first, so that its size counts.
struct Lent {
    series: Vec<u32>,
    positions: Vec<u32>,
    amounts: Vec<i64>,
    note: [u8; 16],
    table: Vec<u32>,
    answer: [u32; 7],
}

thread_local! {
    static LENT: RefCell<Lent> = RefCell::new(lent(0, 0));
}

/// Numbers that a series takes in the series table; pairs that a header and a series take in the table of views.
const ROW: usize = 12;
const PAIRS: (usize, usize) = (16, 22);

/// Room for every document of 1 MiB.
const MOST: (usize, usize) = (2_635, 23_302);

fn lent(series: usize, intervals: usize) -> Lent {
    Lent {
        series: vec![0; ROW * series],
        positions: vec![0; intervals],
        amounts: vec![0; intervals],
        note: [0; 16],
        table: vec![0; 2 * (PAIRS.0 + PAIRS.1 * series)],
        answer: [0; 7],
    }
}

fn reader(doc: &[u8]) -> usize {
    LENT.with_borrow_mut(|t| {
        let refusal = unsafe {
            lumintayag_read_v3(
                doc.as_ptr(),
                doc.len(),
                t.series.as_mut_ptr(),
                t.series.len(),
                t.positions.as_mut_ptr(),
                t.positions.len(),
                t.amounts.as_mut_ptr(),
                t.amounts.len(),
                0,
                t.note.as_mut_ptr(),
                t.note.len(),
                t.answer.as_mut_ptr(),
                t.answer.len(),
            )
        };
        if refusal == 0 { doc.len() } else { 0 }
    })
}

fn views(doc: &[u8]) -> usize {
    LENT.with_borrow_mut(|t| {
        let refusal =
            unsafe { lumintayag_views(doc.as_ptr(), doc.len(), t.table.as_mut_ptr(), t.table.len(), t.answer.as_mut_ptr(), t.answer.len()) };
        if refusal == 0 { doc.len() } else { 0 }
    })
}

const WALKS: &[(&str, Walk)] = &[("reader", reader), ("views", views)];

type Make = fn(usize, document::Layout) -> Vec<u8>;

fn sheets() {
    let kinds: [(u32, Make); 3] = [(1, document::beschaffungsanforderung), (2, document::kostenblatt), (3, document::network_constraint_document)];
    print_head(&["kind", "layout", "bytes", "reader, ms", "views, ms", "views over reader", "views, MB/s"]);
    for (kind, make) in kinds {
        for (layout, of) in document::LAYOUTS {
            for (size, (series, intervals)) in [(4 << 10, (64, 2_048)), (64 << 10, (64, 2_048)), (1 << 20, MOST)] {
                let doc = make(size, of);
                LENT.replace(lent(series, intervals));
                assert!(reader(&doc) > 0 && views(&doc) > 0, "the document is refused");
                let rounds = ((200 << 20) / doc.len().max(1 << 17)).max(50);
                let seconds = best(&doc, WALKS, rounds);
                let [read, viewed] = [seconds[0], seconds[1]];
                let speed = grouped((doc.len() as f64 / viewed / 1e6).round() as usize);
                let front = [kind.to_string(), layout.to_string(), grouped(doc.len())];
                print_row(&[&front[..], &[format!("{:.3}", read * 1e3), format!("{:.3}", viewed * 1e3), short(viewed / read), speed]].concat());
            }
        }
    }
}

/// Milliseconds at a quarter of the size and at all of it, as of the reader: work that grows with the square would take 16 times as long.
fn hostile() {
    const SIZE: usize = 1 << 20;
    LENT.replace(lent(MOST.0, MOST.1));
    print_head(&["document", "256 KiB, ms", "1 MiB, ms", "growth", "reader, 1 MiB, ms"]);
    for ((what, doc), (_, small)) in worst::documents(SIZE).into_iter().zip(worst::documents(SIZE / 4)) {
        let (quarter, whole) = (best(&small, WALKS, 5), best(&doc, WALKS, 5));
        let times = [short(quarter[1] * 1e3), short(whole[1] * 1e3), short(whole[1] / quarter[1]), short(whole[0] * 1e3)];
        print_row(&[&[what.to_string()], &times[..]].concat());
    }
}

fn main() {
    sheets();
    println!();
    hostile();
}
