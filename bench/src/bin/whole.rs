//! Reads whole documents by the document reader (validation, tables, note), beside the bare events of expat, quick-xml and libxml2, libxml2's judgement by
//! the XML Schemas of `peers/`, as a tree and as a stream, and plain scans of the bytes. At the end it adds up full tables, for which there is no peer.
use lumintayag_sys::{lumintayag_read_v3, lumintayag_totals};
use side_by_side::{best, document, grouped, peers, print_head, print_row, short, worst, Walk};
use std::cell::RefCell;
use std::hint::black_box;
use std::time::Instant;

/// What is lent. All of it is cleared by the reader, so that its size counts.
struct Lent {
    series: Vec<u32>,
    positions: Vec<u32>,
    amounts: Vec<i64>,
    note: [u8; 16],
    answer: [u32; 7],
}

thread_local! {
    static LENT: RefCell<Lent> = RefCell::new(lent(0, 0));
}

fn lent(series: usize, intervals: usize) -> Lent {
    Lent { series: vec![0; ROW * series], positions: vec![0; intervals], amounts: vec![0; intervals], note: [0; 16], answer: [0; 7] }
}

/// The length for an accepted document, else 0.
fn reader(doc: &[u8]) -> usize {
    LENT.with_borrow_mut(|t| {
        let refusal = unsafe {
            lumintayag_read_v3(
                doc.as_ptr(),
                doc.len(),
                t.series.as_mut_ptr(),
                t.series.len(),
                t.positions.as_mut_ptr(),
                t.positions.len(),
                t.amounts.as_mut_ptr(),
                t.amounts.len(),
                OLD,
                t.note.as_mut_ptr(),
                t.note.len(),
                t.answer.as_mut_ptr(),
                t.answer.len(),
            )
        };
        if refusal == 0 { doc.len() } else { 0 }
    })
}

/// Numbers that a series takes.
const ROW: usize = 12;

/// The shape of the note.
const OLD: u32 = 0;

/// Room for every document of 1 MiB.
const MOST: (usize, usize) = (2_635, 23_302);

type Make = fn(usize, document::Layout) -> Vec<u8>;

const WALKS: &[(&str, Walk)] = &[
    ("reader", reader),
    ("expat", peers::expat),
    ("quick-xml", peers::quick),
    ("libxml2", peers::libxml2),
    ("schema, tree", peers::schema),
    ("schema, stream", peers::schema_stream),
    ("`<` counted", peers::scan),
    ("`<` by memchr", peers::hops),
];

const SIZES: [(usize, (usize, usize)); 3] = [(4 << 10, (64, 2_048)), (64 << 10, (64, 2_048)), (1 << 20, MOST)];

/// Kind and layout, bytes, and the seconds of each walk.
struct Line {
    front: [String; 2],
    bytes: usize,
    seconds: Vec<f64>,
}

fn lines() -> Vec<Line> {
    let kinds: [(u32, Make); 3] = [(1, document::beschaffungsanforderung), (2, document::kostenblatt), (3, document::network_constraint_document)];
    let mut lines = Vec::new();
    for (kind, make) in kinds {
        for (layout, of) in document::LAYOUTS {
            for (size, (series, intervals)) in SIZES {
                let doc = make(size, of);
                LENT.replace(lent(series, intervals));
                for (name, walk) in WALKS {
                    assert!(walk(&doc) > 0, "{name} refuses the document");
                }
                let rounds = (200 << 20) / doc.len().max(1 << 17);
                lines.push(Line { front: [kind.to_string(), layout.to_string()], bytes: doc.len(), seconds: best(&doc, WALKS, rounds.max(50)) });
            }
        }
    }
    lines
}

/// Kind, layout, perhaps bytes, and the numbers.
fn print_line(line: &Line, bytes: bool, numbers: impl Iterator<Item = String>) {
    let mut cells = line.front.to_vec();
    cells.extend(bytes.then(|| grouped(line.bytes)));
    cells.extend(numbers);
    print_row(&cells);
}

fn sheets() {
    let lines = lines();
    let names: Vec<&str> = WALKS.iter().map(|(name, _)| *name).collect();
    println!("Whole documents, MB/s\n");
    print_head(&[&["kind", "layout", "bytes", "reader ms"], &names[..]].concat());
    for line in &lines {
        let speed = line.seconds.iter().map(|s| grouped((line.bytes as f64 / s / 1e6).round() as usize));
        print_line(line, true, std::iter::once(format!("{:.3}", line.seconds[0] * 1e3)).chain(speed));
    }
    println!("\nHow many times as quick as each of them the reader is\n");
    print_head(&[&["kind", "layout", "bytes"], &names[1..]].concat());
    for line in &lines {
        print_line(line, true, line.seconds[1..].iter().map(|s| short(s / line.seconds[0])));
    }
    println!("\nTime for a byte at 1 MiB over that at the smallest size\n");
    print_head(&[&["kind", "layout"], &names[..]].concat());
    for group in lines.chunks(SIZES.len()) {
        let (first, last) = (&group[0], &group[group.len() - 1]);
        let per_byte = |line: &Line, k: usize| line.seconds[k] / line.bytes as f64;
        print_line(first, false, (0..names.len()).map(|k| format!("{:.2}", per_byte(last, k) / per_byte(first, k))));
    }
}

/// Milliseconds at a quarter of the size and at all of it: work that grows with the length takes 4 times as long, with its square 16 times.
fn hostile() {
    const SIZE: usize = 1 << 20;
    LENT.replace(lent(MOST.0, MOST.1));
    print_head(&["document", "256 KiB, ms", "1 MiB, ms", "growth", "quick-xml, 1 MiB, ms", "answer"]);
    let time = |doc: &[u8]| best(doc, &[("reader", reader as Walk)], 5)[0];
    for ((what, doc), (_, small)) in worst::documents(SIZE).into_iter().zip(worst::documents(SIZE / 4)) {
        assert!(doc.len() <= SIZE);
        let (quarter, whole) = (time(&small), time(&doc));
        let quick = best(&doc, &[("quick-xml", peers::quick)], 1)[0]; // once: it compares each attribute with all before it
        let [refusal, place, _, series, intervals, ..] = LENT.with_borrow(|t| t.answer.map(|n| n as usize));
        let answer = match refusal {
            0 => format!("accepted, {} series, {} intervals", grouped(series), grouped(intervals)),
            _ => format!("{refusal} at {}", grouped(place)),
        };
        print_row(&[what.to_string(), short(quarter * 1e3), short(whole * 1e3), short(whole / quarter), short(quick * 1e3), answer]);
    }
}

/// Milliseconds for 200 series of so many rows each, with Pos 1, 2 and so on.
fn added_up(kind: u32, n: u32, rows: u32) -> f64 {
    const SERIES: u32 = 200;
    let row = |i: u32| [0, 0, 0, 0, 0, 0, 0, 0, 0, 0, i * rows, rows];
    let series: Vec<u32> = (0..SERIES).flat_map(row).collect();
    let positions: Vec<u32> = (0..SERIES).flat_map(|_| 1..=rows).collect();
    let amounts: Vec<i64> = positions.iter().map(|&pos| 999_999_999_999_999 - 1_000_003 * i64::from(pos)).collect();
    let (mut totals, mut sum) = ([0; 400], [0; 2]);
    let mut add = || unsafe {
        lumintayag_totals(
            kind,
            n,
            SERIES as usize,
            series.as_ptr(),
            series.len(),
            positions.as_ptr(),
            positions.len(),
            amounts.as_ptr(),
            amounts.len(),
            totals.as_mut_ptr(),
            totals.len(),
            sum.as_mut_ptr(),
            sum.len(),
        )
    };
    let rounds = 20 + 4_000 / rows;
    let quickest = (0..rounds).map(|_| {
        let began = Instant::now();
        assert!(black_box(add()) == 0, "the tables are refused");
        began.elapsed().as_secs_f64()
    });
    quickest.fold(f64::MAX, f64::min) * 1e3
}

fn tables() {
    print_head(&["totals of 200 series", "rows", "ms", "ns a row"]);
    for (what, kind, n, rows) in [
        ("kind 2, one Pos in 366 days", 2, 35_136, 1),
        ("kind 2, a Pos for each quarter hour of a day", 2, 96, 96),
        ("kind 1, 100 quarter hours", 1, 100, 100),
        ("kind 3, 100 intervals", 3, 100, 100),
        ("kind 2, a Pos for each quarter hour of 366 days", 2, 35_136, 35_136),
    ] {
        let (ms, all) = (added_up(kind, n, rows), 200 * rows as usize);
        print_row(&[what.to_string(), grouped(all), format!("{ms:.4}"), short(ms * 1e6 / all as f64)]);
    }
}

fn main() {
    if std::env::args().nth(1).as_deref() == Some("totals") {
        return tables();
    }
    sheets();
    println!();
    hostile();
    println!();
    tables();
}
