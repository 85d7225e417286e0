//! Walks the items of a Kostenblatt with the reader, with expat and with quick-xml, side by side.
use lumintayag_sys::lumintayag_readable_len;
use side_by_side::{best, document, grouped, peers, print_head, print_row, short, Walk};

/// The place of the first unreadable item, or the length.
fn reader(doc: &[u8]) -> usize {
    unsafe { lumintayag_readable_len(doc.as_ptr(), doc.len()) }
}

fn sheets() {
    let walks: &[(&str, Walk)] = &[("reader", reader), ("expat", peers::expat), ("quick-xml", peers::quick)];
    print_head(&["layout", "bytes", "reader MB/s", "expat", "quick-xml", "reader/expat", "reader/quick-xml"]);
    for (layout, of) in document::LAYOUTS {
        for size in [4 << 10, 64 << 10, 1 << 20] {
            let doc = document::kostenblatt(size, of);
            assert!(reader(&doc) == doc.len(), "the reader refuses the document");
            for (name, walk) in walks {
                assert!(walk(&doc) > 0, "{name} refuses the document");
            }
            let rounds = (400 << 20) / doc.len().max(1 << 17);
            let speed: Vec<f64> = best(&doc, walks, rounds.max(50)).iter().map(|s| doc.len() as f64 / s / 1e6).collect();
            let mut cells = vec![layout.to_string(), grouped(doc.len())];
            cells.extend(speed.iter().map(|s| grouped(s.round() as usize)));
            cells.extend(speed[1..].iter().map(|s| short(speed[0] / s)));
            print_row(&cells);
        }
    }
}

fn main() {
    println!("The items of a Kostenblatt\n");
    sheets();
    println!();
    print_head(&["document", "bytes", "ms", "readable up to"]);
    for (what, doc) in document::hostile(1 << 20) {
        let seconds = best(&doc, &[("reader", reader)], 3)[0];
        print_row(&[what, grouped(doc.len()), short(seconds * 1e3), grouped(reader(&doc))]);
    }
}
