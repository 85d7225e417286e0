//! Writes whole documents from tables, beside quick-xml's writer and libxml2's xmlTextWriter, which are given the same values as the texts and numbers that they are: they judge none of them.
//! The writers take turns in one run, over several placements of text and output. Time is that of the processor, so that a machine which is shared says less of others.
use lumintayag_sys::{lumintayag_read_v3, lumintayag_views, lumintayag_write};
use quick_xml::events::{BytesEnd, BytesStart, Event};
use quick_xml::Writer;
use side_by_side::{document, grouped, print_head, print_row, short};
use std::ffi::CString;
use std::fmt::Write;
use std::hint::black_box;
use std::os::raw::{c_char, c_int, c_void};

/// The C library's, on a machine of 64 bits.
#[repr(C)]
struct Time {
    seconds: i64,
    nanoseconds: i64,
}

extern "C" {
    fn clock_gettime(clock: c_int, time: *mut Time) -> c_int;
}

const PROCESSOR_TIME: c_int = 2;

/// Seconds of the processor that this program has taken.
fn clock() -> f64 {
    let mut time = Time { seconds: 0, nanoseconds: 0 };
    // The time is written to, and nothing else.
    unsafe { clock_gettime(PROCESSOR_TIME, &mut time) };
    time.seconds as f64 + time.nanoseconds as f64 / 1e9
}

const LONGEST: usize = 1 << 20;
/// Numbers that a series takes in the series table; its first row and its count; cells that a header and a series take in the table of pairs.
const ROW: usize = 12;
const FIRST: usize = 10;
const COUNT: usize = 11;
const CELLS: (usize, usize) = (32, 44);

// ---------------------------------------------------------------- What is lent

#[derive(Clone, Default)]
struct Draft {
    kind: u32,
    text: Vec<u8>,
    pairs: Vec<u32>,
    count: usize,
    series: Vec<u32>,
    positions: Vec<u32>,
    amounts: Vec<i64>,
}

/// What a document without references says, with itself as the text.
fn draft_of(doc: &[u8]) -> Draft {
    let (most, rows) = (doc.len() / 398, doc.len() / 45);
    let (mut series, mut positions, mut amounts) = (vec![0; ROW * most], vec![0; rows], vec![0; rows]);
    let (mut pairs, mut note, mut answer) = (vec![0; CELLS.0 + CELLS.1 * most], [0; 16], [0; 7]);
    // Each length is that of the slice its pointer is from.
    let refusals = unsafe {
        [
            lumintayag_views(doc.as_ptr(), doc.len(), pairs.as_mut_ptr(), pairs.len(), answer.as_mut_ptr(), 6),
            lumintayag_read_v3(
                doc.as_ptr(),
                doc.len(),
                series.as_mut_ptr(),
                series.len(),
                positions.as_mut_ptr(),
                rows,
                amounts.as_mut_ptr(),
                rows,
                0,
                note.as_mut_ptr(),
                note.len(),
                answer.as_mut_ptr(),
                answer.len(),
            ),
        ]
    };
    assert!(refusals == [0, 0], "the document is refused");
    let (count, intervals) = (answer[3] as usize, answer[4] as usize);
    pairs.truncate(CELLS.0 + CELLS.1 * count);
    series.truncate(ROW * count);
    positions.truncate(intervals);
    amounts.truncate(intervals);
    Draft { kind: answer[2], text: doc.to_vec(), pairs, count, series, positions, amounts }
}

/// The refusal and the length.
fn write_into(d: &Draft, text: &[u8], out: &mut [u8]) -> [u32; 2] {
    let mut answer = [0; 2];
    // Each length is that of the slice its pointer is from.
    unsafe {
        lumintayag_write(
            d.kind,
            text.as_ptr(),
            text.len(),
            d.pairs.as_ptr(),
            d.pairs.len(),
            d.count as u32,
            d.series.as_ptr(),
            d.series.len(),
            d.positions.as_ptr(),
            d.positions.len(),
            d.amounts.as_ptr(),
            d.amounts.len(),
            out.as_mut_ptr(),
            out.len(),
            answer.as_mut_ptr(),
            answer.len(),
        )
    };
    answer
}

impl Draft {
    fn pair(&self, k: usize, i: usize) -> usize {
        2 * k + CELLS.1 * i
    }

    /// Pair k of the header or of series i shows another text.
    fn set(&mut self, k: usize, i: usize, said: &[u8]) {
        let at = self.pair(k, i);
        (self.pairs[at], self.pairs[at + 1]) = (self.text.len() as u32, said.len() as u32);
        self.text.extend_from_slice(said);
    }

    fn said(&self, k: usize, i: usize) -> Vec<u8> {
        let at = self.pair(k, i);
        self.text[self.pairs[at] as usize..][..self.pairs[at + 1] as usize].to_vec()
    }

    /// As many series as asked for: the first one again, with another identification.
    fn repeated(&self, count: usize, identification: impl Fn(usize) -> String) -> Draft {
        let mut d = Draft { pairs: self.pairs[..CELLS.0].to_vec(), series: Vec::new(), count, ..self.clone() };
        for i in 0..count {
            d.pairs.extend_from_slice(&self.pairs[CELLS.0..][..CELLS.1]);
            d.series.extend_from_slice(&self.series[..ROW]);
            d.set(16, i, identification(i).as_bytes());
        }
        d
    }

    fn rows(&self, i: usize) -> std::ops::Range<usize> {
        let row = &self.series[ROW * i..ROW * (i + 1)];
        row[FIRST] as usize..(row[FIRST] + row[COUNT]) as usize
    }
}

// ---------------------------------------------------------------- The peers

/// A document as the peers are told it: its tags with their values, and rows of the tables where the Intervals stand.
enum Step {
    Open(String, Vec<(String, String)>),
    Single(String, Vec<(String, String)>),
    Close(String),
    Rows(usize),
}

/// Of a document in the fixed layout.
fn steps(doc: &str) -> Vec<Step> {
    let (mut steps, mut series) = (Vec::new(), 0);
    for tag in doc.split('<').skip(1) {
        let body = tag.trim_end_matches('>').trim_end_matches('/');
        let (name, rest) = body.split_once(' ').unwrap_or((body, ""));
        let mut parts = rest.split('"');
        let mut values = Vec::new();
        while let (Some(attribute), Some(value)) = (parts.next(), parts.next()) {
            let said = value.replace("&lt;", "<").replace("&quot;", "\"").replace("&amp;", "&");
            values.push((attribute.trim_matches([' ', '=']).to_string(), said));
        }
        match name {
            "Interval" | "/Interval" | "Pos" | "Qty" => continue,
            "/Period" => steps.push(Step::Rows(series)),
            "/CostTimeSeries" | "/ScheduleTimeSeries" => series += 1,
            _ => {}
        }
        steps.push(match name.strip_prefix('/') {
            Some(name) => Step::Close(name.to_string()),
            None if tag.ends_with("/>") => Step::Single(name.to_string(), values),
            None => Step::Open(name.to_string(), values),
        });
    }
    steps
}

fn put_position(text: &mut String, position: u32) {
    let _ = write!(text, "{position}");
}

fn put_amount(text: &mut String, thousandths: i64) {
    let (size, sign) = (thousandths.unsigned_abs(), if thousandths < 0 { "-" } else { "" });
    let _ = match size % 1000 {
        0 => write!(text, "{sign}{}", size / 1000),
        part if part % 100 == 0 => write!(text, "{sign}{}.{}", size / 1000, part / 100),
        part if part % 10 == 0 => write!(text, "{sign}{}.{:02}", size / 1000, part / 10),
        part => write!(text, "{sign}{}.{part:03}", size / 1000),
    };
}

fn quick(d: &Draft, steps: &[Step], out: &mut Vec<u8>) {
    fn put(w: &mut Writer<&mut Vec<u8>>, event: Event) {
        w.write_event(event).expect("room");
    }
    fn tag<'a>(name: &'a str, values: &'a [(String, String)]) -> BytesStart<'a> {
        let mut tag = BytesStart::new(name);
        values.iter().for_each(|(name, value)| tag.push_attribute((name.as_str(), value.as_str())));
        tag
    }
    out.clear();
    let (mut w, mut text) = (Writer::new(out), String::new());
    for step in steps {
        match step {
            Step::Open(name, values) => put(&mut w, Event::Start(tag(name, values))),
            Step::Single(name, values) => put(&mut w, Event::Empty(tag(name, values))),
            Step::Close(name) => put(&mut w, Event::End(BytesEnd::new(name.as_str()))),
            Step::Rows(i) => {
                for row in d.rows(*i) {
                    put(&mut w, Event::Start(BytesStart::new("Interval")));
                    for name in ["Pos", "Qty"] {
                        text.clear();
                        if name == "Pos" {
                            put_position(&mut text, d.positions[row]);
                        } else {
                            put_amount(&mut text, d.amounts[row]);
                        }
                        let mut tag = BytesStart::new(name);
                        tag.push_attribute(("v", text.as_str()));
                        put(&mut w, Event::Empty(tag));
                    }
                    put(&mut w, Event::End(BytesEnd::new("Interval")));
                }
            }
        }
    }
}

extern "C" {
    fn xmlBufferCreateSize(size: usize) -> *mut c_void;
    fn xmlBufferEmpty(buffer: *mut c_void);
    fn xmlBufferContent(buffer: *const c_void) -> *const u8;
    fn xmlBufferLength(buffer: *const c_void) -> c_int;
    fn xmlNewTextWriterMemory(buffer: *mut c_void, compression: c_int) -> *mut c_void;
    fn xmlTextWriterStartElement(writer: *mut c_void, name: *const c_char) -> c_int;
    fn xmlTextWriterWriteAttribute(writer: *mut c_void, name: *const c_char, value: *const c_char) -> c_int;
    fn xmlTextWriterEndElement(writer: *mut c_void) -> c_int;
    fn xmlTextWriterFullEndElement(writer: *mut c_void) -> c_int;
    fn xmlFreeTextWriter(writer: *mut c_void);
}

/// The same steps with texts that end with a 0.
enum Told {
    Open(CString, Vec<(CString, CString)>),
    Single(CString, Vec<(CString, CString)>),
    Close,
    Rows(usize),
}

fn told(steps: &[Step]) -> Vec<Told> {
    let text = |s: &String| CString::new(s.as_str()).expect("no 0");
    let both = |values: &[(String, String)]| values.iter().map(|(name, value)| (text(name), text(value))).collect();
    let one = |step: &Step| match step {
        Step::Open(name, values) => Told::Open(text(name), both(values)),
        Step::Single(name, values) => Told::Single(text(name), both(values)),
        Step::Close(_) => Told::Close,
        Step::Rows(i) => Told::Rows(*i),
    };
    steps.iter().map(one).collect()
}

fn libxml2(d: &Draft, steps: &[Told], buffer: *mut c_void) {
    let mut text = String::new();
    // Every text ends with a 0, and the writer is freed once, before its buffer.
    unsafe {
        xmlBufferEmpty(buffer);
        let w = xmlNewTextWriterMemory(buffer, 0);
        let open = |name: &CString, values: &[(CString, CString)]| {
            xmlTextWriterStartElement(w, name.as_ptr());
            for (name, value) in values {
                xmlTextWriterWriteAttribute(w, name.as_ptr(), value.as_ptr());
            }
        };
        let mut number = |name: *const c_char, put: &dyn Fn(&mut String)| {
            text.clear();
            put(&mut text);
            text.push('\0');
            xmlTextWriterStartElement(w, name);
            xmlTextWriterWriteAttribute(w, c"v".as_ptr(), text.as_ptr().cast());
            xmlTextWriterEndElement(w);
        };
        for step in steps {
            match step {
                Told::Open(name, values) => open(name, values),
                Told::Single(name, values) => {
                    open(name, values);
                    xmlTextWriterEndElement(w);
                }
                Told::Close => {
                    xmlTextWriterFullEndElement(w);
                }
                Told::Rows(i) => {
                    for row in d.rows(*i) {
                        xmlTextWriterStartElement(w, c"Interval".as_ptr());
                        number(c"Pos".as_ptr(), &|text| put_position(text, d.positions[row]));
                        number(c"Qty".as_ptr(), &|text| put_amount(text, d.amounts[row]));
                        xmlTextWriterFullEndElement(w);
                    }
                }
            }
        }
        xmlFreeTextWriter(w);
    }
}

// ---------------------------------------------------------------- Sheets

/// Text and output begin at so many bytes past a multiple of 64, one placement after the other.
const PLACEMENTS: [(usize, usize); 8] = [(0, 0), (1, 0), (0, 1), (8, 8), (16, 48), (33, 17), (40, 24), (63, 63)];

/// Bytes of a block from the wanted place on.
fn placed(block: &mut [u8], at: usize, length: usize) -> &mut [u8] {
    let from = block.as_ptr().align_offset(64) + at;
    &mut block[from..from + length]
}

/// Seconds of each of the three in the quickest round of a placement, the mean over all placements.
fn seconds(d: &Draft, doc: &[u8], rounds: usize) -> [f64; 3] {
    let (mut sum, steps) = ([0.0; 3], steps(std::str::from_utf8(doc).expect("UTF-8")));
    let (told, mut plain) = (told(&steps), Vec::with_capacity(2 * doc.len()));
    let buffer = unsafe { xmlBufferCreateSize(2 * doc.len()) };
    let (mut texts, mut outs) = (vec![0; d.text.len() + 256], vec![0; doc.len() + 256]);
    for (at, to) in PLACEMENTS {
        placed(&mut texts, at, d.text.len()).copy_from_slice(&d.text);
        let (text, out) = (&*placed(&mut texts, at, d.text.len()), placed(&mut outs, to, doc.len()));
        let mut best = [f64::MAX; 3];
        for _ in 0..rounds {
            let mut took = [clock(); 4];
            assert!(black_box(write_into(d, black_box(text), out))[0] == 0, "the draft is refused");
            took[1] = clock();
            quick(black_box(d), &steps, &mut plain);
            took[2] = clock();
            libxml2(black_box(d), &told, buffer);
            took[3] = clock();
            (0..3).for_each(|k| best[k] = best[k].min(took[k + 1] - took[k]));
        }
        (0..3).for_each(|k| sum[k] += best[k] / PLACEMENTS.len() as f64);
        assert!(*out == *doc && plain.len() >= doc.len(), "other bytes were written");
    }
    // The buffer holds what was written last.
    let written = unsafe { std::slice::from_raw_parts(xmlBufferContent(buffer), xmlBufferLength(buffer) as usize) };
    assert!(doc.contains(&b'&') || (written == doc && plain == doc), "a peer writes other bytes");
    sum
}

fn sheets() {
    type Make = fn(usize, document::Layout) -> Vec<u8>;
    let kinds: [Make; 2] = [document::beschaffungsanforderung, document::kostenblatt];
    print_head(&["kind", "values", "bytes", "writer, ms", "writer, MB/s", "quick-xml", "libxml2", "writer/quick-xml", "writer/libxml2", "time for a byte, over the smallest"]);
    for (kind, make) in kinds.iter().enumerate() {
        for odd in [false, true] {
            let mut first = 0.0;
            for size in [4 << 10, 16 << 10, 64 << 10, 256 << 10, 1 << 20] {
                let mut d = draft_of(&make(if odd { size - size / 32 } else { size }, document::Layout::Plain));
                if odd {
                    (0..d.count).for_each(|i| d.set(16, i, format!("<TS> & \"{i}\"").as_bytes()));
                }
                let mut doc = vec![0; LONGEST];
                let [refusal, length] = write_into(&d, &d.text, &mut doc);
                assert!(refusal == 0, "the draft is refused");
                doc.truncate(length as usize);
                let took = seconds(&d, &doc, ((40 << 20) / doc.len().max(1 << 16)).max(20));
                let speed = took.map(|s| doc.len() as f64 / s / 1e6);
                first = if size == 4 << 10 { took[0] / doc.len() as f64 } else { first };
                let mut cells = vec![(kind + 1).to_string(), if odd { "with references" } else { "plain" }.to_string(), grouped(doc.len())];
                cells.push(format!("{:.3}", took[0] * 1e3));
                cells.extend(speed.iter().map(|s| grouped(s.round() as usize)));
                cells.extend([short(speed[0] / speed[1]), short(speed[0] / speed[2]), format!("{:.2}", took[0] / doc.len() as f64 / first)]);
                print_row(&cells);
            }
        }
    }
}

// ---------------------------------------------------------------- Hostile drafts

/// `size` is about the bytes of the text or of the document.
fn hostile(size: usize) -> Vec<(&'static str, Draft)> {
    const DOCUMENT_TYPE: usize = 5;
    const IDENTIFICATION: usize = 16;
    const BUSINESS_TYPE: usize = 17;
    let one = draft_of(&document::kostenblatt(4 << 10, document::Layout::Plain));
    let row = Draft { series: [&one.series[..COUNT], &[1]].concat(), ..one.clone() };
    let with = |k: usize, said: Vec<u8>| {
        let mut d = one.clone();
        d.set(k, 0, &said);
        d
    };
    let (z05, id) = (one.said(DOCUMENT_TYPE, 0), |i: usize| format!("identifications of equal len {i:06}"));
    let spaces = vec![b' '; size];
    let all = row.repeated(size / 700, |i| format!("{i:06}"));
    let mut shared = all.clone();
    shared.set(BUSINESS_TYPE, 0, &[&spaces[..], b"A01"].concat());
    for i in 1..shared.count {
        let (from, to) = (shared.pair(BUSINESS_TYPE, 0), shared.pair(BUSINESS_TYPE, i));
        shared.pairs.copy_within(from..from + 2, to);
    }
    vec![
        ("most series that a document holds, identifications equal but for their last digits", row.repeated(size / 545, id)),
        ("ten times as many series, more than a document holds", row.repeated(size / 55, id)),
        ("the same, identifications of every other length", row.repeated(size / 55, |i| format!("{}{i}", "x".repeat(i % 29)))),
        ("a code before spaces", with(DOCUMENT_TYPE, [&z05[..], &spaces].concat())),
        ("a code after spaces", with(DOCUMENT_TYPE, [&spaces, &z05[..]].concat())),
        ("a code before spaces and a letter", with(DOCUMENT_TYPE, [&z05[..], &spaces, b"x"].concat())),
        ("an identification of `&`", with(IDENTIFICATION, vec![b'&'; size])),
        ("a code of `&`", with(DOCUMENT_TYPE, vec![b'&'; size])),
        ("one code after spaces, shown by every series", shared),
        ("every series with the same rows, one for each quarter hour of 366 days", quarters(&all, size)),
    ]
}

/// As many rows as a text has bytes for, which all series share.
fn quarters(d: &Draft, size: usize) -> Draft {
    let mut d = d.clone();
    let rows = 35_136 * size / LONGEST;
    d.positions = (1..=rows as u32).collect();
    d.amounts = vec![999_999_999_999_999; rows];
    for i in 0..d.count {
        d.set(35, i, b"2024-01-01T00:00Z/2025-01-01T00:00Z");
        (d.series[ROW * i + FIRST], d.series[ROW * i + COUNT]) = (0, rows as u32);
    }
    d.set(14, 0, b"2024-01-01T00:00Z/2025-01-01T00:00Z");
    d
}

/// Milliseconds at a quarter of the size and at all of it: work that grows with the length takes 4 times as long, with its square 16 times.
fn worst() {
    let mut out = vec![0; LONGEST];
    let mut time = |d: &Draft| {
        let round = |_| {
            let began = clock();
            let answer = black_box(write_into(d, &d.text, &mut out));
            (clock() - began, answer)
        };
        (0..3).map(round).fold((f64::MAX, [0; 2]), |best, one| if one.0 < best.0 { one } else { best })
    };
    print_head(&["draft", "256 KiB, ms", "1 MiB, ms", "growth", "series", "answer"]);
    for ((what, small), (_, d)) in hostile(LONGEST / 4).into_iter().zip(hostile(LONGEST)) {
        let ((quarter, _), (whole, [refusal, length])) = (time(&small), time(&d));
        let answer = if refusal == 0 { format!("{} bytes", grouped(length as usize)) } else { refusal.to_string() };
        print_row(&[what.to_string(), short(quarter * 1e3), short(whole * 1e3), short(whole / quarter), grouped(d.count), answer]);
    }
}

fn main() {
    println!("Writing whole documents\n");
    sheets();
    println!();
    worst();
}
