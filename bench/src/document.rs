//! Sheets of about a given size, made in memory. All values are invented.

/// How a sheet is laid out: on one line, a tag to a line, or on one line with the first character of each value by reference.
#[derive(Clone, Copy, PartialEq, Eq)]
pub enum Layout {
    Plain,
    Pretty,
    Referring,
}

pub const LAYOUTS: [(&str, Layout); 3] = [("plain", Layout::Plain), ("pretty-printed", Layout::Pretty), ("with references", Layout::Referring)];

struct Sheet {
    text: String,
    layout: Layout,
    depth: usize,
}

impl Sheet {
    fn new(layout: Layout) -> Sheet {
        Sheet { text: String::new(), layout, depth: 0 }
    }
    /// A value as it is written.
    fn spelled(&self, value: &str) -> String {
        let mut rest = value.chars();
        match (self.layout, rest.next()) {
            (Layout::Referring, Some(first)) => format!("&#{};{}", first as u32, rest.as_str()),
            _ => value.to_string(),
        }
    }
    fn line(&mut self, tag: &str) {
        if self.layout == Layout::Pretty {
            if !self.text.is_empty() {
                self.text.push('\n');
            }
            for _ in 0..self.depth {
                self.text.push_str("  ");
            }
        }
        self.text.push_str(tag);
    }
    fn open(&mut self, tag: &str) {
        self.line(tag);
        self.depth += 1;
    }
    fn close(&mut self, name: &str) {
        self.depth -= 1;
        self.line(&format!("</{name}>"));
    }
    fn leaf(&mut self, name: &str, v: &str) {
        let v = self.spelled(v);
        self.line(&format!("<{name} v=\"{v}\"/>"));
    }
    fn coded(&mut self, name: &str, v: &str, scheme: &str) {
        let (v, scheme) = (self.spelled(v), self.spelled(scheme));
        self.line(&format!("<{name} v=\"{v}\" codingScheme=\"{scheme}\"/>"));
    }
}

fn head(s: &mut Sheet, document_type: &str, sender_role: &str) {
    s.leaf("DocumentIdentification", "KOB-2031-02-03-000417");
    s.leaf("DocumentVersion", "1");
    s.leaf("DocumentType", document_type);
    s.leaf("ProcessType", "A14");
    s.coded("SenderIdentification", "9900000000017", "NDE");
    s.leaf("SenderRole", sender_role);
    s.coded("ReceiverIdentification", "9900000000024", "NDE");
    s.leaf("ReceiverRole", "A18");
    s.leaf("DocumentDateTime", "2031-02-02T10:15:00Z");
    s.leaf("TimePeriodCovered", "2031-02-02T23:00Z/2031-02-03T23:00Z");
}

/// Bytes for the three end tags after the last interval, with their line breaks.
const TAIL: usize = 64;

fn interval(s: &mut Sheet, k: usize, pos: usize) {
    s.open("<Interval>");
    s.leaf("Pos", &pos.to_string());
    s.leaf("Qty", &format!("{}.{:02}", 3 + (k * 31 + pos * 17) % 180, (k + pos * 13) % 100));
    s.close("Interval");
}

/// The Period of series `k`: 96 intervals, or fewer where the document would go past `size` bytes.
fn period(s: &mut Sheet, k: usize, size: usize) {
    s.open("<Period>");
    s.leaf("TimeInterval", "2031-02-02T23:00Z/2031-02-03T23:00Z");
    s.leaf("Resolution", "PT15M");
    for pos in 1..=96 {
        let before = s.text.len();
        interval(s, k, pos);
        let one = s.text.len() - before;
        if s.text.len() + one + TAIL > size {
            break;
        }
    }
    s.close("Period");
}

fn series(s: &mut Sheet, k: usize, size: usize) {
    s.open("<CostTimeSeries>");
    s.leaf("TimeSeriesIdentification", &format!("TS-{k:06}"));
    s.leaf("BusinessType", "A01");
    s.leaf("Direction", if k % 2 == 0 { "A01" } else { "A02" });
    s.leaf("Product", "8716867000016");
    s.coded("ConnectingArea", "10YDE-EON------1", "A01");
    s.coded("ResourceObject", &format!("C{:010}", 4_000_000 + k * 7), "NDE");
    s.coded("ResourceProvider", "9900000000017", "NDE");
    s.leaf("CurveType", "A03");
    s.leaf("MeasurementUnit", "Z02");
    s.leaf("Status", "Z01");
    period(s, k, size);
    s.close("CostTimeSeries");
}

/// In kind 3 two of the three end tags are longer.
const LONGER: usize = 32;

/// A series of a NetworkConstraintDocument: the first two are A77, of both Directions, all others B59.
fn constraint(s: &mut Sheet, k: usize, size: usize) {
    s.open("<NetworkConstraintTimeSeries>");
    s.leaf("TimeSeriesIdentification", &format!("TS-{k:06}"));
    s.leaf("BusinessType", if k < 2 { "A77" } else { "B59" });
    s.leaf("Direction", if k % 2 == 0 { "A01" } else { "A02" });
    s.coded("ConnectingArea", "10YDE-EON------1", "A01");
    s.coded("ResourceObject", &format!("C{:010}", 4_000_000 + k * 7), "NDE");
    s.coded("GridElement", "1f0c2a4e-77b1-4c55-9d1e-000000000417", "Z01");
    s.leaf("MeasurementUnit", if k < 2 { "MAW" } else { "C62" });
    period(s, k, size.saturating_sub(LONGER));
    s.close("NetworkConstraintTimeSeries");
}

/// Series until `size` bytes are nearly reached, and three at least: two A77 and a B59.
pub fn network_constraint_document(size: usize, layout: Layout) -> Vec<u8> {
    let mut s = Sheet::new(layout);
    s.open("<NetworkConstraintDocument DtdVersion=\"4\" DtdRelease=\"1\" DtdBDEWNachrichtenVersion=\"1.1a\">");
    head(&mut s, "B15", "A18");
    let mut k = 0;
    while k < 3 || s.text.len() + FRONT < size {
        constraint(&mut s, k, size);
        k += 1;
    }
    s.close("NetworkConstraintDocument");
    s.text.into_bytes()
}

/// A series without its intervals takes less.
const FRONT: usize = 1500;

/// Series until `size` bytes are nearly reached; curve A03 lets the last one have fewer intervals.
pub fn kostenblatt(size: usize, layout: Layout) -> Vec<u8> {
    let mut s = Sheet::new(layout);
    s.open("<Kostenblatt DtdBDEWNachrichtenVersion=\"1.0\">");
    head(&mut s, "Z05", "A27");
    let mut k = 0;
    while k == 0 || s.text.len() + FRONT < size {
        series(&mut s, k, size);
        k += 1;
    }
    s.close("Kostenblatt");
    s.text.into_bytes()
}

/// A series of a Beschaffungsanforderung, which has all of its 96 intervals.
fn request(s: &mut Sheet, k: usize) {
    s.open("<ScheduleTimeSeries>");
    s.leaf("TimeSeriesIdentification", &format!("TS-{k:06}"));
    s.leaf("BusinessType", "A02");
    s.leaf("Product", "8716867000016");
    s.coded("InArea", "10YDE-EON------1", "A01");
    s.coded("OutArea", "10YDE-VE-------2", "A01");
    s.coded("InParty", &format!("11X{k:012}A"), "A01");
    s.coded("OutParty", "11XINVENTED----B", "A01");
    s.leaf("MeasurementUnit", "MAW");
    s.open("<Period>");
    s.leaf("TimeInterval", "2031-02-02T23:00Z/2031-02-03T23:00Z");
    s.leaf("Resolution", "PT15M");
    for pos in 1..=96 {
        interval(s, k, pos);
    }
    s.close("Period");
    s.close("ScheduleTimeSeries");
}

/// As many whole series as `size` bytes hold, and one at least: a series has 96 intervals, so that no document of 4 KiB can hold one.
pub fn beschaffungsanforderung(size: usize, layout: Layout) -> Vec<u8> {
    let mut s = Sheet::new(layout);
    s.open("<Beschaffungsanforderung DtdBDEWNachrichtenVersion=\"1.0\">");
    head(&mut s, "Z07", "A18");
    let (mut k, mut one) = (0, 0);
    while k == 0 || s.text.len() + one + TAIL < size {
        let before = s.text.len();
        request(&mut s, k);
        one = one.max(s.text.len() - before);
        k += 1;
    }
    s.close("Beschaffungsanforderung");
    s.text.into_bytes()
}

/// A name that no other number has, of at least three letters and digits.
pub(crate) fn name(mut k: usize) -> String {
    const MARKS: &[u8] = b"abcdefghijklmnopqrstuvwxyzABCDEFGHIJKLMNOPQRSTUVWXYZ0123456789-_.:";
    let mut s = String::from((b'a' + (k % 26) as u8) as char);
    k /= 26;
    while k > 0 || s.len() < 3 {
        s.push(MARKS[k % MARKS.len()] as char);
        k /= MARKS.len();
    }
    s
}

/// A tag of `n` attributes, with the name of attribute `from` given to attribute `to` as well.
fn tag(n: usize, order: fn(usize, usize) -> usize, from: usize, to: usize) -> Vec<u8> {
    let mut s = String::from("<a");
    for k in 0..n {
        let k = if k == to { from } else { k };
        s.push_str(&format!(" {}=''", name(order(k, n))));
    }
    s.push('>');
    s.into_bytes()
}

/// Documents that ask for the most work, of at most `size` bytes.
pub fn hostile(size: usize) -> Vec<(String, Vec<u8>)> {
    let rising: fn(usize, usize) -> usize = |k, _| k;
    let falling: fn(usize, usize) -> usize = |k, n| n - k;
    let mixed: fn(usize, usize) -> usize = |k, n| (k * 7919) % n;
    let mut all = Vec::new();
    for n in [130_000, 145_000] {
        for (order, by) in [("rising", rising), ("falling", falling), ("mixed", mixed)] {
            all.push((format!("a tag of {n} attributes, all different, {order}"), tag(n, by, 0, 0)));
            all.push((format!("the same, the last two equal"), tag(n, by, n - 2, n - 1)));
            all.push((format!("the same, first and last equal"), tag(n, by, 0, n - 1)));
        }
    }
    all.push(("tags of seventeen attributes".into(), (0..size / 150).flat_map(|_| tag(17, rising, 0, 0)).collect()));
    all.push(("one long text".into(), vec![b'x'; size]));
    all.push(("one long comment".into(), [b"<!--".to_vec(), vec![b'x'; size - 7], b"-->".to_vec()].concat()));
    all.push(("one long value".into(), [b"<a b='".to_vec(), vec![b'x'; size - 8], b"'>".to_vec()].concat()));
    all.push(("one long value of references".into(), [b"<a b='".to_vec(), b"&amp;".repeat(size / 5 - 2), b"'>".to_vec()].concat()));
    all.push(("one reference of many zeros".into(), [b"<a b='&#".to_vec(), vec![b'0'; size - 13], b"65;'>".to_vec()].concat()));
    all.push(("one long value of `&`".into(), [b"<a b='".to_vec(), vec![b'&'; size - 8], b"'>".to_vec()].concat()));
    all.push(("start tags one in the other".into(), b"<a>".repeat(size / 3)));
    all.push(("a tag that does not end".into(), [b"<a".to_vec(), b" b=''".repeat(size / 5 - 1)].concat()));
    all.retain(|(_, d)| d.len() <= size + size / 8);
    all
}
