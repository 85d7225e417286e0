//! Documents of 1 MiB that ask the document reader for the most work. All values are invented.
use crate::document::name;

const DAY: &str = "2031-02-02T23:00Z/2031-02-03T23:00Z";
const YEAR: &str = "2031-01-01T23:00Z/2032-01-01T23:00Z";
const ROOT: &str = "<Kostenblatt DtdBDEWNachrichtenVersion=\"1.0\">";
const END: &str = "</Kostenblatt>";

fn head(period: &str) -> String {
    format!(
        "<DocumentIdentification v=\"\"/><DocumentVersion v=\"1\"/><DocumentType v=\"Z05\"/><ProcessType v=\"A14\"/>\
        <SenderIdentification v=\"9900000000017\" codingScheme=\"NDE\"/><SenderRole v=\"A27\"/>\
        <ReceiverIdentification v=\"9900000000024\" codingScheme=\"NDE\"/><ReceiverRole v=\"A18\"/>\
        <DocumentDateTime v=\"2031-02-02T10:15:00Z\"/><TimePeriodCovered v=\"{period}\"/>"
    )
}

/// The smallest series with these intervals.
fn series(id: &str, period: &str, intervals: &str) -> String {
    format!(
        "<CostTimeSeries><TimeSeriesIdentification v=\"{id}\"/><BusinessType v=\"A01\"/><Product v=\"8716867000016\"/>\
        <ResourceObject v=\"C0000000017\" codingScheme=\"NDE\"/><ResourceProvider v=\"9900000000017\" codingScheme=\"NDE\"/><CurveType v=\"A03\"/>\
        <MeasurementUnit v=\"Z02\"/><Period><TimeInterval v=\"{period}\"/><Resolution v=\"PT15M\"/>{intervals}</Period></CostTimeSeries>"
    )
}

fn interval(pos: usize, qty: &str) -> String {
    format!("<Interval><Pos v=\"{pos}\"/><Qty v=\"{qty}\"/></Interval>")
}

/// As many series as there is room for, with identifications by number.
fn many_series(size: usize, id: impl Fn(u32) -> String) -> String {
    let mut s = ROOT.to_string() + &head(DAY);
    for k in 0.. {
        let one = series(&id(k), DAY, &interval(1, "1"));
        if s.len() + one.len() + END.len() > size {
            break;
        }
        s += &one;
    }
    s + END
}

/// 35 characters of four bytes, equal but for one by number, from U+10000 on, which has `after` others behind it.
fn long_id(k: u32, after: usize) -> String {
    let own = char::from_u32(0x10000 + k).expect("a character").to_string();
    "\u{10000}".repeat(34 - after) + &own + &"\u{10000}".repeat(after)
}

/// 35 characters, 34 of them equal and by reference, the last one by number; every second one spelled otherwise, so that equal bytes say nothing.
fn referring_id(k: u32) -> String {
    let own = 0x10000 + k;
    if k % 2 == 0 { "&#65;".repeat(34) + &format!("&#{own};") } else { "&#x41;".repeat(34) + &format!("&#x{own:X};") }
}

/// The same with 34 letters: each second one is plain.
fn half_referring_id(k: u32) -> String {
    let own = 0x10000 + k;
    if k % 2 == 0 { "A".repeat(34) + &format!("&#{own};") } else { "&#65;".repeat(34) + &format!("&#x{own:x};") }
}

/// The front, as much of `fill` as has room, and the back.
fn filled(size: usize, front: &str, fill: &str, back: &str) -> String {
    front.to_string() + &fill.repeat((size - front.len() - back.len()) / fill.len()) + back
}

/// A sheet with `fill` again and again before the first `mark` in it.
fn within(size: usize, mark: &str, fill: &str) -> String {
    between(size, mark, "", fill, "")
}

/// The same, with something before all of `fill` and something after it.
fn between(size: usize, mark: &str, before: &str, fill: &str, after: &str) -> String {
    let sheet = ROOT.to_string() + &head(DAY) + &series("a", DAY, &interval(1, "1")) + END;
    let (front, back) = sheet.split_at(sheet.find(mark).expect("the mark"));
    filled(size, &(front.to_string() + before), fill, &(after.to_string() + back))
}

fn most_intervals(size: usize) -> String {
    let front = ROOT.to_string() + &head(YEAR);
    let room = size - front.len() - END.len() - series("a", YEAR, "").len();
    let mut all = String::new();
    for pos in 1.. {
        let one = interval(pos, "1");
        if all.len() + one.len() > room {
            break;
        }
        all += &one;
    }
    front + &series("a", YEAR, &all) + END
}

/// A root tag with as many attributes as there is room for; `prefix` decides whether a root passes over them.
fn root_of(size: usize, prefix: &str) -> String {
    let rest = head(DAY) + &series("a", DAY, &interval(1, "1")) + END;
    let mut s = ROOT[..ROOT.len() - 1].to_string();
    for k in 0.. {
        let one = format!(" {prefix}{}=''", name(k * 7919 % 150_001));
        if s.len() + one.len() + 1 + rest.len() > size {
            break;
        }
        s += &one;
    }
    s + ">" + &rest
}

pub fn documents(size: usize) -> Vec<(&'static str, Vec<u8>)> {
    let all = vec![
        ("most series, identifications equal but for the last character", many_series(size, |k| long_id(k, 0))),
        ("most series, identifications equal but for the last character but one", many_series(size, |k| long_id(k, 1))),
        ("most series, short identifications", many_series(size, |k| format!("{k:04}"))),
        ("most series, identifications by references, equal but for the last character", many_series(size, referring_id)),
        ("the same, every second one plain", many_series(size, half_referring_id)),
        ("most intervals, one series", most_intervals(size)),
        ("a root of xmlns: attributes, in mixed order", root_of(size, "xmlns:")),
        ("a root of unknown attributes, in mixed order", root_of(size, "")),
        ("one long text of white space", within(size, "", " ")),
        ("one long text of letters", "x".repeat(size)),
        ("one long comment", filled(size, "<!--", "x", "-->")),
        ("comments of no letters", within(size, "<Interval>", "<!---->")),
        ("comments and line breaks", within(size, "<Interval>", "<!---->\n")),
        ("one long identification", within(size, "\"/><BusinessType", "x")),
        ("one long identification, characters of four bytes", within(size, "\"/><BusinessType", "\u{10000}")),
        ("an amount after long white space", within(size, "1\"/></Interval>", " ")),
        ("an amount of many digits", within(size, "\"/></Interval>", "1")),
        ("a code of many letters", within(size, "A01\"/><Product", "A")),
        ("a long period", within(size, "2031-02-02T23:00Z/", "2")),
        ("one long identification of references", within(size, "\"/><BusinessType", "&amp;")),
        ("one reference of many zeros", between(size, "\"/><BusinessType", "&#", "0", "65;")),
        ("a reference that does not end", between(size, "\"/><BusinessType", "&#", "0", "")),
        ("an identification of `&`", within(size, "\"/><BusinessType", "&")),
        ("a code after referenced spaces", within(size, "A01\"/><Product", "&#32;")),
        ("a code before referenced spaces", within(size, "\"/><Product", "&#x20;")),
        ("a code before referenced spaces and a letter", between(size, "\"/><Product", "", " &#32;", "x")),
        ("a code before a space by many zeros", between(size, "\"/><Product", "&#", "0", "32;")),
        ("a code of many `;`", within(size, "\"/><Product", ";")),
        ("an amount of referenced digits", within(size, "\"/></Interval>", "&#49;")),
        ("a period of references", within(size, "2031-02-02T23:00Z/", "&#50;")),
        ("start tags one in the other", "<a>".repeat(size / 3)),
        ("a tag that does not end", "<a".to_string() + &" b=''".repeat(size / 5 - 1)),
        ("roots that do not end", filled(size, ROOT, ROOT, "")),
    ];
    all.into_iter().map(|(what, s)| (what, s.into_bytes())).collect()
}
