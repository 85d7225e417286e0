//! How a document is written: white text, comments, quotes, the order of attributes, mark and declaration.

use crate::documents::{Piece, Tag};
use crate::random::Random;
use crate::respelling::respelled;

/// Each number tells how rarely a thing is done: 0 is never, 1 always.
pub struct Style {
    pub prolog: usize,
    pub between: usize,
    pub comment: usize,
    pub single_quotes: usize,
    pub shuffle: usize,
    pub white_in_tag: usize,
    pub start_and_end: usize,
    /// Characters of values by reference, and whether those of series identifications are among them: K12 asks for some that are not.
    pub references: usize,
    pub in_identifications: bool,
}

impl Style {
    pub const fn plain() -> Style {
        Style {
            prolog: 0,
            between: 0,
            comment: 0,
            single_quotes: 0,
            shuffle: 0,
            white_in_tag: 0,
            start_and_end: 0,
            references: 0,
            in_identifications: false,
        }
    }

    pub fn any(random: &mut Random) -> Style {
        let references = random.one_of(&[0, 0, 0, 0, 0, 1, 3, 10, 60]);
        let in_identifications = random.one_in(2);
        if random.one_in(3) {
            return Style { references, in_identifications, ..Style::plain() };
        }
        Style {
            prolog: random.one_of(&[0, 1, 2]),
            between: random.one_of(&[0, 1, 10]),
            comment: random.one_of(&[0, 0, 20, 100]),
            single_quotes: random.one_of(&[0, 1, 2]),
            shuffle: random.one_of(&[0, 1, 2]),
            white_in_tag: random.one_of(&[0, 0, 5, 30]),
            start_and_end: random.one_of(&[0, 1, 2, 10]),
            references,
            in_identifications,
        }
    }
}

fn happens(random: &mut Random, rarely: usize) -> bool {
    rarely > 0 && random.one_in(rarely)
}

const WHITE: &[&[u8]] = &[b" ", b"\n", b"\r\n", b"\t", b"\n  ", b" \t\r\n", b"\n\n"];
const COMMENTS: &[&str] = &[
    "<!---->", "<!-- a -->", "<!--->-->", "<!--<Qty v=\"1\"/>-->", "<!--&]]>\n\t-->", "<!--&bad;&#0;-->", "<!--ä€𝄞-->", "<!-- - - -->",
    "<!--<Direction v=\"A02\"/>-->", "<!-- <MeasurementUnit v=' Z03'/> -->", "<!--<SenderRole v=\"A18\"/>-->",
];
const MARKS: &[&str] = &[
    "<?xml version=\"1.0\"?>", "<?xml version='1.0' encoding='UTF-8'?>", "<?xml version=\"1.0\" encoding='utf-8'?>",
    "<?xml\tversion = '1.0'\n encoding\r=\t\"Utf-8\" ?>", "<?xml version=\"1.0\" encoding=\"UTF-8\"\n?>", "<?xml version=\"1.0\"\t?>",
    "<?xml  version='1.0'  encoding=\"uTf-8\"?>",
];
const BAD_MARKS: &[&str] = &[
    "<?xml version=\"1.1\"?>", "<?xml encoding=\"UTF-8\"?>", "<?xml version=\"1.0\" standalone=\"yes\"?>",
    "<?xml version=\"1.0\" encoding=\"UTF-8\" standalone=\"yes\"?>", "<?xml version=\"1.0\"encoding=\"UTF-8\"?>",
    "<?xml encoding=\"UTF-8\" version=\"1.0\"?>", "<?xml version=\"1.0' ?>", "<?XML version=\"1.0\"?>", "<?xml version=\"1.0\" encoding=\"UTF8\"?>",
    "<?xml version=\"1.0\" encoding=\"ISO-8859-1\"?>", "<?xml version=\"1.0\" encoding=\"\"?>", "<?xml version=\" 1.0\"?>", "<?xmlversion=\"1.0\"?>",
    "<?xml version=\"1.0\"? >", "<?xml version=\"1.0\" ENCODING=\"UTF-8\"?>", "<?xml version=\"1.0\">", "<?xml ?>", " <?xml version=\"1.0\"?>",
    "<!----><?xml version=\"1.0\"?>", "<?xml version=1.0?>", "<?xml-stylesheet version=\"1.0\"?>", "<?xml version=\"1.0\" encoding=\"UTF-8 \"?>",
    "<?xml version=\"1&#46;0\"?>", "<?xml version='1.0' encoding='UTF&#45;8'?>", "<?xml version='1.0' encoding='&amp;'?>", "\u{FEFF}",
    "<?xml version=\"1.0\"?><?xml version=\"1.0\"?>", "<?xml Version=\"1.0\"?>",
];

pub fn spelled(random: &mut Random, pieces: &[Piece], style: &Style) -> Vec<u8> {
    let mut out = Vec::with_capacity(pieces.len() * 24);
    if happens(random, style.prolog) {
        put_prolog(random, &mut out);
    }
    for piece in pieces {
        put_between(random, style, &mut out);
        match piece {
            Piece::Open(tag) => put_start(random, style, tag, &mut out),
            Piece::Leaf(tag) => put_leaf(random, style, tag, &mut out),
            Piece::Close(name) => put_end(random, style, name, &mut out),
            Piece::Raw(bytes) => out.extend_from_slice(bytes),
        }
    }
    put_between(random, style, &mut out);
    out
}

fn put_prolog(random: &mut Random, out: &mut Vec<u8>) {
    if random.one_in(2) {
        out.extend_from_slice(b"\xEF\xBB\xBF");
    }
    match random.below(12) {
        0 => out.extend_from_slice(random.pick(BAD_MARKS).as_bytes()),
        1..=8 => out.extend_from_slice(random.pick(MARKS).as_bytes()),
        _ => {}
    }
    if random.one_in(60) {
        out.truncate(random.below(out.len() + 1));
    }
}

fn put_between(random: &mut Random, style: &Style, out: &mut Vec<u8>) {
    if happens(random, style.between) {
        out.extend_from_slice(random.part(WHITE));
    }
    if happens(random, style.comment) {
        out.extend_from_slice(random.pick(COMMENTS).as_bytes());
    }
}

fn put_white(random: &mut Random, style: &Style, out: &mut Vec<u8>) {
    if happens(random, style.white_in_tag) {
        out.extend_from_slice(random.part(WHITE));
    }
}

/// A value is put between quotes that it doesn't hold.
fn quote_for(random: &mut Random, style: &Style, value: &[u8]) -> u8 {
    if value.contains(&b'"') {
        b'\''
    } else if value.contains(&b'\'') {
        b'"'
    } else if happens(random, style.single_quotes) {
        b'\''
    } else {
        b'"'
    }
}

fn put_attribute(random: &mut Random, style: &Style, name: &[u8], value: &[u8], out: &mut Vec<u8>) {
    if happens(random, style.white_in_tag) {
        out.extend_from_slice(random.part(WHITE));
    } else {
        out.push(b' ');
    }
    out.extend_from_slice(name);
    put_white(random, style, out);
    out.push(b'=');
    put_white(random, style, out);
    let quote = quote_for(random, style, value);
    out.push(quote);
    out.extend_from_slice(value);
    out.push(quote);
}

fn put_tag(random: &mut Random, style: &Style, tag: &Tag, out: &mut Vec<u8>) {
    out.push(b'<');
    out.extend_from_slice(&tag.name);
    let count = tag.attributes.len();
    let referring = style.references > 0 && (style.in_identifications || tag.name != b"TimeSeriesIdentification");
    let turn = if count > 1 && happens(random, style.shuffle) { random.below(count) } else { 0 };
    for at in 0..count {
        let (name, value) = &tag.attributes[(at + turn) % count];
        if referring {
            let value = respelled(random, value, style.references);
            put_attribute(random, style, name, &value, out);
        } else {
            put_attribute(random, style, name, value, out);
        }
    }
    put_white(random, style, out);
}

fn put_start(random: &mut Random, style: &Style, tag: &Tag, out: &mut Vec<u8>) {
    put_tag(random, style, tag, out);
    out.push(b'>');
}

fn put_leaf(random: &mut Random, style: &Style, tag: &Tag, out: &mut Vec<u8>) {
    put_tag(random, style, tag, out);
    if !happens(random, style.start_and_end) {
        out.extend_from_slice(b"/>");
        return;
    }
    out.push(b'>');
    put_between(random, style, out);
    put_end(random, style, &tag.name, out);
}

fn put_end(random: &mut Random, style: &Style, name: &[u8], out: &mut Vec<u8>) {
    out.extend_from_slice(b"</");
    out.extend_from_slice(name);
    put_white(random, style, out);
    out.push(b'>');
}
