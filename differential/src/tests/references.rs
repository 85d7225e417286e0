//! K4: what a reference says, where it may stand, and that all judgements go by what a value says.

use super::*;
use crate::digits::other_digits;
use crate::model::qty_digits;
use crate::references::{reference, units};

/// The smallest document with a value: 3 where the tag is readable, since it is not due; else 2.
fn readable(value: &str) -> bool {
    let (number, place) = refusal(&format!("<a b=\"{value}\">"));
    assert!(place == 0 && (number == 2 || number == 3), "{value}");
    number == 3
}

#[test]
fn what_references_say() {
    for (written, says) in [
        ("&amp;", '&'),
        ("&lt;", '<'),
        ("&gt;", '>'),
        ("&quot;", '"'),
        ("&apos;", '\''),
        ("&#65;", 'A'),
        ("&#x41;", 'A'),
        ("&#0000000000000000000000000000065;", 'A'),
        ("&#x000000000000000000000000000000000041;", 'A'),
        ("&#x4a;", 'J'),
        ("&#x4A;", 'J'),
        ("&#9;", '\t'),
        ("&#10;", '\n'),
        ("&#13;", '\r'),
        ("&#32;", ' '),
        ("&#127;", '\u{7F}'),
        ("&#xD7FF;", '\u{D7FF}'),
        ("&#xE000;", '\u{E000}'),
        ("&#xFFFD;", '\u{FFFD}'),
        ("&#x10000;", '\u{10000}'),
        ("&#x1FFFE;", '\u{1FFFE}'),
        ("&#x10fFFf;", '\u{10FFFF}'),
        ("&#1114111;", '\u{10FFFF}'),
    ] {
        assert_eq!(reference(written.as_bytes()), Some((says, written.len())));
        assert_eq!(reference([written, "x;"].concat().as_bytes()), Some((says, written.len())));
        assert!(readable(written) && readable(&["x", written, written, "ä"].concat()));
    }
}

/// "Refusals: 2 for any other reference."
#[test]
fn what_is_no_reference() {
    for written in [
        "&", "&;", "&#;", "&#x;", "&#X41;", "&AMP;", "&Amp;", "&amp", "& amp;", "&amp ;", "&nbsp;", "&bad;", "&ampx;", "&am;", "&lt", "&#", "&#x",
        "&#65", "&#x41", "&# 65;", "&#65 ;", "&#+65;", "&#-65;", "&#6 5;", "&#xG;", "&#6A;", "&#x 41;", "&x41;", "&65;", "&#0;", "&#x0;", "&#1;",
        "&#8;", "&#11;", "&#12;", "&#14;", "&#31;", "&#x1F;", "&#xD800;", "&#xDFFF;", "&#55296;", "&#xFFFE;", "&#xFFFF;", "&#x110000;", "&#1114112;",
        "&#4294967361;", "&#x100000041;", "&#18446744073709551681;", "&#x10000000000000041;", "&#٣;", "&&amp;", "&am&amp;p;", "&#38", "&#&#54;5;",
        "&%;",
    ] {
        assert!(!readable(written) && !readable(&["ok&amp;", written].concat()) && !readable(&[written, "&amp;"].concat()), "{written}");
    }
    for item in
        ["<a b='&lt<;'>", "<a b='&#6\"5;'>", "<a b='&am'p;>", "<a b='&am' p;'>", "<a b='&", "<a b='&#65;", "<a b='&#65;<'/>", "<a b='&#65\n;'/>"]
    {
        assert_eq!(refusal(item), (2, 0), "{item}");
    }
}

/// In every value of start and empty tags, also of those that are passed over, unknown or not due; nowhere else.
#[test]
fn where_references_stand() {
    for passed in ["xmlns='&amp;'", "xsi:a='&#65;&lt;'", "xmlns:x='&#x10FFFF;'"] {
        accepted(&kind_2().replacen('>', &[" ", passed, ">"].concat(), 1));
    }
    assert_eq!(refusal(&ROOT.replace('>', " xmlns='&bad;'>")), (2, 0));
    assert_eq!(refusal(&ROOT.replace('>', " w='&amp;'>")), (5, 0));
    for (piece, number) in
        [("<a b='&amp;'/>", 3), ("<a b='&bad;'/>", 2), ("&amp;", 2), ("&#32;", 2), ("<!--&bad;-->x", 3), ("</a&amp;>", 2), ("<a&amp;/>", 2)]
    {
        let doc = [ROOT, piece].concat();
        let place = if piece.ends_with('x') { doc.len() - 1 } else { 45 };
        assert_eq!(refusal(&doc), (number, place as u32), "{piece}");
    }
    for mark in ["<?xml version='1&#46;0'?>", "<?xml version='1.0' encoding='UTF&#45;8'?>", "<?xml version='&#49;.0'?>"] {
        assert_eq!(refusal(&[mark, &kind_2()].concat()), (2, 0), "{mark}");
    }
    // An attribute's name takes none, and the same names are the same.
    assert_eq!(refusal("<a b='&#65;' b='&#66;'/>"), (2, 0));
}

/// Each value of a document, each of its characters, as each sort of reference: what is read is the same but for places.
#[test]
fn every_character_by_reference() {
    let day = "2024-03-30T23:00Z/2024-03-31T22:00Z";
    let sorts: [fn(char) -> String; 3] = [|c| format!("&#{};", c as u32), |c| format!("&#x{:x};", c as u32), |c| format!("&#x000{:X};", c as u32)];
    for doc in [kind_1(day, 92), kind_2(), kind_3("", &plain_3()), kind_3(WITHDRAWN, &[])] {
        let plain = accepted(&doc);
        for sort in sorts {
            let mut quoted = false;
            let spelled: String = doc
                .chars()
                .map(|c| {
                    quoted ^= c == '"';
                    if quoted && c != '"' {
                        sort(c)
                    } else {
                        c.to_string()
                    }
                })
                .collect();
            let outcome = accepted(&spelled);
            assert_eq!((&plain.positions, &plain.amounts, &plain.answer[2..6]), (&outcome.positions, &outcome.amounts, &outcome.answer[2..6]));
            assert!(qty_digits(spelled.as_bytes()).is_empty());
        }
    }
}

/// Each row of the table changes a value of a right document of kind 2: the refusal, and at which tag; 0 is acceptance.
#[test]
fn judged_by_meaning() {
    let long = ["<DocumentIdentification v=\"", &"&amp;".repeat(35), "\""].concat();
    let longer = ["<DocumentIdentification v=\"", &"&amp;".repeat(36), "\""].concat();
    for (old, new, number, piece) in [
        ("<DocumentIdentification v=\"d\"", &long[..], 0, ""),
        ("<DocumentIdentification v=\"d\"", &longer, 6, "<DocumentIdentification"),
        ("\"1.0\"", "\"1&#46;0\"", 0, ""),
        ("\"1.0\"", "\"1&#46;1\"", 6, "<Kostenblatt"),
        ("\"1.0\"", "\"1.0&#32;\"", 6, "<Kostenblatt"),
        ("<DocumentVersion v=\"1\"", "<DocumentVersion v=\" &#32;1&#x20; \"", 0, ""),
        ("<DocumentVersion v=\"1\"", "<DocumentVersion v=\"&#9;1\"", 6, "<DocumentVersion"),
        ("<DocumentVersion v=\"1\"", "<DocumentVersion v=\"1&#10;\"", 6, "<DocumentVersion"),
        ("<DocumentVersion v=\"1\"", "<DocumentVersion v=\"&#48;1\"", 6, "<DocumentVersion"),
        ("<DocumentVersion v=\"1\"", "<DocumentVersion v=\"&#57;&#57;9&#x39;\"", 6, "<DocumentVersion"),
        ("<DocumentVersion v=\"1\"", "<DocumentVersion v=\"&amp;#49;\"", 6, "<DocumentVersion"),
        ("<DocumentVersion v=\"1\"", "<DocumentVersion v=\"&bad;\"", 2, "<DocumentVersion"),
        ("\"Z05\"", "\"&#90;05\"", 0, ""),
        ("\"Z05\"", "\"Z05&#10;\"", 7, "<DocumentType"),
        ("\"Z05\"", "\"Z05&#160;\"", 7, "<DocumentType"),
        ("\"Z05\"", "\"&#x0020;Z05&#032;\"", 0, ""),
        ("9900000000001", "99&#48;0000000001", 0, ""),
        ("9900000000001", "99&#48;00000000010", 6, "<SenderIdentification"),
        ("9900000000001", "9900000000001&#32;", 6, "<SenderIdentification"),
        ("\"NDE\"/><SenderRole", "\"N&#x44;E \"/><SenderRole", 0, ""),
        ("00:00:59Z", "00:00:5&#57;Z", 0, ""),
        ("00:00:59Z", "00:00:6&#48;Z", 6, "<DocumentDateTime"),
        ("<Resolution v=\"PT15M\"", "<Resolution v=\"&#80;T15M&#32;\"", 0, ""),
        ("<Resolution v=\"PT15M\"", "<Resolution v=\"PT15M&#9;\"", 8, "<Resolution"),
        ("<Pos v=\"1\"", "<Pos v=\"&#32;&#49;\"", 0, ""),
        ("<Pos v=\"1\"", "<Pos v=\"&#50;\"", 8, "<Pos"),
        ("<Pos v=\"1\"", "<Pos v=\"&#48;\"", 6, "<Pos"),
        ("\"A0000000001\"", "\"&#65;0000000001\"", 0, ""),
        ("\"A0000000001\"", "\"&#68;0000000001\"", 6, "<ResourceObject"),
        ("<TimeInterval v=\"2024-02-29T00:07Z/", "<TimeInterval v=\"2024&#45;02-29T00:07Z&#x2f;", 0, ""),
        ("<TimeInterval v=\"2024-02-29T00:07Z/", "<TimeInterval v=\"2024-02-29T00:0&#56;Z/", 8, "<TimeInterval"),
        ("<TimeInterval v=\"", "<TimeInterval v=\"&#32;", 6, "<TimeInterval"),
        ("<TimePeriodCovered v=\"2024-02", "<TimePeriodCovered v=\"2024-&#48;2", 0, ""),
        ("<TimePeriodCovered v=\"2024-02", "<TimePeriodCovered v=\"2024-&#51;2", 6, "<TimePeriodCovered"),
    ] {
        let doc = kind_2().replacen(old, new, 1);
        assert!(doc != kind_2(), "{new}");
        let expected = if number == 0 { (0, doc.len() as u32) } else { at(&doc, number, piece) };
        assert_eq!(refusal(&doc), expected, "{new}");
    }
}

#[test]
fn amounts_by_reference() {
    for (written, thousandths) in [
        ("1&#50;3", 123_000),
        ("&#45;&#49;", -1_000),
        ("&#x2D;0.&#48;01", -1),
        ("&#32;5&#32; ", 5_000),
        ("5&#46;5", 5_500),
        ("&#57;99999999999.99&#57;", 999_999_999_999_999),
    ] {
        assert_eq!(amount(written), Some(thousandths), "{written}");
    }
    for wrong in ["5&#46;", "&#43;5", "1&#9;", "&#1635;", "1.00&#48;0", "999999999999&#57;", "1&amp;", "&#32;", "&amp;#53;"] {
        assert_eq!(amount(wrong), None, "{wrong}");
    }
}

/// The two identifications of a document: whether the second is 9.
#[test]
fn identifications_by_meaning() {
    for (first, second, equal) in [
        ("&amp;", "&#38;", true),
        ("&amp;", "&#x26;", true),
        ("&amp;lt;", "&lt;", false),
        ("&amp;lt;", "&#38;lt;", true),
        ("&lt;", "&#x00003c;", true),
        ("s&#49;", "s1", true),
        ("s1", "s&#49;&#32;", false),
        (" ", "&#32;", true),
        ("", "&#32;", false),
        ("ä", "&#228;", true),
        ("&#xe4;", "&#xE4;", true),
        ("a&#776;", "ä", false),
        ("&#x10FFFF;", "&#1114111;", true),
        ("&#9;", "&#10;", false),
        ("&quot;", "&#34;", true),
        ("&quot;", "'", false),
        ("&#38;#38;", "&#38;", false),
    ] {
        let doc =
            [ROOT, HEAD, &SERIES.replace("\"s1\"", &format!("\"{first}\"")), &SERIES.replace("\"s1\"", &format!("\"{second}\"")), "</Kostenblatt>"];
        let doc = doc.concat();
        let expected = if equal { last(&doc, 9, "<TimeSeriesIdentification") } else { (0, doc.len() as u32) };
        assert_eq!(refusal(&doc), expected, "{first} and {second}");
    }
}

/// K2's rules: "two only with different Direction", "a third A77", "at least one B59", DocStatus.
#[test]
fn constraints_by_meaning() {
    let series = |id: &str, business: &str, direction: &str| constraint(id, business, direction, 1);
    let one = || series("p", "A7&#55;", "A0&#49;");
    accepted(&kind_3("", &[one(), series("q", "&#65;77", "&#32;A02"), series("n", "B5&#57;&#32;", "A01")]));
    for direction in ["A01", "&#65;01", "A0&#x31;&#32;"] {
        let doc = kind_3("", &[one(), series("q", "A77", direction)]);
        assert_eq!(refusal(&doc), last(&doc, 8, "<Direction"), "{direction}");
    }
    let doc = kind_3("", &[one(), series("q", "A77", "A02"), series("r", "A&#x37;7", "A01")]);
    assert_eq!(refusal(&doc), last(&doc, 8, "<BusinessType"));
    let doc = kind_3("<DocStatus v=\"&#65;13\"/>", &[one(), series("n", "B59", "A01")]);
    assert_eq!(refusal(&doc), last(&doc, 8, "<NetworkConstraintTimeSeries"));
    accepted(&kind_3("", &[one(), series("n", "&#66;59", "A01")]));
}

/// "Views still show the raw bytes of what isn't dropped."
#[test]
fn raw_bytes_of_what_is_not_dropped() {
    let product = "<Product v=\"8716867000016\"/>";
    let spaced =
        SERIES.replace("\" A01 \"", "\" &#32;A0&#49;&#x20; \"").replace(product, &["<Direction v=\"&#x020;&#65;02 &#0032;\"/>", product].concat());
    let doc = [ROOT, HEAD, &spaced.replace("\"s1\"", "\"&#32;s&amp;&#32;\""), "</Kostenblatt>"].concat();
    let find = |piece: &str| doc.find(piece).unwrap_or(0) as u32;
    let row = &accepted(&doc).series[..ROW];
    assert_eq!(row[..2], [find("&#32;s&amp;"), 16]);
    assert_eq!(row[4..8], [find("A0&#49;"), 7, find("&#65;02 "), 7]);
    let views = viewed(&doc);
    assert_eq!(all_shown(&doc, &views, 16..19, 0), ["&#32;s&amp;&#32;", "A0&#49;", "&#65;02"]);
    let header = kind_2()
        .replace("v=\"Z05\"", "v=\"&#32;&#90;05&#32;\"")
        .replace("\"A10\"", "\"&#x20;A1&#48; \"")
        .replace("\"9900000000001\"", "\"9&#57;00000000001\"");
    let views = viewed(&header);
    assert_eq!(all_shown(&header, &views, 5..6, 0), ["&#90;05"]);
    assert_eq!(all_shown(&header, &views, 7..8, 0), ["9&#57;00000000001"]);
    assert_eq!(all_shown(&header, &views, 11..12, 0), ["A1&#48;"]);
}

#[test]
fn digits_beside_references() {
    let found = |doc: &str| qty_digits(doc.as_bytes()).into_iter().map(|at| (at, char::from(doc.as_bytes()[at]))).collect::<Vec<_>>();
    assert_eq!(found("<Qty v='1&#50;3'/>"), [(8, '1'), (14, '3')]);
    assert_eq!(found("<Qty w='1' v=\"&#x31;\"><a v='1'/><!--<Qty v='1'/>--><Qty v='&amp;2'>x<Qty v='&3;'/><Qty v='4'/>").len(), 1);
    assert_eq!(found("<?xml version='1&#46;0'?><Qty v='1'/>"), []);
}

/// K12: a document with an `&` in an identification before the first unreadable item is not used.
#[test]
fn identifications_with_references_stay() {
    let two =
        |first: &str, second: &str| [ROOT, HEAD, &SERIES.replace("\"s1\"", first), &SERIES.replace("\"s1\"", second), "</Kostenblatt>"].concat();
    let random = &mut Random::new(1, 1);
    assert!(renamed(random, two("\"a\"", "\"&#98;\"").as_bytes()).is_none());
    assert!(renamed(random, two("\"a\"", "\"b\"").as_bytes()).is_some());
    assert!(renamed(random, [&two("\"a\"", "\"b\""), "&", "<TimeSeriesIdentification v='&#98;'/>"].concat().as_bytes()).is_some());
    assert!(renamed(random, two("\"a\"", "\"b\"").replace("Z05", "&#90;05").as_bytes()).is_some());
}

/// The characters that the references between two places say.
fn referenced(doc: &[u8], from: u32, length: u32) -> Vec<char> {
    let place = from as usize..(from + length) as usize;
    let all = units(doc, place).unwrap_or_default().into_iter();
    all.filter(|unit| doc[unit.place.start] == b'&').map(|unit| unit.says).collect()
}

/// Each pair of each kind is shown with a reference in many accepted documents, and so are each of the five named ones, referenced spaces beside what is shown
/// of a collapsed value, and equal meanings in other bytes.
#[test]
fn generated_references() {
    const PAIRS: [usize; 3] = [36, 37, 38];
    let (mut shown, mut accepted, mut dropped) = ([[0; 38]; 3], 0, [0; 2]);
    let mut said = std::collections::BTreeMap::new();
    for number in 0..16_000 {
        let made = document(9, number);
        let (table, answer) = lent(9, number, &made.bytes)[0];
        let views = view(&made.bytes, table, answer);
        let (0, Some(kind)) = (views.refusal, views.answer.get(2)) else { continue };
        accepted += usize::from(made.bytes.contains(&b'&'));
        for (k, pair) in views.table.chunks_exact(2).take(38).enumerate().filter(|(_, pair)| pair[0] != 0) {
            let found = referenced(&made.bytes, pair[0], pair[1]);
            shown[*kind as usize - 1][k] += usize::from(!found.is_empty());
            found.into_iter().for_each(|c| *said.entry(c).or_insert(0) += 1);
            dropped[0] += usize::from(made.bytes[pair[0] as usize - 1] == b';');
            dropped[1] += usize::from(made.bytes[(pair[0] + pair[1]) as usize] == b'&');
        }
    }
    for (kind, shown) in shown.iter().enumerate() {
        let known = |k: usize| k < PAIRS[kind] && (kind == 2 || !matches!(k, 0 | 1 | 15));
        assert!((0..38).all(|k| if known(k) { shown[k] > 3 } else { shown[k] == 0 }), "kind {}: {shown:?}", kind + 1);
    }
    assert!(accepted > 1_000 && dropped.iter().all(|many| *many > 100), "{accepted} {dropped:?}");
    assert!(
        "&<>\"'\t\n\r \u{7F}\u{D7FF}\u{E000}\u{FFFD}\u{10000}\u{10FFFF}".chars().all(|c| said.get(&c).is_some_and(|many| *many > 20)),
        "{said:?}"
    );
}

/// Documents are refused with 9 where two identifications differ in their bytes alone, and with 2 at tags that hold an `&`; digits beside references change.
#[test]
fn generated_refusals_of_references() {
    let (mut nine, mut two, mut digits) = (0, std::collections::BTreeSet::<&str>::new(), 0);
    for number in 0..20_000 {
        let made = document(9, number);
        let [refusal, place, ..] = read(&made.bytes, &Lengths { note: 16, ..made.lengths }).answer;
        let tag = &made.bytes[(place as usize).min(made.bytes.len())..];
        let tag = &tag[..tag.iter().position(|b| *b == b'>').map_or(tag.len(), |end| end + 1)];
        if refusal == 2 && tag.first() == Some(&b'<') {
            two.extend(crate::respelling::BROKEN.iter().filter(|broken| tag.windows(broken.len()).any(|part| part == broken.as_bytes())));
        }
        if refusal == 9 {
            let values: Vec<&[u8]> = identifications(&made.bytes).into_iter().map(|at| &made.bytes[at]).collect();
            let here = identifications(tag).into_iter().map(|at| &tag[at]).next();
            nine += usize::from(here.is_some_and(|here| values.iter().filter(|value| **value == here).count() == 1));
        }
        if let Some(other) = other_digits(&mut Random::new(9, number), &made.bytes) {
            let (before, after) = (read(&made.bytes, &made.lengths), read(&other, &made.lengths));
            assert_eq!(
                (before.answer, &before.series, &before.positions, &before.note),
                (after.answer, &after.series, &after.positions, &after.note)
            );
            let beside = |at: usize| matches!(made.bytes[at - 1], b';') || made.bytes[at + 1] == b'&';
            digits += usize::from(before.answer[0] == 0 && qty_digits(&made.bytes).into_iter().any(|at| beside(at) && made.bytes[at] != other[at]));
        }
    }
    assert!(nine > 10 && digits > 100 && two.len() == crate::respelling::BROKEN.len(), "{nine} {digits} {two:?}");
}

fn bytes_of(line: &str) -> Vec<u8> {
    line.split_ascii_whitespace().map(|byte| u8::from_str_radix(byte, 16).unwrap_or(0)).collect()
}

/// The vectors of vectors/references.py, whose answers are expat's.
#[test]
fn as_expat_says() {
    let folder = std::path::Path::new(env!("CARGO_MANIFEST_DIR")).join("../crates/references_run");
    let text = |name: &str| std::fs::read_to_string(folder.join(name)).unwrap_or_default();
    let (values, answers) = (text("stdin"), text("stdout"));
    assert!(values.lines().count() > 2_000 && values.lines().count() == answers.lines().count());
    for (value, said) in values.lines().map(bytes_of).zip(answers.lines()) {
        let quote: &[u8] = if value.contains(&b'"') { b"'" } else { b"\"" };
        let doc = [b"<a v=", quote, &value, quote, b"/>"].concat();
        let numbers: String = units(&value, 0..value.len()).unwrap_or_default().iter().map(|unit| format!(" {}", unit.says as u32)).collect();
        let answer = if read(&doc, &ROOM).answer[0] == 3 { ["says", &numbers].concat() } else { "none".to_string() };
        assert_eq!(answer, said, "{}", value.escape_ascii());
    }
}
