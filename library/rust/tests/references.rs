//! References in values: judged by what they say, shown as they stand, and told by `unescaped`.
mod common;

use common::*;
use lumintayag::{unescaped, Refusal};

fn said(value: &str) -> String {
    unescaped(value).collect()
}

#[test]
fn what_a_value_says() {
    for (value, says) in [
        ("", ""),
        ("A01", "A01"),
        ("&amp;&lt;&gt;&quot;&apos;", "&<>\"'"),
        ("A&#48;1", "A01"),
        ("&#x4a;&#x4A;&#0074;&#x00004A;", "JJJJ"),
        ("&#9;&#10;&#13;&#32;", "\t\n\r "),
        ("&amp;lt;&#38;#38;", "&lt;&#38;"),
        ("ä&#228;&#xE4;&#x10FFFF;", "äää\u{10FFFF}"),
    ] {
        assert_eq!(said(value), says, "{value}");
        assert!(unescaped(value).clone().eq(says.chars()));
    }
    for other in [
        "&", "&;", "&#;", "&#x;", "&amp", "& amp;", "&AMP;", "&bad;", "&#X41;", "&#0;", "&#xD800;", "&#xFFFE;", "&#x110000;", "&#4294967361;",
        "&#+65;",
    ] {
        assert_eq!(said(other), other);
        assert_eq!(said(&[other, "&amp;"].concat()), [other, "&"].concat());
    }
}

/// The vectors of crates/references_run, whose answers are expat's.
#[test]
fn what_expat_says() {
    let folder = concat!(env!("CARGO_MANIFEST_DIR"), "/../../crates/references_run");
    let text = |name: &str| std::fs::read_to_string([folder, "/", name].concat()).expect("the vectors");
    let mut seen = 0;
    for (value, answer) in text("stdin").lines().zip(text("stdout").lines()) {
        let bytes: Vec<u8> = value.split_ascii_whitespace().map(|byte| u8::from_str_radix(byte, 16).expect("a byte")).collect();
        let Some(numbers) = answer.strip_prefix("says") else { continue };
        let told: String = unescaped(std::str::from_utf8(&bytes).expect("a text")).map(|c| format!(" {}", c as u32)).collect();
        assert_eq!(told, numbers);
        seen += 1;
    }
    assert!(seen > 400, "{seen} vectors");
}

#[test]
fn shown_as_they_stand() {
    let plant = placed(&plant("M&amp;B", "&#67;0000000017", &[(1, "8&#52;.5")]), "&#32; A0&#50;&#x20;", AREA);
    let doc = kostenblatt(&plant.replace("\"  A01 \"", "\" &#32;A0&#49; \""));
    let mut desk = Desk::large();
    let sheet = desk.read(doc.as_bytes()).expect("accepted").sheet;
    let series = sheet.get(0).expect("a series");
    assert_eq!((series.identification(), series.object(), series.business_type()), ("M&amp;B", "&#67;0000000017", "A0&#49;"));
    assert_eq!((series.direction(), said(series.business_type())), (Some("A0&#50;"), "A01".into()));
    assert_eq!(series.amount_at(1), Some(amount(84_500)));
}

#[test]
fn equal_by_what_they_say() {
    let two = |first: &str, second: &str| kostenblatt(&(plant(first, "C0000000017", &[(1, "1")]) + &plant(second, "C0000000025", &[(1, "1")])));
    for (first, second, refusal) in [
        ("&amp;", "&#38;", Some(Refusal::UsedBefore)),
        ("a", "&#x61;", Some(Refusal::UsedBefore)),
        ("&lt;", "&amp;lt;", None),
        ("a", "&#97;&#32;", None),
        ("a", "&bad;", Some(Refusal::Unreadable)),
    ] {
        let answer = Desk::large().read(two(first, second).as_bytes()).map(|_| ()).map_err(|refused| refused.refusal());
        assert_eq!(answer.err(), refusal, "{first} and {second}");
    }
}
