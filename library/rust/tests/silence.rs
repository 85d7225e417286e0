//! `Debug` of every public type tells kinds, counts and places, and nothing of the document.
mod common;

use common::*;
use lumintayag::{read_note, totals, views, write, Amount, HeaderValue, Kind, Room, SeriesValue, Shape, Tables};
use std::fmt::Debug;

/// Both forms of `Debug`.
fn formatted(value: &dyn Debug) -> String {
    format!("{value:?}\n{value:#?}")
}

const PRICES: [&str; 3] = ["84848484.848", "-7373737.3", "6262626262.62"];
const NAMES: [&str; 2] = ["Streng", "geheim"];
const OBJECTS: [&str; 2] = ["C0000000017", "B1234567890"];
const DIRECTION: &str = "A02";
/// What views show besides: the sender, when it was sent, the unit, and when the period begins, as text and in minutes.
const SHOWN: [&str; 5] = ["9900000000017", "2031-02-02T10:15:00Z", "Z02", "2031-02-02T23:00Z", "16352580"];
const OTHERS: [&str; 4] = ["9900000000048", "2031-01-02T11:16:01Z", "Z01", "2031-01-02T23:00Z"];
const NEXT: (&str, &str) = ("2031-02-03T23:00Z", "2031-01-03T23:00Z");

fn sheet() -> String {
    let rows = [(1, PRICES[0]), (29, PRICES[1]), (81, PRICES[2])];
    kostenblatt(&(placed(&plant(NAMES[0], OBJECTS[0], &rows), DIRECTION, AREA) + &plant(NAMES[1], OBJECTS[1], &rows)))
}

/// Names, objects, Direction, area, and each four digits of a price, which no count and no place of this sheet has. A price in thousandths has them too.
/// Those of a total are not in the document.
fn secrets() -> Vec<String> {
    let digits = PRICES.map(|price| price.chars().filter(char::is_ascii_digit).collect::<Vec<_>>());
    let fours = digits.iter().flat_map(|price| price.windows(4)).map(|four| four.iter().collect());
    fours.chain(NAMES.into_iter().chain(OBJECTS).chain([DIRECTION, AREA]).chain(SHOWN).map(String::from)).collect()
}

/// Of the types that views have, in a table with room and in one without.
fn all_views(doc: &str) -> Vec<(&'static str, String)> {
    let mut table = vec![77; Room { series: 2, intervals: 0 }.views_numbers()];
    let mut short = [77; 40];
    let refused = views(doc.as_bytes(), &mut short).expect_err("a short table");
    let answer = views(doc.as_bytes(), &mut table);
    let shown = answer.expect("accepted");
    assert_eq!((shown.sender(), shown.period().from().minutes() / 1440 > 11_000), (Some(&doc[doc.find("99000").unwrap_or(0)..][..13]), true));
    vec![
        ("HeaderValue", formatted(&HeaderValue::ALL)),
        ("Period", formatted(&shown.period())),
        ("SeriesValue", formatted(&SeriesValue::all(shown.kind()))),
        ("SeriesViews", formatted(&shown.get(0)) + &formatted(&shown.iter().collect::<Vec<_>>())),
        ("SeriesViewsIter", formatted(&shown.iter())),
        ("Utc", formatted(&shown.period().from()) + &formatted(&shown.period().quarter(96))),
        ("Views", formatted(&shown) + &formatted(&answer)),
        ("ViewsRefused", formatted(&refused) + &refused.to_string()),
    ]
}

/// Each four digits of the whole numbers that the totals of the sheet have.
fn total_secrets(doc: &str, desk: &mut Desk) -> Vec<String> {
    let totals = desk.read(doc.as_bytes()).expect("accepted").sheet.totals().expect("totals");
    let told: Vec<_> = totals.iter().chain([totals.sum()]).map(|total| total.whole().to_string()).collect();
    told.iter().flat_map(|digits| digits.as_bytes().windows(4)).map(|four| String::from_utf8_lossy(four).into_owned()).collect()
}

/// Before and after its views are asked for.
#[cfg(feature = "alloc")]
fn owned(doc: &str) -> String {
    let kept = lumintayag::OwnedSheet::read(doc.into()).expect("accepted");
    formatted(&kept) + &formatted(&kept.views()) + &formatted(&kept)
}

/// Drafts: empty, and of a sheet.
#[cfg(feature = "alloc")]
fn drafts(doc: &str) -> [(&'static str, String); 2] {
    use lumintayag::{Draft, OwnedSheet};
    let kept = OwnedSheet::read(doc.into()).expect("accepted");
    let draft = Draft::from_sheet(&kept.sheet());
    let written = formatted(&draft.as_ref().map(|draft| draft.write(&mut [0; 4096]).map(|written| formatted(&written))));
    let draft = draft.expect("a draft");
    [("Draft", formatted(&draft) + &formatted(&Draft::new(Kind::Kostenblatt)) + &written), ("SeriesDraft", formatted(&draft.series()))]
}

/// What is written of the first series, and what is not.
fn written(doc: &str, tables: Tables<'_>) -> [(&'static str, String); 2] {
    let (mut pairs, mut out) = (vec![0; Room { series: 2, intervals: 0 }.views_numbers()], [0; 4096]);
    assert!(views(doc.as_bytes(), &mut pairs).is_ok());
    let answer = write(Kind::Kostenblatt, doc.as_bytes(), &pairs, 1, tables, &mut out);
    let shown = formatted(&answer.expect("written")) + &formatted(&answer);
    let refused = write(Kind::Kostenblatt, doc.as_bytes(), &pairs, 3, tables, &mut out).expect_err("a count");
    [("Written", shown), ("WriteRefused", formatted(&refused) + &refused.to_string())]
}

/// One text for each public type, with its name.
fn all(doc: &str, desk: &mut Desk, refused: &mut Desk) -> Vec<(&'static str, String)> {
    assert!(desk.read(doc.as_bytes()).is_ok());
    let tables = Tables { series: &desk.series, positions: &desk.positions, amounts: &desk.amounts };
    let added = formatted(&tables) + &formatted(&totals(Kind::Kostenblatt, 95, 2, tables)) + &formatted(&totals(Kind::Kostenblatt, 80, 2, tables));
    let written = written(doc, tables);
    let lent = formatted(&desk.lent());
    let refusal = refused.read(&doc.as_bytes()[..doc.len() - 1]).expect_err("a cut");
    let deep = refused.read_in(Shape::New, &doc.as_bytes()[..doc.len() - 1]).expect_err("a cut").note();
    let answer = desk.read(doc.as_bytes());
    let accepted = answer.expect("accepted");
    let (sheet, note) = (accepted.sheet, accepted.note);
    let series = sheet.get(0).expect("a series");
    let totals = sheet.totals().expect("totals");
    let mut all = vec![
        ("Lent", lent),
        ("Accepted", formatted(&accepted) + &formatted(&answer)),
        ("Refused", formatted(&refusal) + &formatted(&Err::<(), _>(refusal)) + &refusal.to_string()),
        ("Refusal", formatted(&refusal.refusal()) + &refusal.refusal().to_string()),
        ("Note", formatted(&note) + &note.to_string() + &formatted(&deep) + &deep.to_string()),
        ("Shape", formatted(&note.shape()) + &formatted(&deep.shape())),
        ("NotOneNote", formatted(&read_note(doc.as_bytes()))),
        ("Kind", formatted(&sheet.kind())),
        ("Room", formatted(&Room::of_length(doc.len()))),
        ("Sheet", formatted(&sheet)),
        ("SeriesIter", formatted(&sheet.iter())),
        ("Series", formatted(&series) + &formatted(&sheet.iter().collect::<Vec<_>>())),
        ("Intervals", formatted(&series.intervals())),
        ("ByQuarter", formatted(&series.by_quarter())),
        ("Amount", formatted(&series.amount_at(1)) + &formatted(&series.intervals().collect::<Vec<_>>())),
        ("Tables", added),
        ("Totals", formatted(&totals) + &formatted(&sheet.totals())),
        ("TotalsIter", formatted(&totals.iter())),
        ("Total", formatted(&totals.sum()) + &formatted(&totals.iter().collect::<Vec<_>>()) + &formatted(&totals.get(1))),
    ];
    all.push(("NotAnAmount", formatted(&PRICES.map(|price| [price, "x"].concat().parse::<Amount>()))));
    all.extend(written);
    all.extend(all_views(doc));
    #[cfg(feature = "alloc")]
    all.push(("OwnedSheet", owned(doc)));
    #[cfg(feature = "alloc")]
    all.extend(drafts(doc));
    all.sort();
    all
}

/// The names after `pub struct` and `pub enum` in the crate's sources.
fn public_types() -> Vec<String> {
    let mut names = Vec::new();
    for file in std::fs::read_dir(concat!(env!("CARGO_MANIFEST_DIR"), "/src")).expect("the sources") {
        let source = std::fs::read_to_string(file.expect("a file").path()).expect("a source");
        let after = source.lines().filter_map(|line| line.strip_prefix("pub struct ").or(line.strip_prefix("pub enum ")));
        names.extend(after.map(|line| line.split(|c: char| !c.is_alphanumeric()).next().unwrap_or_default().to_string()));
    }
    names.retain(|name| cfg!(feature = "alloc") || !(name.starts_with("Owned") || name.ends_with("Draft")));
    names.sort();
    names
}

#[test]
fn no_byte_of_a_document_and_no_amount() {
    let doc = sheet();
    let digits = doc.replace('.', "");
    let (mut desk, mut refused) = (Desk::large(), Desk::large());
    let texts = all(&doc, &mut desk, &mut refused);
    for (k, secret) in secrets().iter().enumerate() {
        assert!(digits.contains(secret) || secret == SHOWN[4], "secret {k} is in the document");
        for (name, text) in &texts {
            assert!(!text.contains(secret), "{name} tells secret {k}");
        }
    }
    for (k, secret) in total_secrets(&doc, &mut Desk::large()).iter().enumerate() {
        for (name, text) in &texts {
            assert!(!text.contains(secret), "{name} tells digits {k} of the totals");
        }
    }
}

/// No text changes with digits of prices, names, objects, Direction, area, nor with the values and the times that views show.
#[test]
fn the_same_for_another_sheet_of_the_same_lengths() {
    let doc = sheet();
    let other =
        doc.replace(PRICES[0], "11111111.111").replace(PRICES[2], "1000000009.99").replace(NAMES[0], "Lieber").replace(OBJECTS[1], "A00000000Z5");
    let other = other.replace(DIRECTION, "A01").replace(AREA, "10YDE-VE-------2").replace(NEXT.0, NEXT.1);
    let other = SHOWN.iter().zip(OTHERS).fold(other, |doc, (old, new)| doc.replace(old, new));
    assert!(other != doc && other.len() == doc.len());
    assert!(all(&doc, &mut Desk::large(), &mut Desk::large()) == all(&other, &mut Desk::large(), &mut Desk::large()));
}

#[test]
fn every_public_type_is_here() {
    let texts = all(&sheet(), &mut Desk::large(), &mut Desk::large());
    let names: Vec<_> = texts.into_iter().map(|(name, _)| name).collect();
    assert_eq!(public_types(), names);
}
