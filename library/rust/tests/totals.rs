//! Totals of invented sheets and of tables. No test prints one where it fails.
mod common;

use common::*;
use lumintayag::{totals, Kind, Refusal, Sheet, Tables, Total, SERIES_ROW, TOTALS_MOST};

/// All quarter hours, one by one.
fn by_quarter(sheet: Sheet<'_>) -> Vec<i128> {
    sheet.iter().map(|series| series.by_quarter().map(|(_, amount)| i128::from(amount.thousandths())).sum()).collect()
}

fn are_whole(sheet: Sheet<'_>) -> bool {
    let (totals, all) = (sheet.totals().expect("totals"), by_quarter(sheet));
    (totals.len(), totals.is_empty()) == (sheet.len(), sheet.is_empty())
        && totals.iter().map(Total::in_thousandths).eq(all.iter().copied())
        && totals.into_iter().eq(totals.iter())
        && totals.iter().rev().map(Total::in_thousandths).eq(all.iter().rev().copied())
        && (0..all.len()).all(|i| totals.get(i).map(Total::in_thousandths) == Some(all[i]))
        && totals.get(all.len()).is_none()
        && totals.sum().in_thousandths() == all.iter().sum::<i128>()
        && totals.iter().chain([totals.sum()]).all(|total| total.thousandths() <= 999)
}

#[test]
fn of_sheets() {
    let year = "2031-01-01T00:00Z/2032-01-02T00:00Z";
    let large = plant_in(year, "a", "C0000000017", &[(1, "999999999999.999")]) + &plant_in(year, "b", "C0000000017", &[(1, "-999999999999.999")]);
    let day = "2024-10-26T22:00Z/2024-10-27T23:00Z";
    let requests = request("a", day, 100) + &request("b", day, 100);
    for doc in [two_plants(), kostenblatt_in(year, &large), beschaffungsanforderung(day, &requests)] {
        assert!(are_whole(Desk::large().read(doc.as_bytes()).expect("accepted").sheet));
    }
}

#[test]
fn of_every_sample() {
    let mut added = 0;
    for file in std::fs::read_dir(concat!(env!("CARGO_MANIFEST_DIR"), "/../../crates/samples_run/data")).expect("the samples") {
        let doc = std::fs::read(file.expect("a file").path()).expect("a sample");
        if let Ok(accepted) = Desk::large().read(&doc) {
            assert!(are_whole(accepted.sheet));
            added += 1;
        }
    }
    assert!(added > 50, "{added} added up");
}

#[test]
fn of_two_hundred_series_and_of_one_more() {
    for (many, told) in [(TOTALS_MOST, None), (TOTALS_MOST + 1, Some(Refusal::TooManySeries))] {
        let doc = kostenblatt(&(0..many).map(|k| plant(&k.to_string(), "C0000000017", &[(1, "-0.001"), (96, "5")])).collect::<String>());
        let mut desk = Desk::new(many * SERIES_ROW, 2 * many, 2 * many);
        let sheet = desk.read(doc.as_bytes()).expect("accepted").sheet;
        assert_eq!(sheet.totals().err(), told);
        assert!(told.is_some() || are_whole(sheet));
    }
}

#[test]
fn a_total_is_told_by_the_whole_number_below_it() {
    let covered = "2031-02-02T22:00Z/2031-02-02T22:15Z";
    let doc = kostenblatt_in(covered, &plant_in(covered, "a", "C0000000017", &[(1, "-0.001")]));
    let mut desk = Desk::large();
    let totals = desk.read(doc.as_bytes()).expect("accepted").sheet.totals().expect("totals");
    assert!((totals.sum().whole(), totals.sum().thousandths()) == (-1, 999) && totals.get(0) == Some(totals.sum()));
    assert!(totals.sum().to_string() == "-0.001");
}

/// Tables of three series of kind 2 in four quarter hours, of which a test changes a number.
#[derive(Clone)]
struct Kept {
    kind: u32,
    quarters: u32,
    count: usize,
    series: Vec<u32>,
    positions: Vec<u32>,
    amounts: Vec<i64>,
}

const FIRST: usize = 10;
const COUNT: usize = 11;

fn kept(kind: u32, quarters: u32, rows: &[u32], positions: &[u32]) -> Kept {
    let mut series = vec![77; rows.len() * SERIES_ROW];
    let mut first = 0;
    for (row, &count) in series.chunks_mut(SERIES_ROW).zip(rows) {
        (row[FIRST], row[COUNT]) = (first, count);
        first += count;
    }
    let amounts = (0..positions.len() as i64).map(|k| 1_001 * k - 2_500).collect();
    Kept { kind, quarters, count: rows.len(), series, positions: positions.to_vec(), amounts }
}

fn three() -> Kept {
    kept(2, 4, &[2, 1, 3], &[1, 3, 1, 1, 2, 4])
}

fn added(kept: &Kept) -> Result<i128, Refusal> {
    let tables = Tables { series: &kept.series, positions: &kept.positions, amounts: &kept.amounts };
    let kind = Kind::from_number(kept.kind).expect("a kind");
    totals(kind, kept.quarters, kept.count, tables).map(|totals| totals.sum().in_thousandths())
}

fn refused(change: impl Fn(&mut Kept)) -> bool {
    let mut kept = three();
    change(&mut kept);
    added(&kept) == Err(Refusal::WrongTables)
}

#[test]
fn of_tables_that_a_caller_keeps() {
    assert!(added(&three()) == Ok(2 * -2_500 + 2 * -1_499 + 4 * -498 + 503 + 2 * 1_504 + 2_505));
    let day: Vec<u32> = (1..=92).collect();
    assert!(added(&kept(1, 92, &[92], &day)) == Ok((0..92).map(|k| 1_001 * k - 2_500).sum()));
    assert!(added(&kept(3, 4, &[2, 1], &[1, 2, 1])) == Ok(-2_500 - 1_499 - 498));
    for kind in 1..=3 {
        assert!(added(&kept(kind, 96, &[], &[])) == Ok(0), "no series of kind {kind}");
    }
}

#[test]
fn what_stands_past_the_series_is_not_looked_at() {
    let mut more = three();
    more.series.extend([u32::MAX; SERIES_ROW]);
    more.positions.extend([0, 9, 9]);
    more.amounts.extend([i64::MIN, i64::MAX]);
    assert!(added(&more) == added(&three()));
}

#[test]
fn each_rule_of_tables() {
    type Change = fn(&mut Kept);
    let changes: [(&str, Change); 18] = [
        ("a kind that is none", |kept| kept.kind = 4),
        ("rows of another kind", |kept| kept.kind = 1),
        ("no quarter hour", |kept| kept.quarters = 0),
        ("more quarter hours than a period has", |kept| kept.quarters = 35_137),
        ("a Pos past N", |kept| kept.quarters = 3),
        ("series past their table", |kept| kept.count = 4),
        ("half a row", |kept| kept.series.truncate(3 * SERIES_ROW - 1)),
        ("rows past the positions", |kept| kept.positions.truncate(5)),
        ("rows past the amounts", |kept| kept.amounts.truncate(5)),
        ("first rows that are left out", |kept| kept.series[FIRST] = 1),
        ("rows that overlap", |kept| kept.series[SERIES_ROW + FIRST] = 1),
        ("a row between", |kept| kept.series[SERIES_ROW + FIRST] = 3),
        ("a series with no row", |kept| kept.series[SERIES_ROW + COUNT] = 0),
        ("rows without end", |kept| kept.series[2 * SERIES_ROW + COUNT] = u32::MAX),
        ("a first Pos that is not 1", |kept| kept.positions[2] = 2),
        ("a Pos again", |kept| kept.positions[5] = 2),
        ("an amount of 10^15", |kept| kept.amounts[5] = 1_000_000_000_000_000),
        ("the smallest number", |kept| kept.amounts[0] = i64::MIN),
    ];
    for (what, change) in changes {
        assert!(refused(change), "{what}");
    }
    assert!(!refused(|kept| kept.quarters = 35_136) && !refused(|kept| kept.amounts[5] = -999_999_999_999_999));
}

#[test]
fn more_series_go_before_wrong_tables() {
    let mut wrong = three();
    (wrong.kind, wrong.count) = (9, TOTALS_MOST + 1);
    assert_eq!(added(&wrong), Err(Refusal::TooManySeries));
    wrong.count = usize::MAX;
    assert_eq!(added(&wrong), Err(Refusal::TooManySeries));
    wrong.count = TOTALS_MOST;
    assert_eq!(added(&wrong), Err(Refusal::WrongTables));
}

fn total(whole: i64, thousandths: u32) -> Total {
    Total::new(whole, thousandths).expect("a total")
}

#[test]
fn decimals() {
    let cases = [
        ((0, 0), "0"),
        ((0, 1), "0.001"),
        ((-1, 999), "-0.001"),
        ((-1, 0), "-1"),
        ((-2, 500), "-1.5"),
        ((-62, 750), "-61.25"),
        ((12, 340), "12.34"),
        ((i64::MAX, 999), "9223372036854775807.999"),
        ((i64::MIN, 0), "-9223372036854775808"),
        ((i64::MIN, 1), "-9223372036854775807.999"),
    ];
    for ((whole, thousandths), text) in cases {
        let told = total(whole, thousandths);
        assert_eq!((told.to_string(), told.whole(), told.thousandths()), (text.to_string(), whole, thousandths));
    }
    assert_eq!(format!("{:.3}|{:+}|{:>8.1}|{:08}", total(-1, 0), total(7, 0), total(-4, 250), total(-4, 250)), "-1.000|+7|   -3.75|-0003.75");
    assert_eq!((Total::new(0, 999).is_some(), Total::new(0, 1_000), Total::new(0, u32::MAX)), (true, None, None));
}

#[test]
fn order_and_sums() {
    assert!(total(-1, 0) < total(-1, 999) && total(-1, 999) < Total::ZERO && Total::ZERO < total(0, 1));
    assert_eq!(total(-1, 999).checked_add(total(0, 1)), Some(Total::ZERO));
    assert_eq!(total(3, 600).checked_add(total(-9, 500)), Some(total(-5, 100)));
    assert_eq!(total(i64::MAX, 0).checked_add(total(0, 999)), Some(total(i64::MAX, 999)));
    assert_eq!((total(i64::MAX, 1).checked_add(total(0, 999)), total(i64::MIN, 0).checked_add(total(-1, 999))), (None, None));
    assert_eq!(total(i64::MIN, 500).checked_add(total(-1, 500)), Some(total(i64::MIN, 0)));
}
