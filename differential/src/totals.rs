//! Totals for the month, written from document 02 alone (K11), with integers of 128 bits.

use crate::model::{COUNT, FIRST, ROW};

/// "given their number, tables, kind and N"; the last two are how many cells are lent for the totals and for that of all series.
#[derive(Clone, PartialEq, Eq, Debug)]
pub struct Asked {
    pub kind: u32,
    pub n: u32,
    pub count: usize,
    pub series: Vec<u32>,
    pub positions: Vec<u32>,
    pub amounts: Vec<i64>,
    pub totals: usize,
    pub sum: usize,
}

/// The refusal, or 0, and what is left in all that was lent.
#[derive(Clone, PartialEq, Eq, Debug)]
pub struct Added {
    pub refusal: u32,
    pub totals: Vec<i64>,
    pub sum: Vec<i64>,
}

/// "17 for more than 200 series"
pub const MOST_SERIES: usize = 200;
/// "an amount has 10^15 thousandths or more in size"
pub const TOO_LARGE: u64 = 1_000_000_000_000_000;
/// A period of kind 1 is a day by local time; one of kinds 2 and 3 has 366 days at most.
const DAYS: [u32; 3] = [92, 96, 100];
const LONGEST_PERIOD: u32 = 366 * 96;
/// "intervals are 1 to 100"
const MOST_INTERVALS: u32 = 100;

/// What 02 lists for 18, in its order. Rows that run past a table are judged as far as they are there.
#[derive(Clone, Copy, PartialEq, Eq, Debug)]
pub enum Cause {
    Kind,
    Period,
    SeriesPast,
    PositionsPast,
    AmountsPast,
    Begin,
    Count,
    Pos,
    Size,
}

pub const CAUSES: [Cause; 9] =
    [Cause::Kind, Cause::Period, Cause::SeriesPast, Cause::PositionsPast, Cause::AmountsPast, Cause::Begin, Cause::Count, Cause::Pos, Cause::Size];

/// The rows of a series: where they begin, and how many.
#[derive(Clone, Copy)]
struct Rows {
    first: u64,
    count: u64,
}

impl Rows {
    fn end(self) -> u64 {
        self.first + self.count
    }

    fn part<T>(self, table: &[T]) -> &[T] {
        let inside = |row: u64| row.min(table.len() as u64) as usize;
        &table[inside(self.first)..inside(self.end())]
    }
}

/// Of each given series, as far as the series table has it.
fn all_rows(asked: &Asked) -> Vec<Rows> {
    let rows = asked.series.chunks_exact(ROW).take(asked.count);
    rows.map(|row| Rows { first: u64::from(row[FIRST]), count: u64::from(row[COUNT]) }).collect()
}

/// "N isn't one its periods allow"
fn period_allowed(kind: u32, n: u32) -> bool {
    match kind {
        1 => DAYS.contains(&n),
        2 | 3 => (1..=LONGEST_PERIOD).contains(&n),
        _ => true,
    }
}

/// "its count .. breaks the kind's rule"
fn count_allowed(kind: u32, n: u32, count: u64) -> bool {
    match kind {
        1 => count == u64::from(n),
        2 => count >= 1,
        3 => (1..=u64::from(MOST_INTERVALS)).contains(&count),
        _ => true,
    }
}

/// "or a Pos breaks the kind's rule": 1 to N in kind 1, from 1 on rising in kind 2, counted up by one from 1 in kind 3, all at most N.
fn positions_allowed(kind: u32, n: u32, positions: &[u32]) -> bool {
    let next_to = |two: &[u32]| if kind == 2 { two[0] < two[1] } else { two[0].checked_add(1) == Some(two[1]) };
    match kind {
        1..=3 => positions.first().is_none_or(|pos| *pos == 1) && positions.windows(2).all(next_to) && positions.iter().all(|pos| *pos <= n),
        _ => true,
    }
}

/// What stands past the given series is not looked at.
fn is_cause(cause: Cause, asked: &Asked) -> bool {
    let rows = all_rows(asked);
    let ends = [0].into_iter().chain(rows.iter().map(|rows| rows.end()));
    match cause {
        Cause::Kind => !(1..=3).contains(&asked.kind),
        Cause::Period => !period_allowed(asked.kind, asked.n),
        Cause::SeriesPast => rows.len() < asked.count,
        Cause::PositionsPast => rows.iter().any(|rows| rows.end() > asked.positions.len() as u64),
        Cause::AmountsPast => rows.iter().any(|rows| rows.end() > asked.amounts.len() as u64),
        Cause::Begin => rows.iter().zip(ends).any(|(rows, end)| rows.first != end),
        Cause::Count => rows.iter().any(|rows| !count_allowed(asked.kind, asked.n, rows.count)),
        Cause::Pos => rows.iter().any(|rows| !positions_allowed(asked.kind, asked.n, rows.part(&asked.positions))),
        Cause::Size => rows.iter().any(|rows| rows.part(&asked.amounts).iter().any(|amount| amount.unsigned_abs() >= TOO_LARGE)),
    }
}

/// All that is against 02's list.
pub fn causes(asked: &Asked) -> Vec<Cause> {
    CAUSES.into_iter().filter(|cause| is_cause(*cause, asked)).collect()
}

/// "every amount times the quarter hours it stands (one in kinds 1 and 3; in kind 2 from its Pos to the one before the next Pos, the last through N)"
fn total(asked: &Asked, rows: Rows) -> i128 {
    let (positions, amounts) = (rows.part(&asked.positions), rows.part(&asked.amounts));
    let stands = |k: usize| match asked.kind {
        2 => positions.get(k + 1).map_or(asked.n, |next| next - 1) - positions[k] + 1,
        _ => 1,
    };
    amounts.iter().enumerate().map(|(k, amount)| i128::from(*amount) * i128::from(stands(k))).sum()
}

/// "as a whole number and thousandths from 0 to 999, so that -0.001 is -1 and 999"
fn told(total: i128) -> [i64; 2] {
    [total.div_euclid(1000) as i64, total.rem_euclid(1000) as i64]
}

/// The numbers as far as there are cells, and 0 in the cells after them.
fn cells(numbers: &[[i64; 2]], length: usize) -> Vec<i64> {
    let mut cells = numbers.concat();
    cells.resize(length, 0);
    cells
}

pub fn add_up(asked: &Asked) -> Added {
    let refused = |refusal| Added { refusal, totals: vec![0; asked.totals], sum: vec![0; asked.sum] };
    if asked.count > MOST_SERIES {
        return refused(17);
    }
    if !causes(asked).is_empty() {
        return refused(18);
    }
    let totals: Vec<i128> = all_rows(asked).into_iter().map(|rows| total(asked, rows)).collect();
    let each: Vec<[i64; 2]> = totals.iter().map(|total| told(*total)).collect();
    Added { refusal: 0, totals: cells(&each, asked.totals), sum: cells(&[told(totals.iter().sum())], asked.sum) }
}
