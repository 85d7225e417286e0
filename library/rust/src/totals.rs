//! What series come to: their amounts times the quarter hours that they stand.
use crate::amount::decimal;
use crate::foreign::{self, TOTALS_MOST, TOTAL_NUMBERS};
use crate::{wipe, Kind, Refusal, Tables};
use core::fmt;
use core::iter::FusedIterator;
use core::slice::Iter;

/// A sum of amounts, each times the quarter hours that it stands. It is exact.
///
/// It is told as a whole number and the thousandths over that, from 0 to 999: -0.001 is -1 and 999. [`Display`](fmt::Display) writes it as a decimal number,
/// as that of [`Amount`](crate::Amount) does. [`Debug`](fmt::Debug) writes no digit, so that no price gets into a log by mistake.
///
/// ```
/// use lumintayag::Total;
///
/// let total = Total::new(-1, 999).expect("at most 999 thousandths");
/// assert_eq!(total.to_string(), "-0.001");
/// assert_eq!((total.whole(), total.thousandths(), total.in_thousandths()), (-1, 999, -1));
/// assert_eq!(total.checked_add(total).map(|sum| format!("{sum:>8}")), Some("  -0.002".into()));
/// assert_eq!(format!("{total:?}"), "Total(..)");
/// assert!(total < Total::ZERO);
/// ```
#[derive(Clone, Copy, PartialEq, Eq, PartialOrd, Ord, Hash)]
pub struct Total {
    whole: i64,
    thousandths: u32,
}

impl Total {
    /// The total of no amount.
    pub const ZERO: Total = Total { whole: 0, thousandths: 0 };

    /// The total of a whole number and thousandths over it; `None` for more than 999 of them.
    pub const fn new(whole: i64, thousandths: u32) -> Option<Self> {
        if thousandths > 999 {
            return None;
        }
        Some(Total { whole, thousandths })
    }

    /// The thousandths of a total that the archive tells are from 0 to 999.
    const fn told([whole, thousandths]: [i64; TOTAL_NUMBERS]) -> Self {
        Total { whole, thousandths: thousandths as u32 }
    }

    /// The whole number at or below it: -0.001 has -1.
    pub const fn whole(self) -> i64 {
        self.whole
    }

    /// The thousandths over that, from 0 to 999: -0.001 has 999.
    pub const fn thousandths(self) -> u32 {
        self.thousandths
    }

    /// All of it in thousandths: -0.001 has -1. Those of a year may be more than an `i64` holds.
    pub const fn in_thousandths(self) -> i128 {
        self.whole as i128 * 1000 + self.thousandths as i128
    }

    /// The sum of two totals, as of two sheets; `None` where its whole number is none of an `i64`.
    pub fn checked_add(self, other: Total) -> Option<Total> {
        let thousandths = self.thousandths + other.thousandths;
        let whole = i128::from(self.whole) + i128::from(other.whole) + i128::from(thousandths > 999);
        Total::new(i64::try_from(whole).ok()?, if thousandths > 999 { thousandths - 1000 } else { thousandths })
    }
}

impl fmt::Debug for Total {
    fn fmt(&self, f: &mut fmt::Formatter<'_>) -> fmt::Result {
        f.write_str("Total(..)")
    }
}

impl fmt::Display for Total {
    fn fmt(&self, f: &mut fmt::Formatter<'_>) -> fmt::Result {
        let rest = u64::from(self.thousandths);
        match (self.whole < 0, rest) {
            (true, 1..) => decimal(f, true, self.whole.unsigned_abs() - 1, 1000 - rest),
            (negative, _) => decimal(f, negative, self.whole.unsigned_abs(), rest),
        }
    }
}

/// The total of each series, at most [`TOTALS_MOST`], and of all of them. See [`Sheet::totals`](crate::Sheet::totals).
///
/// It is [wiped](wipe) when it is dropped. A value that is moved may leave a copy of itself on the stack, as every call may. `Debug` tells how many series
/// there are, and no total.
#[derive(PartialEq, Eq)]
#[must_use]
pub struct Totals {
    cells: [[i64; TOTAL_NUMBERS]; TOTALS_MOST],
    count: usize,
    sum: [i64; TOTAL_NUMBERS],
}

impl Totals {
    fn rows(&self) -> &[[i64; TOTAL_NUMBERS]] {
        self.cells.get(..self.count).unwrap_or_default()
    }

    /// How many series there are.
    pub fn len(&self) -> usize {
        self.count
    }

    /// Whether there is no series.
    pub fn is_empty(&self) -> bool {
        self.count == 0
    }

    /// The total of series `index`, counted from 0; `None` past the last one.
    pub fn get(&self, index: usize) -> Option<Total> {
        Some(Total::told(*self.rows().get(index)?))
    }

    /// The total of each series, in document order.
    pub fn iter(&self) -> TotalsIter<'_> {
        TotalsIter { rest: self.rows().iter() }
    }

    /// The total of all series. In another order they come to the same.
    pub fn sum(&self) -> Total {
        Total::told(self.sum)
    }
}

impl<'a> IntoIterator for &'a Totals {
    type Item = Total;
    type IntoIter = TotalsIter<'a>;

    fn into_iter(self) -> TotalsIter<'a> {
        self.iter()
    }
}

/// The total of each series, in document order. See [`Totals::iter`]. `Debug` tells how many are left.
#[derive(Clone)]
pub struct TotalsIter<'a> {
    rest: Iter<'a, [i64; TOTAL_NUMBERS]>,
}

impl Iterator for TotalsIter<'_> {
    type Item = Total;

    fn next(&mut self) -> Option<Total> {
        Some(Total::told(*self.rest.next()?))
    }

    fn size_hint(&self) -> (usize, Option<usize>) {
        self.rest.size_hint()
    }
}

impl DoubleEndedIterator for TotalsIter<'_> {
    fn next_back(&mut self) -> Option<Total> {
        Some(Total::told(*self.rest.next_back()?))
    }
}

impl ExactSizeIterator for TotalsIter<'_> {}
impl FusedIterator for TotalsIter<'_> {}

impl fmt::Debug for TotalsIter<'_> {
    fn fmt(&self, f: &mut fmt::Formatter<'_>) -> fmt::Result {
        f.debug_struct("TotalsIter").field("series", &self.len()).finish_non_exhaustive()
    }
}

impl fmt::Debug for Totals {
    fn fmt(&self, f: &mut fmt::Formatter<'_>) -> fmt::Result {
        f.debug_struct("Totals").field("series", &self.count).finish_non_exhaustive()
    }
}

impl Drop for Totals {
    fn drop(&mut self) {
        wipe(self.cells.as_flattened_mut());
        wipe(&mut self.sum);
    }
}

/// Adds up the first `count` series of filled tables: every amount times the quarter hours that it stands. What stands past those series is not looked at.
///
/// [`Sheet::totals`](crate::Sheet::totals) is for a document that was just read. This is for tables that a caller keeps, and of which nothing is believed:
/// where they are not as the reader leaves them, they are refused. `quarters` is N, the quarter hours of TimePeriodCovered.
///
/// ```
/// use lumintayag::{totals, Kind, Refusal, Tables, Total, SERIES_ROW};
///
/// // One series of two intervals, of which the last two cells of its row tell: 12.5 for quarter hours 1 and 2, -0.001 for 3 and 4.
/// let mut row = [0; SERIES_ROW];
/// row[SERIES_ROW - 1] = 2;
/// let tables = Tables { series: &row, positions: &[1, 3], amounts: &[12_500, -1] };
/// let added = totals(Kind::Kostenblatt, 4, 1, tables)?;
/// assert_eq!(added.sum(), Total::new(24, 998).expect("a total"));
/// assert_eq!(totals(Kind::Kostenblatt, 2, 1, tables), Err(Refusal::WrongTables), "Pos 3 of 2 quarter hours");
/// # Ok::<(), lumintayag::Refusal>(())
/// ```
///
/// # Errors
///
/// [`Refusal::TooManySeries`] where `count` is more than [`TOTALS_MOST`]; else [`Refusal::WrongTables`] exactly when N is none that a period of the kind
/// allows or the kind is unknown, the series or their rows run past the tables, the rows of a series do not begin where those of the one before end (the
/// first at 0), its count or a Pos breaks the rule of the kind, or an amount has 10^15 thousandths or more in size.
pub fn totals(kind: Kind, quarters: u32, count: usize, tables: Tables<'_>) -> Result<Totals, Refusal> {
    let mut added = Totals { cells: [[0; TOTAL_NUMBERS]; TOTALS_MOST], count, sum: [0; TOTAL_NUMBERS] };
    match Refusal::from_number(foreign::totals(kind.number(), quarters, count, tables, added.cells.as_flattened_mut(), &mut added.sum)) {
        None => Ok(added),
        Some(refusal) => Err(refusal),
    }
}
