//! The tables of an accepted document, row by row.
use crate::{totals, views, Amount, Kind, Refusal, Room, Totals, Views, ViewsRefused, SERIES_ROW};
use core::fmt;
use core::iter::FusedIterator;
use core::ops::Range;

/// `len` elements from `start` on; `None` where they are not all there.
fn part<T>(all: &[T], start: u32, len: u32) -> Option<&[T]> {
    let start = start as usize;
    all.get(start..start.checked_add(len as usize)?)
}

/// The three tables, filled: what was [lent](crate::Lent), to be [added up](crate::totals()) or [written](crate::write()) by a caller who keeps the tables and not
/// the [`Sheet`].
#[derive(Clone, Copy, PartialEq, Eq)]
pub struct Tables<'a> {
    /// [`SERIES_ROW`] numbers for each series.
    pub series: &'a [u32],
    /// One number for each interval.
    pub positions: &'a [u32],
    /// One amount for each interval, in thousandths.
    pub amounts: &'a [i64],
}

/// How long the tables are, and nothing of what they hold.
impl fmt::Debug for Tables<'_> {
    fn fmt(&self, f: &mut fmt::Formatter<'_>) -> fmt::Result {
        f.debug_struct("Tables")
            .field("series", &self.series.len())
            .field("positions", &self.positions.len())
            .field("amounts", &self.amounts.len())
            .finish()
    }
}

impl<'a> Tables<'a> {
    /// Their rows, without the cells past the last one.
    pub(crate) fn of(self, series: usize, intervals: usize) -> Self {
        Tables {
            series: self.series.get(..series.saturating_mul(SERIES_ROW)).unwrap_or_default(),
            positions: self.positions.get(..intervals).unwrap_or_default(),
            amounts: self.amounts.get(..intervals).unwrap_or_default(),
        }
    }
}

/// What an accepted document says: its series, in document order.
///
/// `Debug` tells the kind and the counts, and nothing of the document.
///
/// ```
/// # #[cfg(feature = "alloc")] {
/// # let document = include_bytes!(concat!(env!("CARGO_MANIFEST_DIR"), "/../../crates/samples_run/data/two-plain.xml")).to_vec();
/// # let kept = lumintayag::OwnedSheet::read(document)?;
/// # let sheet = kept.sheet();
/// use lumintayag::{Amount, Kind};
///
/// if sheet.kind() == Kind::Kostenblatt {
///     for series in sheet {
///         // Two intervals here; the first amount stands for quarter hours 1 to 4, the second from 5 to the last.
///         assert_eq!((series.intervals().len(), series.by_quarter().len()), (2, 96));
///         let cheapest = series.by_quarter().min_by_key(|&(_, price)| price);
///         assert_eq!(cheapest, Some((5, Amount::from_thousandths(-3_250))));
///         assert_eq!(series.amount_at(97), None);
///     }
/// }
/// # }
/// # Ok::<(), lumintayag::Refused>(())
/// ```
#[derive(Clone, Copy, PartialEq, Eq)]
pub struct Sheet<'a> {
    doc: &'a [u8],
    kind: Kind,
    quarters: u32,
    tables: Tables<'a>,
}

impl<'a> Sheet<'a> {
    pub(crate) fn new(doc: &'a [u8], kind: Kind, quarters: u32, tables: Tables<'a>) -> Self {
        Sheet { doc, kind, quarters, tables }
    }

    /// What the document is.
    pub fn kind(&self) -> Kind {
        self.kind
    }

    /// N: the quarter hours of TimePeriodCovered. Number 1 is the first of them, whatever time of day it begins at.
    pub fn quarters(&self) -> u32 {
        self.quarters
    }

    /// How many series there are; a NetworkConstraintDocument may have none.
    pub fn len(&self) -> usize {
        self.tables.series.len() / SERIES_ROW
    }

    /// Whether there is no series.
    pub fn is_empty(&self) -> bool {
        self.len() == 0
    }

    /// Series `index`, counted from 0; `None` past the last one, and for a row that does not belong to the document. The reader leaves no such row.
    pub fn get(&self, index: usize) -> Option<Series<'a>> {
        let row = self.tables.series.get(index.checked_mul(SERIES_ROW)?..)?.first_chunk::<SERIES_ROW>()?;
        let &[id, id_len, object, object_len, business_type, business_type_len, direction, direction_len, area, area_len, first, count] = row;
        let intervals = Rows::of(self.tables, first, count)?;
        Some(Series {
            identification: View::of(self.doc, id, id_len)?,
            object: View::of(self.doc, object, object_len)?,
            business_type: View::of(self.doc, business_type, business_type_len)?,
            direction: View::if_there(self.doc, direction, direction_len)?,
            area: View::if_there(self.doc, area, area_len)?,
            intervals,
            covered: self.kind.covered(self.quarters, intervals.last()),
        })
    }

    /// The series, in document order.
    pub fn iter(&self) -> SeriesIter<'a> {
        SeriesIter { sheet: *self, rest: 0..self.len() }
    }

    /// The total of each series and of all of them: every amount times the quarter hours that it stands.
    ///
    /// ```
    /// # #[cfg(feature = "alloc")] {
    /// # let document = include_bytes!(concat!(env!("CARGO_MANIFEST_DIR"), "/../../crates/samples_run/data/two-plain.xml")).to_vec();
    /// # let kept = lumintayag::OwnedSheet::read(document)?;
    /// # let sheet = kept.sheet();
    /// let totals = sheet.totals()?;
    /// for (series, total) in sheet.iter().zip(totals.iter()) {
    ///     println!("{}: {total}", series.identification());
    /// }
    /// assert_eq!(totals.get(0), Some(totals.sum()), "one series is all of them");
    /// # }
    /// # Ok::<(), Box<dyn std::error::Error>>(())
    /// ```
    ///
    /// # Errors
    ///
    /// [`Refusal::TooManySeries`] for a sheet of more than [`TOTALS_MOST`](crate::TOTALS_MOST) series, and nothing else.
    pub fn totals(&self) -> Result<Totals, Refusal> {
        totals(self.kind, self.quarters, self.len(), self.tables)
    }

    /// Numbers that [`views`](Sheet::views) needs in its table.
    pub fn views_numbers(&self) -> usize {
        Room { series: self.len(), intervals: 0 }.views_numbers()
    }

    /// Shows every attribute value of the document in a lent table: its header, its period, and of each series the unit and all else that is no cell of its
    /// row. The document is read once more for it.
    ///
    /// ```
    /// # #[cfg(feature = "alloc")] {
    /// # let document = include_bytes!(concat!(env!("CARGO_MANIFEST_DIR"), "/../../crates/samples_run/data/two-plain.xml")).to_vec();
    /// # let kept = lumintayag::OwnedSheet::read(document)?;
    /// # let sheet = kept.sheet();
    /// let mut table = vec![0; sheet.views_numbers()];
    /// let shown = sheet.views(&mut table)?;
    /// for (series, values) in sheet.iter().zip(shown.iter()) {
    ///     assert_eq!((Some(series.identification()), Some("Z02")), (values.identification(), values.unit()));
    ///     if let (Some(time), Some(amount)) = (shown.period().quarter(41), series.amount_at(41)) {
    ///         println!("{time}: {amount}");
    ///     }
    /// }
    /// # }
    /// # Ok::<(), Box<dyn std::error::Error>>(())
    /// ```
    ///
    /// # Errors
    ///
    /// [`ViewsRefused`] with [`Refusal::TableFull`] for a table of fewer numbers than [`views_numbers`](Sheet::views_numbers), and nothing else.
    pub fn views<'t>(&self, table: &'t mut [u32]) -> Result<Views<'t>, ViewsRefused>
    where
        'a: 't,
    {
        views(self.doc, table)
    }
}

impl fmt::Debug for Sheet<'_> {
    fn fmt(&self, f: &mut fmt::Formatter<'_>) -> fmt::Result {
        f.debug_struct("Sheet")
            .field("kind", &self.kind)
            .field("quarters", &self.quarters)
            .field("series", &self.len())
            .field("intervals", &self.tables.positions.len())
            .finish()
    }
}

impl<'a> IntoIterator for Sheet<'a> {
    type Item = Series<'a>;
    type IntoIter = SeriesIter<'a>;

    fn into_iter(self) -> SeriesIter<'a> {
        self.iter()
    }
}

impl<'a> IntoIterator for &Sheet<'a> {
    type Item = Series<'a>;
    type IntoIter = SeriesIter<'a>;

    fn into_iter(self) -> SeriesIter<'a> {
        self.iter()
    }
}

/// A value as it stands in the document.
#[derive(Clone, Copy, PartialEq, Eq)]
pub(crate) struct View<'a> {
    start: u32,
    text: &'a str,
}

impl<'a> View<'a> {
    fn of(doc: &'a [u8], start: u32, len: u32) -> Option<Self> {
        Some(View { start, text: core::str::from_utf8(part(doc, start, len)?).ok()? })
    }

    /// Of an element that may be absent: 0 and 0 is none, since no value starts with a document.
    pub(crate) fn if_there(doc: &'a [u8], start: u32, len: u32) -> Option<Option<Self>> {
        if (start, len) == (0, 0) {
            return Some(None);
        }
        Self::of(doc, start, len).map(Some)
    }

    pub(crate) fn text(self) -> &'a str {
        self.text
    }
}

/// Where it stands, and not what it says.
impl fmt::Debug for View<'_> {
    fn fmt(&self, f: &mut fmt::Formatter<'_>) -> fmt::Result {
        let start = self.start as usize;
        write!(f, "{start}..{}", start.saturating_add(self.text.len()))
    }
}

/// The intervals of a series: as many positions as amounts, at least one, and the first position is 1.
#[derive(Clone, Copy, PartialEq, Eq)]
struct Rows<'a> {
    positions: &'a [u32],
    amounts: &'a [i64],
}

impl<'a> Rows<'a> {
    fn of(tables: Tables<'a>, first: u32, count: u32) -> Option<Self> {
        let rows = Rows { positions: part(tables.positions, first, count)?, amounts: part(tables.amounts, first, count)? };
        (rows.positions.first() == Some(&1)).then_some(rows)
    }

    fn last(&self) -> u32 {
        self.positions.last().copied().unwrap_or(0)
    }

    fn get(&self, row: usize) -> Option<(u32, Amount)> {
        Some((*self.positions.get(row)?, Amount::from_thousandths(*self.amounts.get(row)?)))
    }
}

/// How many, and not what they hold.
impl fmt::Debug for Rows<'_> {
    fn fmt(&self, f: &mut fmt::Formatter<'_>) -> fmt::Result {
        self.positions.len().fmt(f)
    }
}

/// A series of a sheet.
///
/// The prices of two series may be held against each other only where kind, BusinessType, Direction and MeasurementUnit are the same. The last one
/// is no cell of the row: [`Sheet::views`] shows it.
///
/// ```
/// # #[cfg(feature = "alloc")] {
/// # let document = include_bytes!(concat!(env!("CARGO_MANIFEST_DIR"), "/../../crates/samples_run/data/two-directions-and-areas.xml")).to_vec();
/// # let kept = lumintayag::OwnedSheet::read(document)?;
/// # let sheet = kept.sheet();
/// use lumintayag::unescaped;
///
/// // A value may hold references, so that it is compared by what it says.
/// let says = |value: Option<&str>, code: &str| value.is_some_and(|value| unescaped(value).eq(code.chars()));
/// let like = |series: &lumintayag::Series| says(series.direction(), "A02") && says(series.area(), "10YDE-EON------1");
/// let of_that_area: Vec<&str> = sheet.iter().filter(like).map(|series| series.identification()).collect();
/// assert_eq!(of_that_area, ["S-1", "S-5"]);
/// # }
/// # Ok::<(), lumintayag::Refused>(())
/// ```
///
/// `Debug` tells where its values stand in the document and how many intervals it has, and nothing of what they hold.
#[derive(Clone, Copy, Debug, PartialEq, Eq)]
pub struct Series<'a> {
    identification: View<'a>,
    object: View<'a>,
    business_type: View<'a>,
    direction: Option<View<'a>>,
    area: Option<View<'a>>,
    intervals: Rows<'a>,
    /// The last quarter hour that has an amount.
    covered: u32,
}

impl<'a> Series<'a> {
    /// TimeSeriesIdentification, as it stands in the document: with its references, as all values here ([`unescaped`](crate::unescaped)).
    pub fn identification(&self) -> &'a str {
        self.identification.text
    }

    /// InParty in a Beschaffungsanforderung, ResourceObject in the other kinds. In a NetworkConstraintDocument it may be empty.
    pub fn object(&self) -> &'a str {
        self.object.text
    }

    /// BusinessType, without the spaces at its ends and the references to spaces.
    pub fn business_type(&self) -> &'a str {
        self.business_type.text
    }

    /// Direction, without the spaces at its ends and the references to spaces: `A01` is up, `A02` is down. `None` where it is absent: it may be in a Kostenblatt, and a
    /// Beschaffungsanforderung has none. In a NetworkConstraintDocument it is always there.
    pub fn direction(&self) -> Option<&'a str> {
        self.direction.map(|view| view.text)
    }

    /// The area: InArea in a Beschaffungsanforderung; ConnectingArea in the other kinds, which may be absent in a Kostenblatt.
    pub fn area(&self) -> Option<&'a str> {
        self.area.map(|view| view.text)
    }

    /// Pos and amount of each interval, in document order.
    pub fn intervals(&self) -> Intervals<'a> {
        Intervals { intervals: self.intervals, rest: 0..self.intervals.positions.len() }
    }

    /// The amount of a quarter hour, counted from 1: that of the last Pos up to it. `None` for 0, past the last quarter hour of TimePeriodCovered, and in a
    /// NetworkConstraintDocument, where each amount is that of its own quarter hour, past the last Pos.
    pub fn amount_at(&self, quarter: u32) -> Option<Amount> {
        if quarter > self.covered {
            return None;
        }
        let up_to = self.intervals.positions.partition_point(|&position| position <= quarter);
        let (_, amount) = self.intervals.get(up_to.checked_sub(1)?)?;
        Some(amount)
    }

    /// Number and amount of each quarter hour of TimePeriodCovered, from 1 on; in a NetworkConstraintDocument up to the last Pos.
    pub fn by_quarter(&self) -> ByQuarter<'a> {
        ByQuarter { series: *self, row: 0, rest: 1..self.covered.saturating_add(1) }
    }
}

/// The series of a sheet, in document order. See [`Sheet::iter`].
#[derive(Clone, Debug)]
pub struct SeriesIter<'a> {
    sheet: Sheet<'a>,
    rest: Range<usize>,
}

impl<'a> Iterator for SeriesIter<'a> {
    type Item = Series<'a>;

    fn next(&mut self) -> Option<Series<'a>> {
        self.rest.find_map(|index| self.sheet.get(index))
    }

    fn size_hint(&self) -> (usize, Option<usize>) {
        (0, self.rest.size_hint().1)
    }
}

impl FusedIterator for SeriesIter<'_> {}

/// Pos and amount of each interval of a series. See [`Series::intervals`].
#[derive(Clone, Debug)]
pub struct Intervals<'a> {
    intervals: Rows<'a>,
    rest: Range<usize>,
}

impl Iterator for Intervals<'_> {
    type Item = (u32, Amount);

    fn next(&mut self) -> Option<(u32, Amount)> {
        self.intervals.get(self.rest.next()?)
    }

    fn size_hint(&self) -> (usize, Option<usize>) {
        self.rest.size_hint()
    }
}

impl DoubleEndedIterator for Intervals<'_> {
    fn next_back(&mut self) -> Option<(u32, Amount)> {
        self.intervals.get(self.rest.next_back()?)
    }
}

impl ExactSizeIterator for Intervals<'_> {}
impl FusedIterator for Intervals<'_> {}

/// Number and amount of each quarter hour of a series. See [`Series::by_quarter`].
#[derive(Clone, Debug)]
pub struct ByQuarter<'a> {
    series: Series<'a>,
    /// The interval whose amount stood last.
    row: usize,
    rest: Range<u32>,
}

impl Iterator for ByQuarter<'_> {
    type Item = (u32, Amount);

    fn next(&mut self) -> Option<(u32, Amount)> {
        let quarter = self.rest.next()?;
        let intervals = self.series.intervals;
        while intervals.positions.get(self.row + 1).is_some_and(|&position| position <= quarter) {
            self.row += 1;
        }
        let (_, amount) = intervals.get(self.row)?;
        Some((quarter, amount))
    }

    fn size_hint(&self) -> (usize, Option<usize>) {
        self.rest.size_hint()
    }
}

impl DoubleEndedIterator for ByQuarter<'_> {
    fn next_back(&mut self) -> Option<(u32, Amount)> {
        let quarter = self.rest.next_back()?;
        Some((quarter, self.series.amount_at(quarter)?))
    }
}

impl ExactSizeIterator for ByQuarter<'_> {}
impl FusedIterator for ByQuarter<'_> {}

#[cfg(test)]
mod tests {
    use super::*;

    const DOC: &[u8] = "id object A01 A02 area \u{E4}".as_bytes();
    const ROW: [u32; SERIES_ROW] = [0, 2, 3, 6, 10, 3, 14, 3, 18, 4, 1, 2];

    fn sheet<'a>(kind: Kind, series: &'a [u32], positions: &'a [u32]) -> Sheet<'a> {
        Sheet::new(DOC, kind, 4, Tables { series, positions, amounts: &[10, 20, 30] })
    }

    fn is_there(row: [u32; SERIES_ROW], positions: &[u32]) -> bool {
        let series = sheet(Kind::Kostenblatt, &row, positions);
        assert_eq!(series.get(0).is_some(), series.iter().next().is_some());
        series.get(0).is_some()
    }

    #[test]
    fn a_row_belongs_to_its_document() {
        let sheet = sheet(Kind::Kostenblatt, &ROW, &[1, 1, 3]);
        let series = sheet.get(0).expect("a row");
        assert_eq!((series.identification(), series.object(), series.business_type()), ("id", "object", "A01"));
        assert_eq!((series.direction(), series.area()), (Some("A02"), Some("area")));
        assert!(series.intervals().eq([(1, Amount::from_thousandths(20)), (3, Amount::from_thousandths(30))]));
        assert!(series.by_quarter().map(|(_, amount)| amount.thousandths()).eq([20, 20, 30, 30]));
    }

    #[test]
    fn a_row_that_does_not_belong_is_none() {
        assert!(is_there(ROW, &[1, 1, 3]));
        let other = |cell: usize, number| core::array::from_fn(|i| if i == cell { number } else { ROW[i] });
        let len = DOC.len() as u32;
        let views = [(0, len), (1, len + 1), (2, len), (3, u32::MAX), (4, u32::MAX), (5, len), (6, len), (7, u32::MAX), (8, u32::MAX), (9, len)];
        let rows = [(10, 2), (10, u32::MAX), (11, 0), (11, 3), (11, u32::MAX)];
        for (cell, number) in views.into_iter().chain(rows) {
            assert!(!is_there(other(cell, number), &[1, 1, 3]), "{number} in cell {cell}");
        }
        assert!(!is_there(other(1, len - 1), &[1, 1, 3]), "half a character");
        assert!(!is_there(ROW, &[1, 2, 3]), "a first position that is not 1");
        assert!(!is_there(ROW, &[1, 1]), "fewer positions than amounts");
    }

    #[test]
    fn a_direction_and_an_area_may_be_absent() {
        for absent in [&[6, 7][..], &[8, 9], &[6, 7, 8, 9]] {
            let row: [u32; SERIES_ROW] = core::array::from_fn(|i| if absent.contains(&i) { 0 } else { ROW[i] });
            let series = sheet(Kind::Kostenblatt, &row, &[1, 1, 3]).get(0).expect("a row");
            assert_eq!((series.direction().is_none(), series.area().is_none()), (absent.contains(&6), absent.contains(&8)));
            assert_eq!((series.identification(), series.intervals().len()), ("id", 2));
        }
    }

    #[test]
    fn half_a_row_and_no_row_are_none() {
        for cells in 0..SERIES_ROW {
            let sheet = sheet(Kind::Kostenblatt, &ROW[..cells], &[1, 1, 3]);
            assert!(sheet.is_empty() && sheet.get(0).is_none() && sheet.iter().next().is_none());
        }
    }

    #[test]
    fn an_amount_of_a_network_constraint_document_stands_for_its_own_quarter_hour() {
        let series = sheet(Kind::NetworkConstraintDocument, &ROW, &[1, 1, 2]).get(0).expect("a row");
        assert!(series.by_quarter().map(|(quarter, amount)| (quarter, amount.thousandths())).eq([(1, 20), (2, 30)]));
        assert_eq!((series.amount_at(2), series.amount_at(3)), (Some(Amount::from_thousandths(30)), None));
    }

    #[test]
    fn how_long_an_amount_of_an_unknown_kind_stands_is_not_known() {
        let series = sheet(Kind::Other(7), &ROW, &[1, 1, 3]).get(0).expect("a row");
        assert_eq!((series.amount_at(1), series.by_quarter().next(), series.intervals().len()), (None, None, 2));
    }
}
