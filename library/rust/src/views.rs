//! Where each attribute value of a document stands.
use crate::foreign::{self, HEADER_PAIRS, SERIES_PAIRS};
use crate::sheet::View;
use crate::{HeaderValue, Kind, Period, Refusal, SeriesValue};
use core::error::Error;
use core::fmt;
use core::iter::FusedIterator;
use core::ops::Range;

/// A document whose values are not shown, since it is refused or the table is too short. All cells of the table are 0.
///
/// Neither its text nor its `Debug` output holds anything of the document, so that both may go into a log.
#[derive(Clone, Copy, Debug, PartialEq, Eq, Hash)]
#[must_use]
pub struct ViewsRefused {
    refusal: Refusal,
    place: usize,
    kind: Option<Kind>,
    series: usize,
}

impl ViewsRefused {
    /// Why: the reader's own refusal, or [`Refusal::TableFull`] for a table with no room for the header or for a series.
    pub fn refusal(&self) -> Refusal {
        self.refusal
    }

    /// The index of the faulty item's first byte, or the document's length where it is over too early; 0 where it is too long, and where the table has no
    /// room for the header.
    pub fn place(&self) -> usize {
        self.place
    }

    /// The kind of a root start before the faulty item.
    pub fn kind(&self) -> Option<Kind> {
        self.kind
    }

    /// Series start tags before the faulty item.
    pub fn series(&self) -> usize {
        self.series
    }
}

impl fmt::Display for ViewsRefused {
    fn fmt(&self, f: &mut fmt::Formatter<'_>) -> fmt::Result {
        write!(f, "refused with {} at byte {}: {}", self.refusal.number(), self.place, self.refusal)
    }
}

impl Error for ViewsRefused {}

/// What a table of views is told with.
#[derive(Clone, Copy, PartialEq, Eq)]
pub(crate) struct Seen {
    kind: Kind,
    series: usize,
    period: Period,
}

/// What nothing was seen of, for memory that is made empty.
impl Default for Seen {
    fn default() -> Self {
        Seen { kind: Kind::Other(0), series: 0, period: Period::told(0, 0) }
    }
}

impl Seen {
    /// Views the document in what is lent.
    pub(crate) fn of(doc: &[u8], table: &mut [u32]) -> Result<Self, ViewsRefused> {
        let [number, place, kind, series, from, to] = foreign::views(doc, table);
        let (kind, series) = (Kind::from_number(kind), series as usize);
        if let Some(refusal) = Refusal::from_number(number) {
            return Err(ViewsRefused { refusal, place: place as usize, kind, series });
        }
        Ok(Seen { kind: kind.unwrap_or(Kind::Other(0)), series, period: Period::told(from, to) })
    }

    /// The views, over the document and the table that it was viewed in.
    pub(crate) fn views<'a>(&self, doc: &'a [u8], table: &'a [u32]) -> Views<'a> {
        Views { doc, table, seen: *self }
    }
}

/// Views a document in a lent table: where every attribute value of its header and of its series stands, but for Pos and Qty.
///
/// The document is judged as [`read`](crate::read()) does it, and needs not be read before. What stands in the table before makes no difference;
/// [`Room::views_numbers`](crate::Room::views_numbers) tells how long it has to be. [`Sheet::views`](crate::Sheet::views) is for a document that was read.
///
/// ```
/// use lumintayag::{views, Refusal, Room};
///
/// # let document = include_bytes!(concat!(env!("CARGO_MANIFEST_DIR"), "/../../crates/samples_run/data/two-plain.xml"));
/// let mut table = [0; Room { series: 64, intervals: 0 }.views_numbers()];
/// let shown = views(document, &mut table)?;
/// assert_eq!((shown.document(), shown.version(), shown.doc_status()), (Some("D-1"), Some("3"), None));
/// for series in shown.iter() {
///     assert_eq!((series.unit(), series.direction()), (Some("Z02"), None));
/// }
/// assert_eq!(views(document, &mut [0; 31]).unwrap_err().refusal(), Refusal::TableFull);
/// # Ok::<(), lumintayag::ViewsRefused>(())
/// ```
///
/// # Errors
///
/// [`ViewsRefused`] says why and where. With [`Refusal::TableFull`] the document may be viewed again in a longer table.
pub fn views<'a>(doc: &'a [u8], table: &'a mut [u32]) -> Result<Views<'a>, ViewsRefused> {
    let seen = Seen::of(doc, table)?;
    Ok(seen.views(doc, table))
}

/// What the pairs of a table show of an accepted document: the values of its header, and those of its series.
///
/// Each value is `None` where the document does not have it or its kind does not know it. What a value shows is as it stands in the document, without the
/// spaces at its ends where the guideline says collapse, and always of a codingScheme, be they there as such or by reference; it may be empty. All other
/// references are shown as they stand, and [`unescaped`](crate::unescaped) tells what a value says. `Debug` tells the kind and the counts, and nothing
/// of the document.
#[derive(Clone, Copy, PartialEq, Eq)]
pub struct Views<'a> {
    doc: &'a [u8],
    table: &'a [u32],
    seen: Seen,
}

impl<'a> Views<'a> {
    /// What the document is.
    pub fn kind(&self) -> Kind {
        self.seen.kind
    }

    /// When it begins and ends: TimePeriodCovered.
    pub fn period(&self) -> Period {
        self.seen.period
    }

    /// How many series there are; a NetworkConstraintDocument may have none.
    pub fn len(&self) -> usize {
        self.seen.series
    }

    /// Whether there is no series.
    pub fn is_empty(&self) -> bool {
        self.len() == 0
    }

    /// The values of series `index`, counted from 0, in the order of the [sheet](crate::Sheet::get); `None` past the last one.
    pub fn get(&self, index: usize) -> Option<SeriesViews<'a>> {
        (index < self.len()).then_some(SeriesViews { views: *self, index })
    }

    /// The values of each series, in document order.
    pub fn iter(&self) -> SeriesViewsIter<'a> {
        SeriesViewsIter { views: *self, rest: 0..self.len() }
    }

    /// What pair `pair` shows, `after` pairs behind those of the first series.
    fn shown(&self, pair: usize, after: usize) -> Option<&'a str> {
        let cell = pair.checked_add(after)?.checked_mul(2)?;
        let &[start, len] = self.table.get(cell..)?.first_chunk::<2>()?;
        Some(View::if_there(self.doc, start, len)??.text())
    }

    /// A value of the header, by its name.
    pub fn header(&self, value: HeaderValue) -> Option<&'a str> {
        self.shown(value.pair(), 0)
    }

    /// DocumentIdentification.
    pub fn document(&self) -> Option<&'a str> {
        self.header(HeaderValue::DocumentIdentification)
    }

    /// DocumentVersion.
    pub fn version(&self) -> Option<&'a str> {
        self.header(HeaderValue::DocumentVersion)
    }

    /// DocumentType.
    pub fn document_type(&self) -> Option<&'a str> {
        self.header(HeaderValue::DocumentType)
    }

    /// ProcessType.
    pub fn process_type(&self) -> Option<&'a str> {
        self.header(HeaderValue::ProcessType)
    }

    /// SenderIdentification.
    pub fn sender(&self) -> Option<&'a str> {
        self.header(HeaderValue::SenderIdentification)
    }

    /// codingScheme of SenderIdentification.
    pub fn sender_scheme(&self) -> Option<&'a str> {
        self.header(HeaderValue::SenderScheme)
    }

    /// SenderRole.
    pub fn sender_role(&self) -> Option<&'a str> {
        self.header(HeaderValue::SenderRole)
    }

    /// ReceiverIdentification.
    pub fn receiver(&self) -> Option<&'a str> {
        self.header(HeaderValue::ReceiverIdentification)
    }

    /// codingScheme of ReceiverIdentification.
    pub fn receiver_scheme(&self) -> Option<&'a str> {
        self.header(HeaderValue::ReceiverScheme)
    }

    /// ReceiverRole.
    pub fn receiver_role(&self) -> Option<&'a str> {
        self.header(HeaderValue::ReceiverRole)
    }

    /// DocumentDateTime, with seconds.
    pub fn date_time(&self) -> Option<&'a str> {
        self.header(HeaderValue::DocumentDateTime)
    }

    /// DocStatus: `A13` is withdrawn. A NetworkConstraintDocument alone may have it.
    pub fn doc_status(&self) -> Option<&'a str> {
        self.header(HeaderValue::DocStatus)
    }
}

impl fmt::Debug for Views<'_> {
    fn fmt(&self, f: &mut fmt::Formatter<'_>) -> fmt::Result {
        f.debug_struct("Views").field("kind", &self.kind()).field("quarters", &self.period().quarters()).field("series", &self.len()).finish()
    }
}

impl<'a> IntoIterator for Views<'a> {
    type Item = SeriesViews<'a>;
    type IntoIter = SeriesViewsIter<'a>;

    fn into_iter(self) -> SeriesViewsIter<'a> {
        self.iter()
    }
}

impl<'a> IntoIterator for &Views<'a> {
    type Item = SeriesViews<'a>;
    type IntoIter = SeriesViewsIter<'a>;

    fn into_iter(self) -> SeriesViewsIter<'a> {
        self.iter()
    }
}

/// The values of each series, in document order. See [`Views::iter`].
#[derive(Clone, Debug)]
pub struct SeriesViewsIter<'a> {
    views: Views<'a>,
    rest: Range<usize>,
}

impl<'a> Iterator for SeriesViewsIter<'a> {
    type Item = SeriesViews<'a>;

    fn next(&mut self) -> Option<SeriesViews<'a>> {
        self.views.get(self.rest.next()?)
    }

    fn size_hint(&self) -> (usize, Option<usize>) {
        self.rest.size_hint()
    }
}

impl<'a> DoubleEndedIterator for SeriesViewsIter<'a> {
    fn next_back(&mut self) -> Option<SeriesViews<'a>> {
        self.views.get(self.rest.next_back()?)
    }
}

impl ExactSizeIterator for SeriesViewsIter<'_> {}
impl FusedIterator for SeriesViewsIter<'_> {}

/// What the pairs of a series show. See [`Views`].
///
/// The prices of two series may be held against each other only where kind, BusinessType, Direction and MeasurementUnit are the same.
///
/// ```
/// # #[cfg(feature = "alloc")] {
/// # let document = include_bytes!(concat!(env!("CARGO_MANIFEST_DIR"), "/../../crates/samples_run/data/two-directions-and-areas.xml")).to_vec();
/// # let kept = lumintayag::OwnedSheet::read(document)?;
/// use lumintayag::{unescaped, SeriesViews};
///
/// let shown = kept.views()?;
/// // A value may hold references, so that it is compared by what it says.
/// let says = |value: Option<&str>, code: &str| value.is_some_and(|value| unescaped(value).eq(code.chars()));
/// let like = |series: &SeriesViews| says(series.business_type(), "A01") && says(series.direction(), "A02") && says(series.unit(), "Z02");
/// let of_that_sort: Vec<_> = shown.iter().filter(like).filter_map(|series| series.identification()).collect();
/// assert_eq!(of_that_sort, ["S-1", "S-4", "S-5"]);
/// # }
/// # Ok::<(), Box<dyn std::error::Error>>(())
/// ```
#[derive(Clone, Copy, PartialEq, Eq)]
pub struct SeriesViews<'a> {
    views: Views<'a>,
    index: usize,
}

impl<'a> SeriesViews<'a> {
    /// A value of the series, by its name.
    pub fn get(&self, value: SeriesValue) -> Option<&'a str> {
        self.views.shown(value.pair(self.views.kind())?, self.index.checked_mul(SERIES_PAIRS)?)
    }

    /// The value that the kind has of two.
    fn either(&self, value: SeriesValue, other: SeriesValue) -> Option<&'a str> {
        self.get(value).or_else(|| self.get(other))
    }

    /// TimeSeriesIdentification.
    pub fn identification(&self) -> Option<&'a str> {
        self.get(SeriesValue::TimeSeriesIdentification)
    }

    /// BusinessType.
    pub fn business_type(&self) -> Option<&'a str> {
        self.get(SeriesValue::BusinessType)
    }

    /// Direction: `A01` is up, `A02` is down. It may be absent in a Kostenblatt, and a Beschaffungsanforderung has none.
    pub fn direction(&self) -> Option<&'a str> {
        self.get(SeriesValue::Direction)
    }

    /// Product, which a NetworkConstraintDocument does not have.
    pub fn product(&self) -> Option<&'a str> {
        self.get(SeriesValue::Product)
    }

    /// The area: InArea in a Beschaffungsanforderung; ConnectingArea in the other kinds, which may be absent in a Kostenblatt.
    pub fn area(&self) -> Option<&'a str> {
        self.either(SeriesValue::InArea, SeriesValue::ConnectingArea)
    }

    /// The object: InParty in a Beschaffungsanforderung, ResourceObject in the other kinds.
    pub fn object(&self) -> Option<&'a str> {
        self.either(SeriesValue::InParty, SeriesValue::ResourceObject)
    }

    /// The codingScheme of the [object](SeriesViews::object).
    pub fn object_scheme(&self) -> Option<&'a str> {
        self.either(SeriesValue::InPartyScheme, SeriesValue::ResourceObjectScheme)
    }

    /// ResourceProvider, which a Beschaffungsanforderung does not have and a NetworkConstraintDocument may lack.
    pub fn provider(&self) -> Option<&'a str> {
        self.get(SeriesValue::ResourceProvider)
    }

    /// MeasurementUnit: megawatts (`MAW`) or a share (`C62`); in a Kostenblatt euros per piece (`Z01`), per megawatt hour (`Z02`) or per hour (`Z03`).
    pub fn unit(&self) -> Option<&'a str> {
        self.get(SeriesValue::MeasurementUnit)
    }

    /// Status, which a Kostenblatt alone may have.
    pub fn status(&self) -> Option<&'a str> {
        self.get(SeriesValue::Status)
    }

    /// OriginalSenderIdentification: the five Original elements are all there or all absent.
    pub fn original_sender(&self) -> Option<&'a str> {
        self.get(SeriesValue::OriginalSenderIdentification)
    }

    /// OriginalDocumentIdentification.
    pub fn original_document(&self) -> Option<&'a str> {
        self.get(SeriesValue::OriginalDocumentIdentification)
    }

    /// OriginalDocumentVersion.
    pub fn original_version(&self) -> Option<&'a str> {
        self.get(SeriesValue::OriginalDocumentVersion)
    }

    /// OriginalDocumentDateTime, with seconds.
    pub fn original_date_time(&self) -> Option<&'a str> {
        self.get(SeriesValue::OriginalDocumentDateTime)
    }

    /// OriginalTimeSeriesIdentification.
    pub fn original_identification(&self) -> Option<&'a str> {
        self.get(SeriesValue::OriginalTimeSeriesIdentification)
    }
}

/// Which series it is and how many values it has, and nothing of what they hold.
impl fmt::Debug for SeriesViews<'_> {
    fn fmt(&self, f: &mut fmt::Formatter<'_>) -> fmt::Result {
        let values = SeriesValue::all(self.views.kind()).iter().filter(|value| self.get(**value).is_some()).count();
        f.debug_struct("SeriesViews").field("kind", &self.views.kind()).field("index", &self.index).field("values", &values).finish()
    }
}

/// Cells of a table that has room for a header and for so many series.
pub(crate) const fn cells(series: usize) -> usize {
    series.saturating_mul(SERIES_PAIRS).saturating_add(HEADER_PAIRS).saturating_mul(2)
}
