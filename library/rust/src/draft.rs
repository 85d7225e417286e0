//! A document that is to be written, value by value.
use crate::views::cells;
use crate::wiped::Wiped;
use crate::{
    unescape, write, Amount, HeaderValue, Kind, Refusal, SeriesValue, Sheet, Tables, ViewsRefused, WriteRefused, Written, DOCUMENT_MOST,
    SERIES_PAIRS, SERIES_ROW,
};
use alloc::vec::Vec;
use core::fmt;

/// A Beschaffungsanforderung or a Kostenblatt that is to be written: its values by name, and of each series Pos and amount of its intervals.
///
/// From a sheet that was read, with other prices, as its next version:
///
/// ```
/// use lumintayag::{Amount, Draft, HeaderValue, OwnedSheet};
///
/// # let document = include_bytes!(concat!(env!("CARGO_MANIFEST_DIR"), "/../../crates/samples_run/data/two-plain.xml")).to_vec();
/// let kept = OwnedSheet::read(document)?;
/// let mut draft = Draft::from_sheet(&kept.sheet())?;
/// draft.set(HeaderValue::DocumentVersion, "4");
/// for series in draft.series_mut() {
///     for (_, amount) in series.intervals_mut() {
///         *amount = Amount::from_thousandths(amount.thousandths() + 1_500);
///     }
/// }
/// let again = OwnedSheet::read(draft.to_document()?)?;
/// assert_eq!(again.views()?.version(), Some("4"));
/// # Ok::<(), Box<dyn std::error::Error>>(())
/// ```
///
/// From nothing:
///
/// ```
/// use lumintayag::{Draft, HeaderValue, Kind, OwnedSheet, Refusal, SeriesValue};
///
/// const DAY: &str = "2031-02-02T23:00Z/2031-02-03T23:00Z";
/// let mut draft = Draft::new(Kind::Kostenblatt);
/// draft
///     .set(HeaderValue::DtdBdewNachrichtenVersion, "1.0")
///     .set(HeaderValue::DocumentIdentification, "KB-8")
///     .set(HeaderValue::DocumentVersion, "1")
///     .set(HeaderValue::DocumentType, "Z05")
///     .set(HeaderValue::ProcessType, "A14")
///     .set(HeaderValue::SenderIdentification, "9900000000017")
///     .set(HeaderValue::SenderScheme, "NDE")
///     .set(HeaderValue::SenderRole, "A27")
///     .set(HeaderValue::ReceiverIdentification, "9900000000024")
///     .set(HeaderValue::ReceiverScheme, "NDE")
///     .set(HeaderValue::ReceiverRole, "A18")
///     .set(HeaderValue::DocumentDateTime, "2031-02-02T10:15:00Z")
///     .set(HeaderValue::TimePeriodCovered, DAY);
/// assert_eq!(draft.to_document().map_err(|refused| refused.refusal()), Err(Refusal::ContentUnfit), "no series yet");
/// draft
///     .add_series()
///     .set(SeriesValue::TimeSeriesIdentification, "Neckar & Enz")
///     .set(SeriesValue::BusinessType, "A01")
///     .set(SeriesValue::Direction, "A01")
///     .set(SeriesValue::Product, "8716867000016")
///     .set(SeriesValue::ResourceObject, "C0000000017")
///     .set(SeriesValue::ResourceObjectScheme, "NDE")
///     .set(SeriesValue::ResourceProvider, "9900000000017")
///     .set(SeriesValue::ResourceProviderScheme, "NDE")
///     .set(SeriesValue::CurveType, "A03")
///     .set(SeriesValue::MeasurementUnit, "Z02")
///     .set(SeriesValue::TimeInterval, DAY)
///     .set(SeriesValue::Resolution, "PT15M")
///     .add_interval(1, "84.5".parse()?)
///     .add_interval(29, "-61.25".parse()?);
/// let kept = OwnedSheet::read(draft.to_document()?)?;
/// assert_eq!(kept.sheet().get(0).map(|series| series.identification()), Some("Neckar &amp; Enz"));
/// # Ok::<(), Box<dyn std::error::Error>>(())
/// ```
///
/// A value that is not set is absent; nothing is made up for it. A value stands for itself, `&` and quotes too: what is written has references where they are
/// needed. All of it is [wiped](crate::wipe) when it is dropped, and `Debug` tells the kind and counts.
pub struct Draft {
    kind: Kind,
    values: Values<HeaderValue>,
    series: Vec<SeriesDraft>,
}

impl Draft {
    /// A draft with no value and no series.
    pub fn new(kind: Kind) -> Self {
        Draft { kind, values: Values(Vec::new()), series: Vec::new() }
    }

    /// All that a sheet says, with its references replaced. The document is read once more for it.
    ///
    /// # Errors
    ///
    /// None is known: the document was accepted, and the table has room for its series.
    pub fn from_sheet(sheet: &Sheet<'_>) -> Result<Self, ViewsRefused> {
        let mut table = Wiped::zeros(sheet.views_numbers());
        let shown = sheet.views(&mut table)?;
        let mut draft = Draft::new(sheet.kind());
        draft.values = Values::said(&HeaderValue::ALL, |value| shown.header(value));
        for (series, values) in sheet.iter().zip(shown.iter()) {
            let put = draft.add_series();
            put.values = Values::said(SeriesValue::all(shown.kind()), |value| values.get(value));
            for (position, amount) in series.intervals() {
                put.add_interval(position, amount);
            }
        }
        Ok(draft)
    }

    /// What the document is to be.
    pub fn kind(&self) -> Kind {
        self.kind
    }

    /// A value of the header; `None` where it is absent.
    pub fn get(&self, value: HeaderValue) -> Option<&str> {
        self.values.get(value)
    }

    /// Sets a value of the header, in the place of the one that it has.
    pub fn set(&mut self, value: HeaderValue, text: &str) -> &mut Self {
        self.values.set(value, Wiped::copied(text.as_bytes()));
        self
    }

    /// Makes a value of the header absent.
    pub fn unset(&mut self, value: HeaderValue) -> &mut Self {
        self.values.unset(value);
        self
    }

    /// Adds a series with no value and no interval.
    pub fn add_series(&mut self) -> &mut SeriesDraft {
        let at = self.series.len();
        self.series.push(SeriesDraft { values: Values(Vec::new()), intervals: Wiped::zeros(0) });
        &mut self.series[at]
    }

    /// The series, in the order in which they are written.
    pub fn series(&self) -> &[SeriesDraft] {
        &self.series
    }

    /// The series, to be changed.
    pub fn series_mut(&mut self) -> &mut [SeriesDraft] {
        &mut self.series
    }

    /// Writes the document into lent bytes.
    ///
    /// # Errors
    ///
    /// [`WriteRefused`], as [`write()`] does; with [`Refusal::ContentUnfit`] also for a value that the kind does not know. A draft with 4 GiB of text, which no
    /// document holds, is [`Refusal::NoRoomToWrite`] before anything of it is judged.
    pub fn write<'o>(&self, out: &'o mut [u8]) -> Result<Written<'o>, WriteRefused> {
        match Laid::of(self) {
            Ok(laid) => write(self.kind, &laid.text, &laid.pairs, self.series.len(), laid.tables(), out),
            Err(refusal) => {
                out.fill(0);
                Err(WriteRefused { refusal })
            }
        }
    }

    /// Writes the document into a vector of its length, which is the caller's to [wipe](crate::wipe); [`OwnedSheet`](crate::OwnedSheet) does it with one that it
    /// reads.
    ///
    /// # Errors
    ///
    /// [`WriteRefused`], as [`write`](Draft::write) does where it has room for every document.
    pub fn to_document(&self) -> Result<Vec<u8>, WriteRefused> {
        let mut out = Wiped::zeros(DOCUMENT_MOST);
        Ok(self.write(&mut out)?.document().to_vec())
    }
}

impl fmt::Debug for Draft {
    fn fmt(&self, f: &mut fmt::Formatter<'_>) -> fmt::Result {
        f.debug_struct("Draft").field("kind", &self.kind).field("values", &self.values.0.len()).field("series", &self.series).finish()
    }
}

/// A series of a [`Draft`].
///
/// `Debug` tells how many values and intervals it has, and nothing of what they hold.
pub struct SeriesDraft {
    values: Values<SeriesValue>,
    intervals: Wiped<(u32, Amount)>,
}

impl SeriesDraft {
    /// A value of the series; `None` where it is absent.
    pub fn get(&self, value: SeriesValue) -> Option<&str> {
        self.values.get(value)
    }

    /// Sets a value of the series, in the place of the one that it has.
    pub fn set(&mut self, value: SeriesValue, text: &str) -> &mut Self {
        self.values.set(value, Wiped::copied(text.as_bytes()));
        self
    }

    /// Makes a value of the series absent.
    pub fn unset(&mut self, value: SeriesValue) -> &mut Self {
        self.values.unset(value);
        self
    }

    /// Adds an interval behind those that there are.
    pub fn add_interval(&mut self, position: u32, amount: Amount) -> &mut Self {
        self.intervals.extend(&[(position, amount)]);
        self
    }

    /// Takes all intervals away.
    pub fn clear_intervals(&mut self) -> &mut Self {
        self.intervals = Wiped::zeros(0);
        self
    }

    /// Pos and amount of each interval, in the order in which they are written.
    pub fn intervals(&self) -> &[(u32, Amount)] {
        &self.intervals
    }

    /// The intervals, to be changed.
    pub fn intervals_mut(&mut self) -> &mut [(u32, Amount)] {
        &mut self.intervals
    }
}

impl fmt::Debug for SeriesDraft {
    fn fmt(&self, f: &mut fmt::Formatter<'_>) -> fmt::Result {
        f.debug_struct("SeriesDraft").field("values", &self.values.0.len()).field("intervals", &self.intervals.len()).finish()
    }
}

/// The values that are there, each once.
struct Values<V>(Vec<(V, Wiped<u8>)>);

impl<V: Copy + PartialEq> Values<V> {
    /// What those values say that are shown.
    fn said<'a>(all: &[V], shown: impl Fn(V) -> Option<&'a str>) -> Self {
        let says = |value| {
            let stands = shown(value)?;
            let mut text = Wiped::zeros(stands.len());
            let len = unescape(stands, &mut text);
            text.truncate(len);
            Some((value, text))
        };
        Values(all.iter().copied().filter_map(says).collect())
    }

    fn get(&self, value: V) -> Option<&str> {
        let (_, text) = self.0.iter().find(|(one, _)| *one == value)?;
        core::str::from_utf8(text).ok()
    }

    fn set(&mut self, value: V, text: Wiped<u8>) {
        self.unset(value);
        self.0.push((value, text));
    }

    fn unset(&mut self, value: V) {
        self.0.retain(|(one, _)| *one != value);
    }
}

/// What is lent to the writer.
struct Laid {
    text: Wiped<u8>,
    pairs: Wiped<u32>,
    series: Wiped<u32>,
    positions: Wiped<u32>,
    amounts: Wiped<i64>,
}

impl Laid {
    fn of(draft: &Draft) -> Result<Self, Refusal> {
        let count = draft.series.len();
        let mut laid = Laid {
            text: Wiped::zeros(1), // no value starts at 0, which with length 0 is none
            pairs: Wiped::zeros(cells(count)),
            series: Wiped::zeros(count.saturating_mul(SERIES_ROW)),
            positions: Wiped::zeros(0),
            amounts: Wiped::zeros(0),
        };
        for (value, text) in &draft.values.0 {
            laid.put(known(draft.kind, *value)?, text)?;
        }
        for (index, series) in draft.series.iter().enumerate() {
            for (value, text) in &series.values.0 {
                let pair = value.pair(draft.kind).ok_or(Refusal::ContentUnfit)?;
                laid.put(pair + SERIES_PAIRS * index, text)?;
            }
            laid.put_intervals(index, &series.intervals)?;
        }
        Ok(laid)
    }

    /// A pair shows what is put behind all that the text has, so that it lies in the text.
    fn put(&mut self, pair: usize, text: &[u8]) -> Result<(), Refusal> {
        let shown = [number(self.text.len())?, number(text.len())?];
        self.text.extend(text);
        if let Some(cells) = self.pairs.get_mut(2 * pair..).and_then(|cells| cells.first_chunk_mut()) {
            *cells = shown;
        }
        Ok(())
    }

    fn put_intervals(&mut self, index: usize, intervals: &[(u32, Amount)]) -> Result<(), Refusal> {
        let rows = [number(self.positions.len())?, number(intervals.len())?];
        for &(position, amount) in intervals {
            self.positions.extend(&[position]);
            self.amounts.extend(&[amount.thousandths()]);
        }
        if let Some(cells) = self.series.get_mut(..SERIES_ROW * (index + 1)).and_then(|cells| cells.last_chunk_mut()) {
            *cells = rows;
        }
        Ok(())
    }

    fn tables(&self) -> Tables<'_> {
        Tables { series: &self.series, positions: &self.positions, amounts: &self.amounts }
    }
}

/// The pair of a value that the kind knows. Of the others the writer refuses those of the root, and does not look at DocStatus.
fn known(kind: Kind, value: HeaderValue) -> Result<usize, Refusal> {
    match (kind, value) {
        (Kind::Beschaffungsanforderung | Kind::Kostenblatt, HeaderValue::DocStatus) => Err(Refusal::ContentUnfit),
        _ => Ok(value.pair()),
    }
}

/// A place or a length as a table has it.
fn number(n: usize) -> Result<u32, Refusal> {
    u32::try_from(n).map_err(|_| Refusal::NoRoomToWrite)
}
