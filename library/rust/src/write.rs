//! The writer, over a text, pairs and tables that a caller lends.
use crate::foreign;
use crate::{Kind, Refusal, Tables};
use core::error::Error;
use core::fmt;

/// A document that was written into lent bytes. See [`write()`].
///
/// `Debug` tells how long it is, and nothing of what it says.
#[derive(Clone, Copy, PartialEq, Eq)]
#[must_use]
pub struct Written<'a> {
    document: &'a [u8],
}

impl<'a> Written<'a> {
    /// The document. Every byte that was lent past it is 0.
    pub fn document(&self) -> &'a [u8] {
        self.document
    }
}

impl fmt::Debug for Written<'_> {
    fn fmt(&self, f: &mut fmt::Formatter<'_>) -> fmt::Result {
        f.debug_struct("Written").field("document", &self.document.len()).finish()
    }
}

/// A document that was not written. Every byte that was lent for it is 0.
///
/// Neither its text nor its `Debug` output holds anything of the content, so that both may go into a log.
#[derive(Clone, Copy, Debug, PartialEq, Eq, Hash)]
#[must_use]
pub struct WriteRefused {
    pub(crate) refusal: Refusal,
}

impl WriteRefused {
    /// Why: [`Refusal::ContentUnfit`], or else [`Refusal::NoRoomToWrite`].
    pub fn refusal(&self) -> Refusal {
        self.refusal
    }
}

impl fmt::Display for WriteRefused {
    fn fmt(&self, f: &mut fmt::Formatter<'_>) -> fmt::Result {
        write!(f, "refused with {}: {}", self.refusal.number(), self.refusal)
    }
}

impl Error for WriteRefused {}

/// Writes a Beschaffungsanforderung or a Kostenblatt into lent bytes, in a fixed layout. It is accepted by [`read`](crate::read()), given room, and gives back the same
/// positions, amounts and values, spaces at the ends of collapsed ones aside.
///
/// `text` has the values as they are to be read, with no references. `pairs` tells where each stands in it, start and length, laid as the table of
/// [`views`](crate::views()) is: [`HEADER_PAIRS`](crate::HEADER_PAIRS) for the header and [`SERIES_PAIRS`](crate::SERIES_PAIRS) for each of `count` series, by
/// [`HeaderValue::pair`](crate::HeaderValue::pair) and [`SeriesValue::pair`](crate::SeriesValue::pair). 0 and 0 is a value that is absent; any other pair is one
/// that is there, so that an empty one does not start at 0. Of a row in [`Tables::series`] only its last two cells are looked at, first interval row and count.
///
/// With the feature `alloc` a `Draft` sees to all of that. Without it, a document that has no reference serves as the text of what it shows:
///
/// ```
/// use lumintayag::{read, views, write, Lent, Room, Tables};
///
/// # let document = include_bytes!(concat!(env!("CARGO_MANIFEST_DIR"), "/../../crates/samples_run/data/two-plain.xml"));
/// const ROOM: Room = Room { series: 64, intervals: 2048 };
/// let (mut series, mut positions, mut amounts) = ([0; ROOM.series_numbers()], [0; ROOM.intervals], [0; ROOM.intervals]);
/// let sheet = read(document, Lent { series: &mut series, positions: &mut positions, amounts: &mut amounts })?.sheet;
/// let (kind, count) = (sheet.kind(), sheet.len());
/// let mut pairs = [0; ROOM.views_numbers()];
/// let shown = views(document, &mut pairs)?;
/// assert_eq!(shown.sender(), Some("4012345000016"));
/// amounts[0] = 12_500;
///
/// let mut out = [0; 4096];
/// let tables = Tables { series: &series, positions: &positions, amounts: &amounts };
/// let written = write(kind, document, &pairs, count, tables, &mut out)?;
/// assert!(written.document().starts_with(b"<Kostenblatt DtdBDEWNachrichtenVersion=\"1.0\"><DocumentIdentification"));
/// # Ok::<(), Box<dyn std::error::Error>>(())
/// ```
///
/// # Errors
///
/// [`WriteRefused`] with [`Refusal::ContentUnfit`] exactly when no document of these two kinds, however long, that the reader would accept has this content, or
/// pairs or rows lie past what is lent; else with [`Refusal::NoRoomToWrite`] where the document is longer than `out` or [`DOCUMENT_MOST`](crate::DOCUMENT_MOST).
pub fn write<'o>(kind: Kind, text: &[u8], pairs: &[u32], count: usize, tables: Tables<'_>, out: &'o mut [u8]) -> Result<Written<'o>, WriteRefused> {
    // More series than a u32 counts are past every table.
    let count = u32::try_from(count).unwrap_or(u32::MAX);
    let [number, len] = foreign::write(kind.number(), text, pairs, count, tables, out);
    match Refusal::from_number(number) {
        None => Ok(Written { document: out.get(..len as usize).unwrap_or_default() }),
        Some(refusal) => Err(WriteRefused { refusal }),
    }
}
