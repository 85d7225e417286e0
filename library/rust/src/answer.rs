//! The document reader: what is lent to it, and its two answers.
use crate::foreign::{self, NOTE_ROOM};
use crate::sheet::Tables;
use crate::{Kind, Note, Refusal, Shape, Sheet};
use core::error::Error;
use core::fmt;

/// The tables that a caller lends to [`read`]. What stands in them before makes no difference; [`Room`](crate::Room) tells how long they have to be.
pub struct Lent<'a> {
    /// [`SERIES_ROW`](crate::SERIES_ROW) numbers for each series.
    pub series: &'a mut [u32],
    /// One number for each interval; room for intervals is the shorter one of this and `amounts`.
    pub positions: &'a mut [u32],
    /// One amount for each interval.
    pub amounts: &'a mut [i64],
}

/// How long the tables are, and nothing of what they hold.
impl fmt::Debug for Lent<'_> {
    fn fmt(&self, f: &mut fmt::Formatter<'_>) -> fmt::Result {
        f.debug_struct("Lent")
            .field("series", &self.series.len())
            .field("positions", &self.positions.len())
            .field("amounts", &self.amounts.len())
            .finish()
    }
}

/// A document that is accepted.
#[derive(Clone, Copy, Debug, PartialEq, Eq)]
#[must_use]
#[non_exhaustive]
pub struct Accepted<'a> {
    /// What it says.
    pub sheet: Sheet<'a>,
    /// The note for the support desk.
    pub note: Note,
}

/// A document that is refused. All cells of its tables are 0.
///
/// Neither its text nor its `Debug` output holds anything of the document, so that both may go into a log.
#[derive(Clone, Copy, PartialEq, Eq, Hash)]
#[must_use]
pub struct Refused {
    refusal: Refusal,
    note: Note,
}

impl Refused {
    /// Why it is refused.
    pub fn refusal(&self) -> Refusal {
        self.refusal
    }

    /// The index of the faulty item's first byte, or the document's length where it is over too early; 0 where it is too long.
    pub fn place(&self) -> usize {
        self.note.place()
    }

    /// The kind of a root start before the faulty item.
    pub fn kind(&self) -> Option<Kind> {
        self.note.kind()
    }

    /// Series start tags before the faulty item.
    pub fn series(&self) -> usize {
        self.note.series()
    }

    /// Interval start tags before the faulty item.
    pub fn intervals(&self) -> usize {
        self.note.intervals()
    }

    /// The note for the support desk: the numbers above, and in the new [`Shape`] how deep the fault lies.
    pub fn note(&self) -> Note {
        self.note
    }
}

impl fmt::Debug for Refused {
    fn fmt(&self, f: &mut fmt::Formatter<'_>) -> fmt::Result {
        f.debug_struct("Refused")
            .field("refusal", &self.refusal())
            .field("place", &self.place())
            .field("kind", &self.kind())
            .field("series", &self.series())
            .field("intervals", &self.intervals())
            .finish()
    }
}

impl fmt::Display for Refused {
    fn fmt(&self, f: &mut fmt::Formatter<'_>) -> fmt::Result {
        write!(f, "refused with {} at byte {}: {}", self.refusal.number(), self.place(), self.refusal)
    }
}

impl Error for Refused {}

/// What an accepted document is told with, but for its tables.
#[derive(Clone, Copy, Debug)]
pub(crate) struct Told {
    quarters: u32,
    pub(crate) note: Note,
}

impl Told {
    /// Reads the document into what is lent.
    pub(crate) fn of(doc: &[u8], lent: Lent<'_>, shape: Shape) -> Result<Self, Refused> {
        let mut bytes = [0; NOTE_ROOM];
        let [number, place, kind, series, intervals, quarters, len] =
            foreign::read(doc, lent.series, lent.positions, lent.amounts, shape, &mut bytes);
        let note = Note::told(bytes, len as usize, [number, place, kind, series, intervals]);
        match Refusal::from_number(number) {
            None => Ok(Told { quarters, note }),
            Some(refusal) => Err(Refused { refusal, note }),
        }
    }

    /// The sheet, over the document and the tables that it was read into.
    pub(crate) fn sheet<'a>(&self, doc: &'a [u8], tables: Tables<'a>) -> Sheet<'a> {
        let kind = self.note.kind().unwrap_or(Kind::Other(0));
        Sheet::new(doc, kind, self.quarters, tables.of(self.note.series(), self.note.intervals()))
    }
}

/// Reads a document into lent tables. Its note has the old [`Shape`].
///
/// What it answers borrows document and tables. To make tables larger and read again, and to return the sheet with its memory, is what `OwnedSheet`
/// (feature `alloc`) is for.
///
/// # Errors
///
/// [`Refused`] says why and where. With [`Refusal::TableFull`] the document may be read again with more room.
pub fn read<'a>(doc: &'a [u8], lent: Lent<'a>) -> Result<Accepted<'a>, Refused> {
    read_with_shape(doc, lent, Shape::Old)
}

/// Reads a document as [`read`] does, with a note in this [`Shape`]. Nothing else depends on it.
///
/// ```
/// use lumintayag::{read_with_shape, Lent, Shape};
///
/// let lent = Lent { series: &mut [], positions: &mut [], amounts: &mut [] };
/// let refused = read_with_shape(b"<Kostenblatt DtdBDEWNachrichtenVersion=\"1.0\">", lent, Shape::New).unwrap_err();
/// assert_eq!(refused.note().to_string(), "64 03 2D 02 00 00 01");
/// assert_eq!((refused.place(), refused.note().depth()), (45, 1));
/// ```
///
/// # Errors
///
/// [`Refused`], as `read` does.
pub fn read_with_shape<'a>(doc: &'a [u8], lent: Lent<'a>, shape: Shape) -> Result<Accepted<'a>, Refused> {
    let Lent { series, positions, amounts } = lent;
    let told = Told::of(doc, Lent { series: &mut *series, positions: &mut *positions, amounts: &mut *amounts }, shape)?;
    Ok(Accepted { sheet: told.sheet(doc, Tables { series, positions, amounts }), note: told.note })
}
