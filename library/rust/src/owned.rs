//! A document with its tables, on the heap.
use crate::answer::Told;
use crate::once::Once;
use crate::sheet::Tables;
use crate::views::Seen;
use crate::wiped::Wiped;
use crate::{wipe, Accepted, Lent, Note, Refusal, Refused, Room, Series, SeriesIter, Shape, Sheet, Views, ViewsRefused};
use alloc::vec::Vec;
use core::fmt;

/// An accepted document that is kept with its tables, and with its views once they are asked for. All of it is [wiped](wipe) when it is dropped.
///
/// ```
/// use lumintayag::{OwnedSheet, DOCUMENT_MOST};
/// use std::io::Read;
///
/// // Room from the start: a vector that grows leaves what it held in memory that nobody wipes.
/// let mut document = Vec::with_capacity(DOCUMENT_MOST + 1);
/// std::io::empty().take(DOCUMENT_MOST as u64 + 1).read_to_end(&mut document)?;
/// match OwnedSheet::read(document) {
///     Ok(kept) => println!("{} series", kept.sheet().len()),
///     Err(refused) => println!("{refused}; note {}", refused.note()),
/// }
/// # Ok::<(), std::io::Error>(())
/// ```
pub struct OwnedSheet {
    document: Wiped<u8>,
    cells: Cells,
    told: Told,
    shown: Once<Shown>,
}

impl OwnedSheet {
    /// Reads a document, in tables that have room for it.
    ///
    /// The vector is taken over. Where it has room to spare, the document moves into memory of its own size, and the vector is wiped up to its capacity
    /// before it is given back. A refused document is wiped too: who wants to look at it reads it with [`read`](crate::read()).
    ///
    /// # Errors
    ///
    /// [`Refused`] says why and where.
    pub fn read(document: Vec<u8>) -> Result<Self, Refused> {
        Self::read_with_room(document, Room::EVERY)
    }

    /// Reads a document as [`read`](OwnedSheet::read) does, in tables of the given room. Where that is too little they are made larger, and the
    /// document is read again; they are never larger than a document of its length needs.
    ///
    /// # Errors
    ///
    /// [`Refused`] says why and where.
    pub fn read_with_room(document: Vec<u8>, room: Room) -> Result<Self, Refused> {
        Self::read_with_shape(document, room, Shape::Old)
    }

    /// Reads a document as [`read_with_room`](OwnedSheet::read_with_room) does, with a note in this [`Shape`]. The other two have it in the old one.
    ///
    /// # Errors
    ///
    /// [`Refused`] says why and where.
    pub fn read_with_shape(document: Vec<u8>, room: Room, shape: Shape) -> Result<Self, Refused> {
        let document = Wiped::from(document);
        let enough = Room::of_length(document.len());
        let room = Room { series: room.series.min(enough.series), intervals: room.intervals.min(enough.intervals) };
        let (told, cells) = match Cells::filled(&document, room, shape) {
            Err(refused) if refused.refusal() == Refusal::TableFull => Cells::filled(&document, enough, shape),
            answer => answer,
        }?;
        Ok(OwnedSheet { document: document.fitted(), cells, told, shown: Once::new() })
    }

    /// What the document says.
    pub fn sheet(&self) -> Sheet<'_> {
        self.told.sheet(&self.document, self.cells.tables())
    }

    /// Where every attribute value of the document stands. The document is read once more when they are first asked for, and the table is kept.
    ///
    /// ```
    /// use lumintayag::OwnedSheet;
    ///
    /// # let document = include_bytes!(concat!(env!("CARGO_MANIFEST_DIR"), "/../../crates/samples_run/data/two-plain.xml")).to_vec();
    /// let kept = OwnedSheet::read(document)?;
    /// let shown = kept.views()?;
    /// assert_eq!((shown.sender(), shown.sender_role()), (Some("4012345000016"), Some("A27")));
    /// println!("{} to {}", shown.period().from(), shown.period().to());
    /// for (series, values) in kept.sheet().iter().zip(shown) {
    ///     assert_eq!((series.identification(), values.unit()), ("S-1", Some("Z02")));
    /// }
    /// # Ok::<(), Box<dyn std::error::Error>>(())
    /// ```
    ///
    /// # Errors
    ///
    /// None is known: the document was accepted, and the table has room for its series.
    pub fn views(&self) -> Result<Views<'_>, ViewsRefused> {
        let shown = self.shown.get_or_make(|| Shown::of(&self.document, self.sheet().views_numbers()))?;
        Ok(shown.seen.views(&self.document, &shown.table))
    }

    /// The note for the support desk.
    pub fn note(&self) -> Note {
        self.told.note
    }

    /// Sheet and note, as [`read`](crate::read()) answers them.
    pub fn accepted(&self) -> Accepted<'_> {
        Accepted { sheet: self.sheet(), note: self.note() }
    }

    /// The document.
    pub fn document(&self) -> &[u8] {
        &self.document
    }

    /// The room that its tables have.
    pub fn room(&self) -> Room {
        self.cells.room
    }
}

/// What the sheet's `Debug` tells, and how long the document is.
impl fmt::Debug for OwnedSheet {
    fn fmt(&self, f: &mut fmt::Formatter<'_>) -> fmt::Result {
        f.debug_struct("OwnedSheet").field("document", &self.document.len()).field("room", &self.room()).field("sheet", &self.sheet()).finish()
    }
}

impl<'a> IntoIterator for &'a OwnedSheet {
    type Item = Series<'a>;
    type IntoIter = SeriesIter<'a>;

    fn into_iter(self) -> SeriesIter<'a> {
        self.sheet().iter()
    }
}

/// A table of views.
struct Shown {
    table: Wiped<u32>,
    seen: Seen,
}

impl Shown {
    /// A table of so many numbers, with the document viewed in it.
    fn of(doc: &[u8], numbers: usize) -> Result<Self, ViewsRefused> {
        let mut table = Wiped::zeros(numbers);
        let seen = Seen::of(doc, &mut table)?;
        Ok(Shown { table, seen })
    }
}

/// What it tells of the document, such as its period, goes as the table does.
impl Drop for Shown {
    fn drop(&mut self) {
        wipe(core::slice::from_mut(&mut self.seen));
    }
}

/// The three tables.
struct Cells {
    room: Room,
    series: Wiped<u32>,
    positions: Wiped<u32>,
    amounts: Wiped<i64>,
}

impl Cells {
    /// Tables of this room, with the document read into them.
    fn filled(doc: &[u8], room: Room, shape: Shape) -> Result<(Told, Self), Refused> {
        let (series, positions, amounts) = (Wiped::zeros(room.series_numbers()), Wiped::zeros(room.intervals), Wiped::zeros(room.intervals));
        let mut cells = Cells { room, series, positions, amounts };
        let told = Told::of(doc, Lent { series: &mut cells.series, positions: &mut cells.positions, amounts: &mut cells.amounts }, shape)?;
        Ok((told, cells))
    }

    fn tables(&self) -> Tables<'_> {
        Tables { series: &self.series, positions: &self.positions, amounts: &self.amounts }
    }
}
