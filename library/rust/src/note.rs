//! Support notes.
use crate::foreign::{self, NOTE_NUMBERS, NOTE_ROOM};
use crate::{Kind, Refusal};
use core::error::Error;
use core::fmt;
use core::str::FromStr;

/// The shape of a [`Note`]. Whoever reads a document picks it ([`read_with_shape`](crate::read_with_shape)); the program `note` prints the old one.
#[derive(Clone, Copy, Debug, Default, PartialEq, Eq, Hash)]
#[non_exhaustive]
pub enum Shape {
    /// Five numbers: refusal, place, kind, series, intervals.
    #[default]
    Old,
    /// Seven numbers: 100, the five of the old shape, and the [depth](Note::depth).
    New,
}

impl Shape {
    /// That of a note: a new one begins with the number 100, which is this byte, and no old one does.
    fn of(note: &[u8]) -> Self {
        match note {
            [100, ..] => Shape::New,
            _ => Shape::Old,
        }
    }

    /// The number that asks the archive for it.
    pub(crate) const fn number(self) -> u32 {
        match self {
            Shape::Old => 0,
            Shape::New => 1,
        }
    }
}

/// The note for the support desk: numbers that hold no digit of a price.
///
/// [`Display`](fmt::Display) writes it as the program `note` prints it, and [`FromStr`] reads that back.
///
/// ```
/// use lumintayag::{read_note, Kind, Note, Refusal};
///
/// let note = read_note(&[0x03, 0x2D, 0x02, 0x00, 0x00])?;
/// assert_eq!((note.refusal(), note.place(), note.kind()), (Some(Refusal::NotDue), 45, Some(Kind::Kostenblatt)));
/// assert_eq!(note.to_string(), "03 2D 02 00 00");
/// assert_eq!("03 2D 02 00 00".parse::<Note>()?, note);
/// # Ok::<(), lumintayag::NotOneNote>(())
/// ```
///
/// A note in the new [`Shape`] also tells how deep a fault lies. Each is turned into the other, where the depth is lost:
///
/// ```
/// use lumintayag::{Note, Shape};
///
/// let deep: Note = "64 06 85 08 02 01 02 04".parse()?;
/// assert_eq!((deep.shape(), deep.place(), deep.depth()), (Shape::New, 1029, 4));
/// let old = deep.in_shape(Shape::Old);
/// assert_eq!((old.to_string(), old.depth()), ("06 85 08 02 01 02".to_string(), 0));
/// assert_eq!(old.in_shape(Shape::New).to_string(), "64 06 85 08 02 01 02 00");
/// # Ok::<(), lumintayag::NotOneNote>(())
/// ```
#[derive(Clone, Copy, PartialEq, Eq, Hash)]
pub struct Note {
    bytes: [u8; NOTE_ROOM],
    len: usize,
    numbers: [u32; NOTE_NUMBERS],
}

impl Note {
    /// The first `len` of the bytes, which are 0 after that.
    pub(crate) const fn new(bytes: [u8; NOTE_ROOM], len: usize, numbers: [u32; NOTE_NUMBERS]) -> Self {
        Note { bytes, len, numbers }
    }

    /// The first `len` of the bytes, as the document reader wrote them, with the first numbers of its answer. The depth is in the note alone.
    pub(crate) fn told(bytes: [u8; NOTE_ROOM], len: usize, five: [u32; 5]) -> Self {
        let [refusal, place, kind, series, intervals] = five;
        let depth = bytes.get(..len).and_then(foreign::read_note).map_or(0, |[.., depth]| depth);
        Note::new(bytes, len, [refusal, place, kind, series, intervals, depth])
    }

    /// Its bytes: at most 15 in the old shape, and 19 in the new.
    pub fn as_bytes(&self) -> &[u8] {
        self.bytes.get(..self.len).unwrap_or_default()
    }

    /// Why the document was refused; `None` where it was accepted.
    pub fn refusal(&self) -> Option<Refusal> {
        Refusal::from_number(self.numbers[0])
    }

    /// The index of the faulty item's first byte. It is the document's length where that is over too early, and where it was accepted.
    pub fn place(&self) -> usize {
        self.numbers[1] as usize
    }

    /// What the document is; `None` where no root start stands before the faulty item.
    pub fn kind(&self) -> Option<Kind> {
        Kind::from_number(self.numbers[2])
    }

    /// How many series there are, or start before the faulty item.
    pub fn series(&self) -> usize {
        self.numbers[3] as usize
    }

    /// How many intervals there are, or start before the faulty item.
    pub fn intervals(&self) -> usize {
        self.numbers[4] as usize
    }

    /// How many elements are open before the faulty item: one that it would open is not counted, one that it would close is. It is 0 where the
    /// document was accepted, and in a note of the old shape, which does not tell it.
    pub fn depth(&self) -> usize {
        self.numbers[5] as usize
    }

    /// Its shape.
    pub fn shape(&self) -> Shape {
        Shape::of(self.as_bytes())
    }

    /// The note in this shape. From old to new its depth is 0, from new to old it is left out; a note that has the shape already stays as it is.
    pub fn in_shape(&self, shape: Shape) -> Self {
        // These bytes are one note, and there is room for it, so that this is never refused.
        let written = foreign::convert_note(self.as_bytes(), shape);
        written.and_then(|(bytes, len)| read_note(bytes.get(..len)?).ok()).unwrap_or(*self)
    }
}

impl fmt::Debug for Note {
    fn fmt(&self, f: &mut fmt::Formatter<'_>) -> fmt::Result {
        f.debug_struct("Note")
            .field("refusal", &self.refusal())
            .field("place", &self.place())
            .field("kind", &self.kind())
            .field("series", &self.series())
            .field("intervals", &self.intervals())
            .field("depth", &self.depth())
            .finish()
    }
}

/// Two-digit upper-case hexadecimal numbers with single spaces.
impl fmt::Display for Note {
    fn fmt(&self, f: &mut fmt::Formatter<'_>) -> fmt::Result {
        for (i, byte) in self.as_bytes().iter().enumerate() {
            write!(f, "{}{byte:02X}", if i == 0 { "" } else { " " })?;
        }
        Ok(())
    }
}

/// Reads a note of either [`Shape`] back: five numbers whose first is not 100, or seven whose first is 100 and whose second is not; each shortest and
/// below 2^21, and nothing after.
///
/// # Errors
///
/// [`NotOneNote`], which is refusal 11, for all other bytes.
pub fn read_note(note: &[u8]) -> Result<Note, NotOneNote> {
    let numbers = foreign::read_note(note).ok_or(NotOneNote)?;
    let mut bytes = [0; NOTE_ROOM];
    bytes.get_mut(..note.len()).ok_or(NotOneNote)?.copy_from_slice(note);
    Ok(Note::new(bytes, note.len(), numbers))
}

/// Reads a note in the form that [`Display`](fmt::Display) writes, and in no other.
impl FromStr for Note {
    type Err = NotOneNote;

    fn from_str(text: &str) -> Result<Self, NotOneNote> {
        let mut bytes = [0; NOTE_ROOM];
        let mut len = 0;
        for pair in text.as_bytes().split(|&c| c == b' ') {
            let &[high, low] = pair else { return Err(NotOneNote) };
            *bytes.get_mut(len).ok_or(NotOneNote)? = 16 * digit(high)? + digit(low)?;
            len += 1;
        }
        read_note(bytes.get(..len).unwrap_or_default())
    }
}

fn digit(c: u8) -> Result<u8, NotOneNote> {
    match c {
        b'0'..=b'9' => Ok(c - b'0'),
        b'A'..=b'F' => Ok(c - b'A' + 10),
        _ => Err(NotOneNote),
    }
}

/// The bytes, or the text, aren't one note: refusal 11.
#[derive(Clone, Copy, Debug, PartialEq, Eq, Hash)]
#[non_exhaustive]
pub struct NotOneNote;

impl fmt::Display for NotOneNote {
    fn fmt(&self, f: &mut fmt::Formatter<'_>) -> fmt::Result {
        Refusal::NotOneNote.fmt(f)
    }
}

impl Error for NotOneNote {}
