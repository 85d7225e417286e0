//! The numbers of the build scope that have names: kinds and refusals.
use core::error::Error;
use core::fmt;

/// What a document is.
#[derive(Clone, Copy, Debug, PartialEq, Eq, Hash)]
#[non_exhaustive]
pub enum Kind {
    /// 1: a daily request for balancing energy. Its amounts are megawatts, one for each quarter hour.
    Beschaffungsanforderung,
    /// 2: what a changed hour of a plant costs. Its amounts are euros by the series' MeasurementUnit; one stands until the next Pos.
    Kostenblatt,
    /// 3: how far plants may be changed before another part of the grid is full. Its amounts are megawatts or a share by the series' MeasurementUnit, from
    /// quarter hour 1 on, each for its own; those after the last have none. It may have no series.
    NetworkConstraintDocument,
    /// A kind that this version of the crate has no name for. How long its amounts stand is not known, and none is told for a quarter hour. Do not
    /// match it: a later version may have a name, and [`number`](Kind::number) stays.
    #[non_exhaustive]
    Other(u32),
}

impl Kind {
    /// The kind of a number; `None` for 0, that is, where no root was accepted.
    pub const fn from_number(number: u32) -> Option<Self> {
        Some(match number {
            0 => return None,
            1 => Kind::Beschaffungsanforderung,
            2 => Kind::Kostenblatt,
            3 => Kind::NetworkConstraintDocument,
            _ => Kind::Other(number),
        })
    }

    /// Its number in the note.
    pub const fn number(self) -> u32 {
        match self {
            Kind::Beschaffungsanforderung => 1,
            Kind::Kostenblatt => 2,
            Kind::NetworkConstraintDocument => 3,
            Kind::Other(number) => number,
        }
    }

    /// The last quarter hour in which a series has an amount, in a sheet of `quarters`, where its last Pos is `last`. How long one of an unknown kind
    /// stands is not known.
    pub(crate) const fn covered(self, quarters: u32, last: u32) -> u32 {
        match self {
            Kind::Beschaffungsanforderung | Kind::Kostenblatt => quarters,
            Kind::NetworkConstraintDocument => last,
            Kind::Other(_) => 0,
        }
    }
}

impl fmt::Display for Kind {
    fn fmt(&self, f: &mut fmt::Formatter<'_>) -> fmt::Result {
        match self {
            Kind::Beschaffungsanforderung => f.pad("Beschaffungsanforderung"),
            Kind::Kostenblatt => f.pad("Kostenblatt"),
            Kind::NetworkConstraintDocument => f.pad("NetworkConstraintDocument"),
            Kind::Other(number) => write!(f, "kind {number}"),
        }
    }
}

/// Why a document, a note, content that is to be written, or tables that are to be added up are refused. In a document the first item with a fault decides; where it has several, the
/// smallest number.
#[derive(Clone, Copy, Debug, PartialEq, Eq, Hash)]
#[non_exhaustive]
pub enum Refusal {
    /// 1: the document is longer than [`DOCUMENT_MOST`](crate::DOCUMENT_MOST).
    TooLong,
    /// 2: the item is unreadable.
    Unreadable,
    /// 3: element not due, too many, too few, wrong end tag, other text, second root, document over too early.
    NotDue,
    /// 4: a due series or Interval start finds its table full. It says nothing against the document: lend more [`Room`](crate::Room).
    TableFull,
    /// 5: attribute missing or unknown.
    Attribute,
    /// 6: value against its form or fixed value.
    Form,
    /// 7: value outside its code list.
    Code,
    /// 8: value or count against another value.
    Against,
    /// 9: TimeSeriesIdentification used before in this document.
    UsedBefore,
    /// 10: the note buffer has fewer than 16 bytes, or fewer than 24 where a note is converted. This crate always lends them.
    NoteTooShort,
    /// 11: the bytes aren't one note. [`read_note`](crate::read_note) tells it by its own error.
    NotOneNote,
    /// 12: no document of kind 1 or 2, however long, that would be accepted has the content that is to be written; or pairs or rows lie past what is lent.
    ContentUnfit,
    /// 13: the document that is to be written is longer than what is lent for it, or than [`DOCUMENT_MOST`](crate::DOCUMENT_MOST).
    NoRoomToWrite,
    /// 17: more than [`TOTALS_MOST`](crate::TOTALS_MOST) series are to be added up.
    TooManySeries,
    /// 18: a kind, N, rows, a Pos or an amount that is against the rules of the kind. Tables that the reader left are never refused with it.
    WrongTables,
    /// A refusal that this version of the crate has no name for. Do not match it: a later version may have a name, and [`number`](Refusal::number)
    /// stays.
    #[non_exhaustive]
    Other(u32),
}

impl Refusal {
    /// The refusal of a number; `None` for 0, which is acceptance.
    pub const fn from_number(number: u32) -> Option<Self> {
        Some(match number {
            0 => return None,
            1 => Refusal::TooLong,
            2 => Refusal::Unreadable,
            3 => Refusal::NotDue,
            4 => Refusal::TableFull,
            5 => Refusal::Attribute,
            6 => Refusal::Form,
            7 => Refusal::Code,
            8 => Refusal::Against,
            9 => Refusal::UsedBefore,
            10 => Refusal::NoteTooShort,
            11 => Refusal::NotOneNote,
            12 => Refusal::ContentUnfit,
            13 => Refusal::NoRoomToWrite,
            17 => Refusal::TooManySeries,
            18 => Refusal::WrongTables,
            _ => Refusal::Other(number),
        })
    }

    /// Its number.
    pub const fn number(self) -> u32 {
        match self {
            Refusal::TooLong => 1,
            Refusal::Unreadable => 2,
            Refusal::NotDue => 3,
            Refusal::TableFull => 4,
            Refusal::Attribute => 5,
            Refusal::Form => 6,
            Refusal::Code => 7,
            Refusal::Against => 8,
            Refusal::UsedBefore => 9,
            Refusal::NoteTooShort => 10,
            Refusal::NotOneNote => 11,
            Refusal::ContentUnfit => 12,
            Refusal::NoRoomToWrite => 13,
            Refusal::TooManySeries => 17,
            Refusal::WrongTables => 18,
            Refusal::Other(number) => number,
        }
    }
}

/// In the words of the program that explains notes; those from 11 on are in no note.
impl fmt::Display for Refusal {
    fn fmt(&self, f: &mut fmt::Formatter<'_>) -> fmt::Result {
        f.pad(match self {
            Refusal::TooLong => "the document is longer than 1048576 bytes",
            Refusal::Unreadable => "an item is unreadable",
            Refusal::NotDue => "an element, an end tag or text is not due here, or the document ends too early",
            Refusal::TableFull => "a table for series or intervals is full",
            Refusal::Attribute => "an attribute is missing or unknown",
            Refusal::Form => "a value is against its form or its fixed value",
            Refusal::Code => "a value is outside its code list",
            Refusal::Against => "a value or a count is against another value",
            Refusal::UsedBefore => "a TimeSeriesIdentification was used before",
            Refusal::NoteTooShort => "the note buffer has fewer than 16 bytes",
            Refusal::NotOneNote => "the bytes are not one note",
            Refusal::ContentUnfit => "no legal Beschaffungsanforderung or Kostenblatt has this content",
            Refusal::NoRoomToWrite => "the document to be written is longer than its output or 1048576 bytes",
            Refusal::TooManySeries => "more than 200 series are to be added up",
            Refusal::WrongTables => "the kind, the quarter hours or the tables to be added up are against the rules of the kind",
            Refusal::Other(_) => "an unknown refusal",
        })
    }
}

impl Error for Refusal {}
