//! How much room tables need.
use crate::views::cells;
use crate::{DOCUMENT_MOST, INTERVALS_ROOM, SERIES_ROOM, SERIES_ROW};

/// A document has at least so many bytes for each series and for each Interval.
const SERIES_LEAST: usize = 398;
const INTERVAL_LEAST: usize = 45;

/// Rows in the tables.
///
/// The reader makes all of what it is lent 0 first, so that a caller who knows its sheets lends less and is served quicker.
///
/// ```
/// use lumintayag::{read, Lent, Room};
///
/// const ROOM: Room = Room { series: 64, intervals: 2048 };
/// let (mut series, mut positions, mut amounts) = ([0; ROOM.series_numbers()], [0; ROOM.intervals], [0; ROOM.intervals]);
/// let refused = read(b"<Kostenblatt/>", Lent { series: &mut series, positions: &mut positions, amounts: &mut amounts }).unwrap_err();
/// assert_eq!(refused.place(), 0);
/// ```
#[derive(Clone, Copy, Debug, PartialEq, Eq, Hash)]
pub struct Room {
    /// How many series there is room for.
    pub series: usize,
    /// How many intervals there is room for, of all series together.
    pub intervals: usize,
}

impl Room {
    /// Room for every document.
    pub const EVERY: Room = Room { series: SERIES_ROOM, intervals: INTERVALS_ROOM };

    /// Room for every document of so many bytes: a series takes 398 at least and an Interval 45, and the last one may be cut off. These two numbers
    /// are counted from the guideline and not proved; with this room no document should be refused with [`TableFull`](crate::Refusal::TableFull).
    pub const fn of_length(bytes: usize) -> Room {
        let bytes = if bytes < DOCUMENT_MOST { bytes } else { DOCUMENT_MOST };
        Room { series: bytes / SERIES_LEAST + 1, intervals: bytes / INTERVAL_LEAST + 1 }
    }

    /// The length of a series table with this room.
    pub const fn series_numbers(self) -> usize {
        self.series.saturating_mul(SERIES_ROW)
    }

    /// The length of a table of [views](crate::views()) with this room: one header, and so many series. Intervals take none of it.
    pub const fn views_numbers(self) -> usize {
        cells(self.series)
    }
}
