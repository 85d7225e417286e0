//! Reads documents of Germany's Redispatch 2.0 in memory: Beschaffungsanforderungen 1.0, Kostenblätter 1.0 and NetworkConstraintDocuments 1.1a. Writes those
//! of the first two kinds.
//!
//! This crate is the safe face of Lumintayag's reader and writer, whose archive it links. What they answer and leave in what they are lent is proved, for every
//! document and every length of every table. That ends at the archive's functions (`library/lumintayag.h`): this crate, which shows the tables row by
//! row, is plain Rust.
//!
//! [`OwnedSheet`] keeps a document with its tables:
//!
//! ```
//! # #[cfg(feature = "alloc")] {
//! use lumintayag::{Kind, OwnedSheet};
//!
//! # let document = include_bytes!(concat!(env!("CARGO_MANIFEST_DIR"), "/../../crates/samples_run/data/two-plain.xml")).to_vec();
//! let kept = OwnedSheet::read(document)?;
//! let sheet = kept.sheet();
//! assert_eq!((sheet.kind(), sheet.quarters(), sheet.len()), (Kind::Kostenblatt, 96, 1));
//! for series in sheet {
//!     if let Some(price) = series.amount_at(41) {
//!         println!("{} {}: {price}", series.business_type(), series.object());
//!     }
//! }
//! # }
//! # Ok::<(), lumintayag::Refused>(())
//! ```
//!
//! [`read`] does the same in tables that the caller lends. A document that is refused is an error, which tells why and where:
//!
//! ```
//! use lumintayag::{read, Lent, Refusal, Room};
//!
//! const ROOM: Room = Room { series: 64, intervals: 2048 };
//! let (mut series, mut positions, mut amounts) = ([0; ROOM.series_numbers()], [0; ROOM.intervals], [0; ROOM.intervals]);
//! let lent = Lent { series: &mut series, positions: &mut positions, amounts: &mut amounts };
//! let refused = read(b"<Kostenblatt DtdBDEWNachrichtenVersion=\"1.0\">", lent).unwrap_err();
//! assert_eq!((refused.refusal(), refused.place()), (Refusal::NotDue, 45));
//! assert_eq!(refused.note().to_string(), "03 2D 02 00 00");
//! ```
//!
//! [`read_with_shape`] has the note in the new [`Shape`], which tells how deep a fault lies; [`read_note`] reads notes of both.
//!
//! # What an amount is
//!
//! An [`Amount`] is a Qty, in thousandths. In a Beschaffungsanforderung it is megawatts. In a Kostenblatt it is euros by the series' MeasurementUnit:
//! per piece (Z01), per megawatt hour (Z02) or per hour (Z03). In a NetworkConstraintDocument it is megawatts (MAW) or a share (C62). So two amounts may be held against each other only where kind, BusinessType, Direction
//! and MeasurementUnit are the same; the last one is shown by [views](Sheet::views). Quarter hours count from 1, the first of TimePeriodCovered, which need
//! not begin at midnight, and [`Series::amount_at`] has no amount past the last one, nor in a NetworkConstraintDocument past the last Pos of the series.
//!
//! # Views
//!
//! [`Sheet::views`] and [`OwnedSheet::views`] show every attribute value of a document but for Pos and Qty: its header ([`Views::sender`],
//! [`Views::document`] and so on), and of each series what is no cell of its row ([`SeriesViews::unit`], [`SeriesViews::status`] and so on; all of them by
//! name with [`SeriesViews::get`]). [`Views::period`] tells the two ends of TimePeriodCovered, and when each quarter hour begins, in UTC. [`views()`] does
//! the same with a document that was not read.
//!
//! # References
//!
//! Attribute values may hold references: `&amp;`, `&lt;`, `&gt;`, `&quot;`, `&apos;`, and numeric ones as `&#65;` or `&#x41;`. Values are judged by what they
//! say: `A0&#49;` is the code A01, and two identifications that say the same are one used twice. A `&str` from a document is what stands there, with its
//! references; [`unescaped`] tells what it says.
//!
//! # Writing
//!
//! [`Draft`] has the values of a document by name, and the intervals of its series: of a sheet that was read, with other amounts, or from
//! nothing. It is written in a fixed layout, and what is written is accepted and says the same; a draft that no legal document says is refused with
//! [`Refusal::ContentUnfit`]. [`write()`] does the same with tables that the caller lends.
//!
//! # Totals
//!
//! [`Sheet::totals`] adds up each series of a sheet, and all of them: every amount times the quarter hours that it stands. A [`Total`] is exact, and
//! totals of several sheets are added with [`Total::checked_add`]. What the sum of amounts means is for the caller to say, who knows their units:
//! megawatts times quarter hours are quarters of megawatt hours.
//!
//! # What is not judged
//!
//! Dependencies that the format descriptions tell in prose, but for those that the build scope or a request lists (`docs/GUIDELINE.md`, section 7.3). An accepted
//! Kostenblatt may lack a Direction that its BusinessType needs, have a MeasurementUnit that does not go with it, or a negative price per start.
//!
//! # What gets into a log
//!
//! `Debug` of every type here tells kinds, counts and places, and no byte of a document, no amount, no total and no time; nor does the text of an error.
//! `Display` of [`Amount`], [`Total`] and [`Utc`], and what the methods of [`Series`] and of [`Views`] answer, is what the caller asked for. [`OwnedSheet`],
//! [`Draft`] and [`Totals`] are wiped when they are dropped, and [`wipe`] is for memory of the caller's own. `docs/PRIVACY.md` says what is left to the caller: swap, core dumps, copies.
//!
//! # Features and requirements
//!
//! The crate is `no_std`, and does not panic. The default feature `alloc` adds [`OwnedSheet`] and [`Draft`]; without it the crate allocates nothing. The feature `std`,
//! off by default, adds the conversion of a [`Utc`] into a `std::time::SystemTime`. A call takes 70 KB of stack at most. The environment variable
//! `LUMINTAYAG_DIR` names the folder of the archive at build time, as a full path.
//!
//! # Later versions
//!
//! Kinds and refusals will get more names, series more values and tables wider rows. So [`Kind`] and
//! [`Refusal`] are `#[non_exhaustive]`, rows are shown through methods, and tables are sized by [`Room`] and [`SERIES_ROW`]. A function of the
//! archive whose layout changes gets a new name, so that this crate is not linked with a layout that it does not know.
#![no_std]

#[cfg(feature = "alloc")]
extern crate alloc;
#[cfg(feature = "std")]
extern crate std;

mod amount;
mod answer;
#[cfg(feature = "alloc")]
mod draft;
mod foreign;
mod note;
mod numbers;
#[cfg(feature = "alloc")]
mod once;
#[cfg(feature = "alloc")]
mod owned;
mod room;
mod sheet;
mod time;
mod totals;
mod unescaped;
mod values;
mod views;
mod wipe;
#[cfg(feature = "alloc")]
mod wiped;
mod write;

pub use amount::{Amount, NotAnAmount};
pub use answer::{read, read_with_shape, Accepted, Lent, Refused};
#[cfg(feature = "alloc")]
pub use draft::{Draft, SeriesDraft};
pub use foreign::{DOCUMENT_MOST, HEADER_PAIRS, INTERVALS_ROOM, SERIES_PAIRS, SERIES_ROOM, SERIES_ROW, TOTALS_MOST};
pub use note::{read_note, NotOneNote, Note, Shape};
pub use numbers::{Kind, Refusal};
#[cfg(feature = "alloc")]
pub use owned::OwnedSheet;
pub use room::Room;
pub use sheet::{ByQuarter, Intervals, Series, SeriesIter, Sheet, Tables};
pub use time::{Period, Utc};
pub use totals::{totals, Total, Totals, TotalsIter};
pub use unescaped::{unescape, unescaped};
pub use values::{HeaderValue, SeriesValue};
pub use views::{views, SeriesViews, SeriesViewsIter, Views, ViewsRefused};
pub use wipe::wipe;
pub use write::{write, WriteRefused, Written};
