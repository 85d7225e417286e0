//! Memory is given back empty. The allocator of this program looks for a price, as digits and as thousandths, for the total of a sheet, and for the place of
//! a value and the time that views show, in each block that it takes back.
#![allow(unsafe_code)]
mod common;

use common::*;
use lumintayag::{views, wipe, Draft, OwnedSheet, Refusal, Room};
use std::alloc::{GlobalAlloc, Layout, System};
use std::cell::Cell;
use std::hint::black_box;
use std::panic::{catch_unwind, resume_unwind};

const PRICE: &str = "847362514.938";
const THOUSANDTHS: i64 = 847_362_514_938;
/// The whole number of the price for a quarter hour and 5 for 95.
const TOTAL: i64 = 847_362_989;

/// Where the unit stands in the document, as a pair of views: its start and its length.
const UNIT: [u32; 2] = [670, 3];
/// When the period begins, in minutes.
const FROM: u32 = 16_352_580;

fn holds_price(block: &[u8]) -> bool {
    let [start, len] = UNIT.map(u32::to_ne_bytes);
    let pair = [start[0], start[1], start[2], start[3], len[0], len[1], len[2], len[3]];
    let secrets = [PRICE.as_bytes(), &THOUSANDTHS.to_ne_bytes(), &TOTAL.to_ne_bytes(), &pair, &FROM.to_ne_bytes()];
    secrets.iter().any(|secret| block.windows(secret.len()).any(|window| window == *secret))
}

thread_local! {
    /// Blocks that came back with the price in them, and all that came back.
    static BACK: Cell<(usize, usize)> = const { Cell::new((0, 0)) };
}

struct Looking;

// SAFETY: memory comes from the system's allocator and goes back to it. The default `realloc` ends in `dealloc` of this one.
unsafe impl GlobalAlloc for Looking {
    unsafe fn alloc(&self, layout: Layout) -> *mut u8 {
        // SAFETY: the caller keeps what the system asks.
        unsafe { System.alloc_zeroed(layout) }
    }

    unsafe fn dealloc(&self, block: *mut u8, layout: Layout) {
        // SAFETY: the block has this size, nobody else has it any more, and every byte of it was made 0 at first.
        let found = holds_price(unsafe { std::slice::from_raw_parts(block, layout.size()) });
        let _ = BACK.try_with(|back| back.set((back.get().0 + usize::from(found), back.get().1 + 1)));
        // SAFETY: the caller keeps what the system asks.
        unsafe { System.dealloc(block, layout) }
    }
}

#[global_allocator]
static ALLOCATOR: Looking = Looking;

/// What the work answers; how many blocks it gives back with the price in them, and how many at all.
fn given_back<T>(work: impl FnOnce() -> T) -> (T, (usize, usize)) {
    BACK.set((0, 0));
    let answer = work();
    (answer, BACK.get())
}

/// A sheet with the price in it and `end` after it, in a vector with room to spare that has the price too.
fn document(end: &str) -> Vec<u8> {
    let mut doc = (kostenblatt(&plant("a", "C0000000017", &[(1, PRICE), (2, "5")])) + end).into_bytes();
    let mut vector = Vec::with_capacity(doc.len() + 1000);
    vector.extend_from_slice(&doc);
    vector.extend_from_slice(PRICE.as_bytes());
    vector.truncate(doc.len());
    wipe(&mut doc);
    vector
}

#[test]
fn the_allocator_finds_what_is_not_wiped() {
    let vector = black_box(document(""));
    assert_eq!(given_back(|| drop(vector)).1, (1, 1));
    let amounts = black_box(vec![0, THOUSANDTHS, 0]);
    assert_eq!(given_back(|| drop(amounts)).1, (1, 1));
}

#[test]
fn a_kept_sheet_is_wiped() {
    for room in [Room::EVERY, Room { series: 1, intervals: 2 }, Room { series: 1, intervals: 1 }] {
        let vector = document("");
        let (kept, back) = given_back(|| OwnedSheet::read_with_room(vector, room).expect("accepted"));
        assert_eq!(back, (0, if room.intervals == 1 { 4 } else { 1 }), "the vector, and tables that were too small");
        assert_eq!(kept.sheet().get(0).and_then(|series| series.amount_at(1)), Some(amount(THOUSANDTHS)));
        assert!(holds_price(kept.document()));
        assert_eq!(given_back(|| drop(kept)).1, (0, 4), "the document and its tables");
    }
}

#[test]
fn totals_are_wiped() {
    let kept = OwnedSheet::read(document("")).expect("accepted");
    let totals = black_box(Box::new(kept.sheet().totals().expect("totals")));
    assert!(totals.get(0) == Some(totals.sum()) && totals.sum().whole() == TOTAL);
    let copied = black_box(vec![totals.sum().whole()]);
    assert_eq!(given_back(|| drop(totals)).1, (0, 1));
    assert_eq!(given_back(|| drop(copied)).1, (1, 1), "what is taken out of it is not wiped");
}

#[test]
fn views_are_wiped() {
    let kept = OwnedSheet::read(document("")).expect("accepted");
    let mut lent = black_box(vec![77; kept.sheet().views_numbers()]);
    assert!(views(kept.document(), &mut lent).is_ok_and(|shown| shown.get(0).and_then(|series| series.unit()) == Some("Z02")));
    assert_eq!(lent[2 * 27..][..2], UNIT);
    assert_eq!(given_back(|| drop(lent)).1, (1, 1), "a lent table is the caller's to wipe");
    let unit = || kept.views().ok()?.get(0)?.unit();
    assert_eq!((given_back(unit), given_back(unit)), ((Some("Z02"), (0, 0)), (Some("Z02"), (0, 0))));
    assert_eq!(kept.views().map(|shown| shown.period().from().minutes()), Ok(FROM));
    assert_eq!(given_back(|| drop(kept)).1, (0, 6), "the document and its tables, the table of views and what tells where it is");
}

/// A draft of a sheet, its memory as it grows, what is lent to the writer, and the output that is larger than the document.
#[test]
fn drafts_are_wiped() {
    let kept = OwnedSheet::read(document("")).expect("accepted");
    let (mut draft, back) = given_back(|| Draft::from_sheet(&kept.sheet()).expect("viewed"));
    assert_eq!(back.0, 0, "the table of views");
    assert_eq!(draft.series()[0].intervals()[0], (1, amount(THOUSANDTHS)));
    let mut grow = |position| {
        draft.series_mut()[0].add_interval(position, amount(THOUSANDTHS));
    };
    let grown = given_back(|| (3..50).for_each(&mut grow)).1;
    assert!(grown.0 == 0 && grown.1 > 2, "{grown:?}");
    let (document, back) = given_back(|| draft.to_document().expect("written"));
    assert!(back.0 == 0 && back.1 > 5 && holds_price(&document), "{back:?}");
    assert_eq!(given_back(|| drop(document)).1, (1, 1), "what is written is the caller's to wipe");
    draft.series_mut()[0].add_interval(3, amount(THOUSANDTHS));
    let (refusal, back) = given_back(|| draft.to_document().map(|_| ()).map_err(|refused| refused.refusal()));
    assert_eq!((refusal, back.0), (Err(Refusal::ContentUnfit), 0));
    assert_eq!(given_back(|| draft.series_mut()[0].clear_intervals().intervals().len()), (0, (0, 1)));
    let mut other = Draft::from_sheet(&kept.sheet()).expect("viewed");
    other.series_mut()[0].intervals_mut()[1].1 = amount(THOUSANDTHS);
    assert_eq!(given_back(|| drop((draft, other))).1 .0, 0);
}

#[test]
fn a_vector_that_fits_is_kept_as_it_is() {
    let mut vector = document("");
    vector.resize(vector.capacity(), b' ');
    let (kept, back) = given_back(|| OwnedSheet::read(vector).expect("accepted"));
    assert_eq!(back, (0, 0));
    assert_eq!(given_back(|| drop(kept)).1, (0, 4));
}

#[test]
fn a_refused_document_is_wiped() {
    let vector = document("x");
    assert!(holds_price(&vector));
    let (refused, back) = given_back(|| OwnedSheet::read(vector).is_err());
    assert_eq!((refused, back), (true, (0, 4)));
}

#[test]
fn a_panic_wipes_too() {
    let vector = document("");
    let work = || {
        let _kept = OwnedSheet::read(vector).expect("accepted");
        resume_unwind(Box::new(()))
    };
    let (ended, back) = given_back(|| catch_unwind::<_, ()>(work).is_err());
    assert_eq!((ended, back.0), (true, 0));
}
