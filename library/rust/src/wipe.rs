//! Memory that is made 0 for good.
#![allow(unsafe_code)]
use core::sync::atomic::{compiler_fence, Ordering};

/// Makes every cell 0 (the default of its type) by writes that the compiler may not leave out, also where nobody reads the cells again.
///
/// [`OwnedSheet`](crate::OwnedSheet) does it with all that it keeps. This is for a caller's own memory: a document, or lent tables.
///
/// ```
/// let mut amounts = [84_500, -3_750];
/// lumintayag::wipe(&mut amounts);
/// assert_eq!(amounts, [0, 0]);
/// ```
pub fn wipe<T: Copy + Default>(cells: &mut [T]) {
    for cell in cells {
        // SAFETY: a reference is valid for writes and aligned, and nothing of a type that is Copy has to be dropped.
        unsafe { core::ptr::write_volatile(cell, T::default()) };
    }
    compiler_fence(Ordering::SeqCst);
}
