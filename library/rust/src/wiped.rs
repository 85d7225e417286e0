//! Memory on the heap that is given back empty.
use crate::wipe;
use alloc::vec;
use alloc::vec::Vec;
use core::mem::replace;
use core::ops::{Deref, DerefMut};

/// Cells that are wiped when they are dropped, as far as the vector's capacity goes. Where they outgrow it, what they leave behind is wiped too.
pub(crate) struct Wiped<T: Copy + Default>(Vec<T>);

impl<T: Copy + Default> Wiped<T> {
    pub(crate) fn zeros(len: usize) -> Self {
        Wiped(vec![T::default(); len])
    }

    /// A copy, in memory of its own size.
    pub(crate) fn copied(cells: &[T]) -> Self {
        Wiped(cells.into())
    }

    /// The same cells, in memory of their own size.
    pub(crate) fn fitted(self) -> Self {
        if self.0.capacity() == self.0.len() {
            return self;
        }
        Wiped::copied(&self)
    }

    pub(crate) fn extend(&mut self, cells: &[T]) {
        let len = self.0.len().saturating_add(cells.len());
        if len > self.0.capacity() {
            let mut larger = Vec::with_capacity(len.max(self.0.len().saturating_mul(2)));
            larger.extend_from_slice(&self.0);
            drop(Wiped(replace(&mut self.0, larger)));
        }
        self.0.extend_from_slice(cells);
    }

    /// What is cut off stays in the vector's capacity, and is wiped with it.
    pub(crate) fn truncate(&mut self, len: usize) {
        self.0.truncate(len);
    }
}

impl<T: Copy + Default> From<Vec<T>> for Wiped<T> {
    fn from(cells: Vec<T>) -> Self {
        Wiped(cells)
    }
}

impl<T: Copy + Default> Deref for Wiped<T> {
    type Target = [T];

    fn deref(&self) -> &[T] {
        &self.0
    }
}

impl<T: Copy + Default> DerefMut for Wiped<T> {
    fn deref_mut(&mut self) -> &mut [T] {
        &mut self.0
    }
}

impl<T: Copy + Default> Drop for Wiped<T> {
    fn drop(&mut self) {
        self.0.resize(self.0.capacity(), T::default());
        wipe(&mut self.0);
    }
}
