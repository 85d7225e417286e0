//! A value that is made when it is first asked for, and kept. `core` has none that threads may share.
#![allow(unsafe_code)]
use alloc::boxed::Box;
use core::marker::PhantomData;
use core::ptr::{null_mut, NonNull};
use core::sync::atomic::{AtomicPtr, Ordering};

/// Null until the value is made; from then on a box that this one owns, and that nobody changes.
pub(crate) struct Once<T> {
    made: AtomicPtr<T>,
    owns: PhantomData<T>,
}

impl<T: Send + Sync> Once<T> {
    pub(crate) const fn new() -> Self {
        Once { made: AtomicPtr::new(null_mut()), owns: PhantomData }
    }

    /// The value, if it is made.
    pub(crate) fn get(&self) -> Option<&T> {
        // SAFETY: what is not null is a box that lives as long as this value, and is only read; `Acquire` goes with the `AcqRel` that put it there.
        NonNull::new(self.made.load(Ordering::Acquire)).map(|made| unsafe { made.as_ref() })
    }

    /// The value, which is made first where there is none. Where two threads make it at once, the first one's is kept.
    pub(crate) fn get_or_make<E>(&self, make: impl FnOnce() -> Result<T, E>) -> Result<&T, E> {
        if let Some(made) = self.get() {
            return Ok(made);
        }
        let mine = Box::into_raw(Box::new(make()?));
        let kept = match self.made.compare_exchange(null_mut(), mine, Ordering::AcqRel, Ordering::Acquire) {
            Ok(_) => mine,
            Err(theirs) => {
                // SAFETY: it was a box just now, and no other thread has seen it.
                drop(unsafe { Box::from_raw(mine) });
                theirs
            }
        };
        // SAFETY: as in `get`; the one is the box that was just put there, the other was there before and is not null.
        Ok(unsafe { &*kept })
    }
}

impl<T> Drop for Once<T> {
    fn drop(&mut self) {
        let made = *self.made.get_mut();
        if !made.is_null() {
            // SAFETY: it was a box, and nobody else has this value any more.
            drop(unsafe { Box::from_raw(made) });
        }
    }
}

#[cfg(test)]
mod tests {
    extern crate std;
    use super::*;
    use alloc::sync::Arc;

    #[test]
    fn it_is_made_once_and_given_back() {
        let (counted, once) = (Arc::new(()), Once::new());
        assert!(once.get().is_none());
        assert_eq!(once.get_or_make(|| Err(7)).map(|_: &Arc<()>| ()), Err(7));
        assert!(once.get().is_none() && once.get_or_make(|| Ok::<_, ()>(counted.clone())).is_ok());
        assert!(once.get_or_make(|| Err(8)).is_ok() && once.get().is_some());
        assert_eq!(Arc::strong_count(&counted), 2);
        drop(once);
        assert_eq!(Arc::strong_count(&counted), 1);
    }

    #[test]
    fn threads_get_the_same() {
        for _ in 0..100 {
            let (counted, once, line) = (Arc::new(()), Once::new(), std::sync::Barrier::new(4));
            let ask = || {
                line.wait();
                once.get_or_make(|| Ok::<_, ()>(counted.clone())).map(|made| made as *const _ as usize)
            };
            let all: [_; 4] = std::thread::scope(|threads| [0; 4].map(|_| threads.spawn(ask)).map(|thread| thread.join()));
            assert!(all.iter().all(|one| matches!((one, &all[0]), (Ok(Ok(one)), Ok(Ok(first))) if one == first)));
            assert_eq!(Arc::strong_count(&counted), 2, "what came second is dropped");
        }
    }
}
