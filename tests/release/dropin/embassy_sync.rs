// SPDX-License-Identifier: MIT OR Apache-2.0
//! A waker that is kept in a critical section.
#![no_std]

pub mod waitqueue {
    use core::cell::UnsafeCell;
    use core::task::Waker;

    pub struct AtomicWaker(UnsafeCell<Option<Waker>>);

    // SAFETY: touched in critical sections only
    unsafe impl Sync for AtomicWaker {}

    impl AtomicWaker {
        #[allow(clippy::new_without_default)]
        pub const fn new() -> Self {
            Self(UnsafeCell::new(None))
        }

        pub fn register(&self, waker: &Waker) {
            let waker = waker.clone();
            // SAFETY: masked, and no reference is kept
            critical_section::with(|_| unsafe { *self.0.get() = Some(waker) });
        }

        pub fn wake(&self) {
            // SAFETY: as above
            if let Some(waker) = critical_section::with(|_| unsafe { (*self.0.get()).take() }) {
                waker.wake();
            }
        }
    }
}
