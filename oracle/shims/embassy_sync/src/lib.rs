//! A waker that records: each wake by its own address, and the place where a request is registered.

pub mod waitqueue {
    use core::sync::atomic::AtomicU8;
    use core::task::Waker;

    /// Not of size 0, so that no two of them have one address.
    pub struct AtomicWaker(#[allow(dead_code)] AtomicU8);

    impl AtomicWaker {
        #[allow(clippy::new_without_default)]
        pub const fn new() -> Self {
            Self(AtomicU8::new(0))
        }

        pub fn register(&self, _waker: &Waker) {
            seam::registered();
        }

        pub fn wake(&self) {
            seam::wake(self as *const Self as usize);
        }
    }
}
