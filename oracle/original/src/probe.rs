//! What `probe!` puts at the end of usbhs/mod.rs: a module by which the oracle reaches the file's private statics.

macro_rules! probe {
    () => {
        pub(crate) mod probe {
            use core::ptr::from_ref;
            use core::sync::atomic::Ordering::Relaxed;

            use oracle::Wake;

            use super::*;

            /// Every static as the program image holds it, those included that `Driver::new` leaves.
            pub fn power_on() {
                for s in OUT_STATE.iter().chain(IN_STATE.iter()) {
                    // SAFETY: all fields are atomics, and no Rust under test runs
                    unsafe { from_ref(s).cast_mut().write(EpState::NEW) };
                }
                for m in [&ISO_OUT_EPS, &ISO_IN_EVERY, &ISO_IN_PACED] {
                    m.store(0, Relaxed);
                }
                for f in PACED_LAST.iter().chain([&SOF_FRAME]) {
                    f.store(NO_FRAME, Relaxed);
                }
                for w in SETUP.iter().chain([&EP0_BUF]) {
                    w.store(0, Relaxed);
                }
                SETUP_READY.store(false, Relaxed);
                REGS.store(0, Relaxed);
                SOF_CALLBACK.store(0, Relaxed);
            }

            /// Whose waker stands at this address.
            pub fn whose(waker: usize) -> Wake {
                if waker == from_ref(&BUS_WAKER) as usize {
                    return Wake::Bus;
                }
                let within = |all: &[EpState]| all.iter().position(|s| from_ref(&s.waker) as usize == waker);
                match (within(&OUT_STATE), within(&IN_STATE)) {
                    (Some(e), _) => Wake::Out(e as u8),
                    (_, Some(e)) => Wake::In(e as u8),
                    _ => panic!("a waker of nobody"),
                }
            }

            /// Leave the last `count` buffers of `NR_EP` free.
            pub fn use_up<T: Instance, const NR_EP: usize, const SIZE: usize>(
                driver: &mut Driver<'_, T, NR_EP, SIZE>,
                count: usize,
            ) {
                for _ in count..NR_EP {
                    let _ = driver.allocator.alloc_endpoint(0);
                }
            }

            pub fn in0_ready() -> bool {
                IN_STATE[0].ready.load(Relaxed)
            }

            pub fn out_iso(ep: usize) -> bool {
                OUT_STATE[ep].iso.load(Relaxed)
            }

            pub fn in_iso(ep: usize) -> bool {
                IN_STATE[ep].iso.load(Relaxed)
            }
        }
    };
}
