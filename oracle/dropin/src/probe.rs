//! As `original`'s, but that it asks the port: the state is bytes, which are put back after a question.

macro_rules! probe {
    () => {
        pub(crate) mod probe {
            use core::ptr::from_ref;
            use core::sync::atomic::Ordering::Relaxed;

            use oracle::Wake;

            use super::*;

            /// Every static as the program image holds it.
            pub fn power_on() {
                lent::with(|l| *l = lent::Lent::NEW);
                for m in [&iso::PACE, &iso::PACED, &iso::ADVANCE, &iso::ISO_IN] {
                    m.store(0, Relaxed);
                }
                TURNED_DOWN.store(0, Relaxed);
            }

            /// Whose waker stands at this address.
            pub fn whose(waker: usize) -> Wake {
                let code = WAKERS.iter().position(|w| from_ref(w) as usize == waker).expect("a waker of nobody");
                oracle::number::wake(code as u8)
            }

            /// Lend the last `count` buffers of `NR_EP` alone: the start-up once more over these, its accesses not
            /// made.
            pub fn use_up<T: Instance, const NR_EP: usize, const SIZE: usize>(
                _driver: &mut Driver<'_, T, NR_EP, SIZE>,
                count: usize,
            ) {
                lent::with(|l| {
                    let skip = (NR_EP - count) * SIZE;
                    l.lend_slots(l.slots().0.wrapping_add(skip), count * SIZE, SIZE);
                    let mut port = l.port();
                    let mut answer = port.start_up(SIZE as u32, count as u32, true);
                    while !matches!(answer, Answer::End { .. }) {
                        assert!(!matches!(answer, Answer::Refused(_)));
                        answer = port.go_on(0);
                    }
                });
            }

            /// A question to a copy of the state: `f` on the port, after which all is as before.
            fn ask<R>(f: impl FnOnce(&mut Port<'_>) -> R) -> R {
                lent::with(|l| {
                    let before = l.state.clone();
                    let r = f(&mut l.port());
                    l.state = before;
                    r
                })
            }

            /// Would an accept's poll be through?
            pub fn in0_ready() -> bool {
                matches!(ask(|p| p.poll_accept()), Answer::Done(_) | Answer::Write { .. })
            }

            pub fn out_iso(ep: usize) -> bool {
                ask(|p| p.open(ep as u8)) != Err(Refusal::NotIsochronous)
            }

            pub fn in_iso(ep: usize) -> bool {
                ask(|p| p.queue(ep as u8, &[])) != Answer::Refused(Refusal::NotIsochronous)
            }
        }
    };
}
