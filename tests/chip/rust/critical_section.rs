//! A critical section as on the chip: interrupts are masked, and let through again where they were not masked before.
#![no_std]

pub struct CriticalSection(());

#[inline(always)]
pub fn with<R>(f: impl FnOnce(CriticalSection) -> R) -> R {
    let before: usize;
    // SAFETY: one hart, in machine mode; bit 3 of mstatus lets interrupts through
    unsafe { core::arch::asm!("csrrci {0}, mstatus, 8", out(reg) before) };
    let r = f(CriticalSection(()));
    if before & 8 != 0 {
        // SAFETY: as above
        unsafe { core::arch::asm!("csrsi mstatus, 8") };
    }
    r
}
