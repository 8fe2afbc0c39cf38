// SPDX-License-Identifier: MIT OR Apache-2.0
//! The hart's interrupts off and on again.
#![no_std]

pub struct CriticalSection(());

pub fn with<R>(f: impl FnOnce(CriticalSection) -> R) -> R {
    let before: u32;
    // SAFETY: off, and as they were
    unsafe { core::arch::asm!("csrrci {0}, mstatus, 8", out(reg) before) };
    let r = f(CriticalSection(()));
    // SAFETY: as above
    unsafe { core::arch::asm!("csrs mstatus, {0}", in(reg) before & 8) };
    r
}
