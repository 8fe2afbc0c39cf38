//! The registers of the comparison's shims as memory at the chip's offsets, with the chip's widths. Every register's
//! number is known when this is compiled, so an access is one load or store. Fields keep document 01's bits: nothing is
//! packed anew, which flatters the Rust.
#![no_std]

/// Where tests/chip/handler.c has the block.
const BASE: usize = 0x8800_0000;

pub mod reg {
    include!(concat!(env!("TARGET"), "/reg.rs"));
}

#[inline(always)]
fn place(reg: u8, ep: u8) -> (usize, u8) {
    let ep = ep as usize;
    let (offset, width) = match reg {
        reg::CTRL => (0x00, 1),
        reg::HOST_CTRL => (0x01, 1),
        reg::INT_EN => (0x02, 1),
        reg::DEV_AD => (0x03, 1),
        reg::FRAME_NO => (0x04, 2),
        reg::MIS_ST => (0x09, 1),
        reg::INT_FG => (0x0A, 1),
        reg::INT_ST => (0x0B, 1),
        reg::RX_LEN => (0x0C, 2),
        reg::EP_CONFIG => (0x10, 4),
        reg::EP_TYPE => (0x14, 4),
        reg::EP_BUF_MOD => (0x18, 4),
        reg::EP0_DMA => (0x1C, 4),
        reg::EP_RX_DMA => (0x1C + 4 * ep, 4),
        reg::EP_TX_DMA => (0x58 + 4 * ep, 4),
        reg::EP_MAX_LEN => (0x98 + 4 * ep, 2),
        reg::EP_T_LEN => (0xD8 + 4 * ep, 2),
        reg::EP_TX_CTRL => (0xDA + 4 * ep, 1),
        _ => (0xDB + 4 * ep, 1),
    };
    (BASE + offset, width)
}

#[inline(always)]
pub fn read(reg: u8, ep: u8) -> u32 {
    let (at, width) = place(reg, ep);
    // SAFETY: the emulator's memory at BASE is nobody else's
    let value = unsafe {
        match width {
            1 => (at as *const u8).read_volatile() as u32,
            2 => (at as *const u16).read_volatile() as u32,
            _ => (at as *const u32).read_volatile(),
        }
    };
    if reg == reg::INT_ST {
        note(0);
    }
    value
}

#[inline(always)]
pub fn write(reg: u8, ep: u8, value: u32) {
    let (at, width) = place(reg, ep);
    // SAFETY: as above
    unsafe {
        match width {
            1 => (at as *mut u8).write_volatile(value as u8),
            2 => (at as *mut u16).write_volatile(value as u16),
            _ => (at as *mut u32).write_volatile(value),
        }
    }
    if reg == reg::INT_FG {
        note(1);
    }
}

/// When the status was first read, the flag first released, a task first woken: with `--cfg timed` alone.
#[cfg(timed)]
#[no_mangle]
pub static mut WINDOWS: [u32; 3] = [0; 3];

#[cfg(timed)]
#[inline(always)]
fn note(which: usize) {
    // SAFETY: one hart, no interrupts
    unsafe {
        if WINDOWS[which] == 0 {
            core::arch::asm!("csrr {0}, minstret", out(reg) WINDOWS[which]);
        }
    }
}

#[cfg(not(timed))]
#[inline(always)]
fn note(_which: usize) {}

/// Wake-ups go to a list, as the port's do; embassy's critical section and executor are left out.
#[no_mangle]
pub static mut WOKEN: (u32, [u32; 64]) = (0, [0; 64]);

#[inline(always)]
pub fn wake(waker: usize) {
    note(2);
    // SAFETY: one hart, no interrupts
    unsafe {
        if WOKEN.0 < 64 {
            WOKEN.1[WOKEN.0 as usize] = waker as u32;
            WOKEN.0 += 1;
        }
    }
}

pub fn registered() {}
pub fn error() {}
pub fn wait_us(_us: u32) {}
