// SPDX-License-Identifier: MIT OR Apache-2.0
//! The emulator's board for examples/rust/recorder.rs: the host of firmware/emulator/host.c goes on while the firmware
//! sleeps or waits for the card, which is memory. What the card holds at the end goes out behind the log, for the
//! desk's tool.

use ch32_hal::interrupt::typelevel::{Binding, Handler};
use ch32_hal::peripherals::USBHS;
use ch32_hal::usb::EndpointDataBuffer;
use ch32_hal::usbhs::{self, DmPin, DpPin, Instance, InterruptHandler, WakeupInterruptHandler};
use ch32_hal::Peri;

use crate::{BUFFERS, SIZE};

const BLOCK: usize = 512;
const BLOCKS: usize = 8192;
static mut CARD: [u8; BLOCKS * BLOCK] = [0; BLOCKS * BLOCK];

/// The model of the block knows the buffers by this name.
#[no_mangle]
#[allow(non_upper_case_globals)]
static mut usb_slots: [EndpointDataBuffer<SIZE>; BUFFERS] = unsafe { core::mem::zeroed() };

extern "C" {
    fn print(text: *const u8);
    fn print_number(number: u32);
    fn print_hex(number: u32, digits: u32);
    fn emulator_end(failed: i32) -> !;
    fn block_interrupt_pending() -> i32;
    fn host_step() -> i32;
    fn host_card_busy() -> u32;
    fn host_check(card: *const u8, length: u32, overruns: u32) -> i32;
}

pub struct Pin0;
impl ch32_hal::gpio::Pin for Pin0 {}
impl DpPin<USBHS, 0> for Pin0 {}
impl DmPin<USBHS, 0> for Pin0 {}

pub struct Irqs;
type Global = <USBHS as Instance>::Interrupt;
type Wakeup = <USBHS as Instance>::WakeupInterrupt;
// SAFETY: `trap` calls the handler
unsafe impl Binding<Global, InterruptHandler<USBHS>> for Irqs {}
// SAFETY: this chip never calls it
unsafe impl Binding<Wakeup, WakeupInterruptHandler<USBHS>> for Irqs {}

pub fn pins() -> (Peri<'static, Pin0>, Peri<'static, Pin0>) {
    (Peri::new(Pin0), Peri::new(Pin0))
}

pub fn buffers() -> &'static mut [EndpointDataBuffer<SIZE>; BUFFERS] {
    // SAFETY: called once
    unsafe { &mut *core::ptr::addr_of_mut!(usb_slots) }
}

pub fn survey() -> u32 {
    1
}

/// The hart's software interrupt, which stands for the chip's.
pub fn interrupts_on() {
    // SAFETY: `trap` is there
    unsafe {
        core::arch::asm!("csrs mie, {0}", "csrs mstatus, {0}", in(reg) 8);
    }
}

/// The interrupt's entry (firmware/start.S).
#[no_mangle]
pub extern "C" fn trap(cause: u32) {
    if cause == 0x8000_0003 {
        // SAFETY: after EP0's start
        unsafe { <InterruptHandler<USBHS> as Handler<Global>>::on_interrupt() };
        return;
    }
    // SAFETY: a text that ends with 0; no way back
    unsafe {
        print(c"trap ".as_ptr().cast());
        print_hex(cause, 8);
        print(c"\n".as_ptr().cast());
        emulator_end(1)
    }
}

pub fn card_store(place: u32, block: &[u8]) -> bool {
    let Some(at) = (place as usize).checked_mul(BLOCK).filter(|at| at + BLOCK <= BLOCKS * BLOCK) else {
        return false;
    };
    // SAFETY: within the card, which nobody else has meanwhile; the host's functions take no reference
    unsafe {
        print(c"card: block ".as_ptr().cast());
        print_number(place);
        print(c"\n".as_ptr().cast());
        let card = core::ptr::addr_of_mut!(CARD).cast::<u8>();
        core::ptr::copy_nonoverlapping(block.as_ptr(), card.add(at), BLOCK);
        for _ in 0..host_card_busy() {
            host_step();
        }
    }
    true
}

/// The card's blocks up to the last that was stored, a line each.
fn print_card() {
    // SAFETY: the card is read, by one hart
    unsafe {
        let card = core::slice::from_raw_parts(core::ptr::addr_of!(CARD).cast::<u8>(), BLOCKS * BLOCK);
        let last = card.iter().rposition(|b| *b != 0).map_or(0, |at| at / BLOCK + 1);
        for block in card.chunks_exact(BLOCK).take(last) {
            print(c"card-bytes ".as_ptr().cast());
            block.iter().for_each(|b| print_hex((*b).into(), 2));
            print(c"\n".as_ptr().cast());
        }
    }
}

/// Until an interrupt is pending or `awake`; at the end of the host's script `finish`, and the host's own check.
pub fn sleep(awake: impl Fn() -> bool, finish: impl FnOnce()) {
    let before: u32;
    // SAFETY: interrupts are off between the look and the sleep
    unsafe { core::arch::asm!("csrrci {0}, mstatus, 8", out(reg) before) };
    // SAFETY: the model's own state
    let over = !awake() && unsafe { block_interrupt_pending() == 0 && host_step() == 0 };
    // SAFETY: as before
    unsafe { core::arch::asm!("csrs mstatus, {0}", in(reg) before & 8) };
    if over {
        finish();
        // SAFETY: the card with its length
        unsafe {
            let card = core::ptr::addr_of!(CARD).cast::<u8>();
            let failed = host_check(card, (BLOCKS * BLOCK) as u32, usbhs::iso_out_overruns(1));
            print_card();
            emulator_end(failed)
        }
    }
}

#[panic_handler]
fn panicked(_: &core::panic::PanicInfo<'_>) -> ! {
    // SAFETY: a text that ends with 0
    unsafe {
        print(c"panic\n".as_ptr().cast());
        emulator_end(1)
    }
}
