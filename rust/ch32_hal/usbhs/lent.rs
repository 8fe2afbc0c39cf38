//! What the port is lent, in a static, and the registers' names: the layer's module with `unsafe`.

use core::cell::UnsafeCell;

use super::guard::Guard;
use crate::pac::usbhs::{Usb, Usbd, Usbh};
use usbhs_port::{Answer, BusTime, Lend, Packet, Port, State};

/// This driver's number in the record of bus time.
const DRIVER: u32 = 0;

/// What the free functions do with a driver's registers.
#[derive(Clone, Copy)]
pub(super) enum Free {
    /// The microframe index, as an operation.
    Microframe,
    /// The same by reading the register itself.
    Frame,
    Advance(u8),
    /// SOF interrupts are let through.
    Sof,
}

pub(super) struct Lent {
    pub(super) state: State,
    pub(super) time: BusTime,
    slots: *mut u8,
    length: usize,
    /// One buffer's.
    pub(super) size: usize,
    /// The start-of-frame callback.
    pub(super) callback: Option<fn()>,
    /// `free::<T>` of the driver's peripheral.
    pub(super) free: Option<fn(Free) -> Answer>,
    /// Against a bus that does not wait.
    pub(super) guard: Guard,
}

impl Lent {
    pub(super) const NEW: Self = Self {
        state: State::new(),
        time: BusTime::new(),
        slots: core::ptr::NonNull::dangling().as_ptr(),
        length: 0,
        size: 0,
        callback: None,
        free: None,
        guard: Guard::NEW,
    };

    /// Buffers that the driver may use from now on.
    pub(super) fn lend_slots(&mut self, slots: *mut u8, length: usize, size: usize) {
        (self.slots, self.length, self.size) = (slots, length, size);
    }

    pub(super) fn slots(&self) -> (*mut u8, usize) {
        (self.slots, self.length)
    }

    #[inline]
    pub(super) fn port(&mut self) -> Port<'_> {
        // SAFETY: none yet, or the buffers that `Driver::new` took for the driver's life; nobody else has a reference
        // while a call is made, and the chip's own accesses are outside of the language
        let slots = unsafe { core::slice::from_raw_parts_mut(self.slots, self.length) };
        Port::lent(&mut self.state, slots, &mut self.time, DRIVER)
    }
}

struct Shared(UnsafeCell<Lent>);

// SAFETY: touched within critical sections only
unsafe impl Sync for Shared {}

static LENT: Shared = Shared(UnsafeCell::new(Lent::NEW));

/// `f` in a critical section; `f` does not come back here.
#[inline]
pub(super) fn with<R>(f: impl FnOnce(&mut Lent) -> R) -> R {
    // SAFETY: masked, and no `f` of this layer calls `with`: the only reference
    critical_section::with(|_| f(unsafe { &mut *LENT.0.get() }))
}

/// One call of the port.
#[inline]
pub(super) fn call<R>(f: impl FnOnce(&mut Port<'_>) -> R) -> R {
    with(|lent| f(&mut lent.port()))
}

/// The port, masked for each call.
pub(super) struct Masked;

impl Lend for Masked {
    #[inline]
    fn lend<R>(&mut self, f: impl FnOnce(&mut Port<'_>) -> R) -> R {
        call(f)
    }
}

/// The slots' address, as the chip is told it.
pub(super) fn base() -> u32 {
    with(|lent| lent.slots as usize as u32)
}

/// The same where an endpoint's receive buffer is written, which the guard has to know.
pub(super) fn armed(ep: u8, offset: u32) -> u32 {
    with(|lent| {
        lent.guard.armed[ep as usize & 15] = offset;
        lent.slots as usize as u32
    })
}

/// `f` on an open packet, unmasked.
pub(super) fn on_packet<R>(packet: Packet, f: impl FnOnce(&[u8]) -> R) -> R {
    let (slots, length) = with(|lent| lent.slots());
    let (begin, n) = (packet.offset as usize, usize::from(packet.length));
    if begin + n > length {
        return f(&[]);
    }
    // SAFETY: inside the lent buffers; until it is closed no call writes to an open packet's slot, and the chip was not
    // handed it (both proved)
    f(unsafe { core::slice::from_raw_parts(slots.add(begin), n) })
}

/// The first word of an armed slot of an isochronous OUT, until a packet lands there.
const MARK: u32 = 0x5A3C_A5C3;

/// Whether a packet lies in the armed slot of an isochronous OUT endpoint that is guarded.
pub(super) fn left_in_a_slot() -> bool {
    with(|l| {
        let eps = l.guard.looked_at();
        eps != 0 && (1..16).filter(|ep| eps >> ep & 1 != 0).any(|ep| {
            let at = l.guard.armed[ep] as usize;
            // SAFETY: a word inside the lent buffers, which the chip may write meanwhile
            at + 4 <= l.length && unsafe { core::ptr::read_volatile(l.slots.add(at).cast::<u32>()) } != MARK
        })
    })
}

/// The block's registers by their names in device mode.
pub(super) fn device(block: Usb) -> Usbd {
    // SAFETY: the same registers
    unsafe { Usbd::from_ptr(block.as_ptr()) }
}

/// The block's registers by their names in host mode.
pub(super) fn host(block: Usb) -> Usbh {
    // SAFETY: the same registers
    unsafe { Usbh::from_ptr(block.as_ptr()) }
}
