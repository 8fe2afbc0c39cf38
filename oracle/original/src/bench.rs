//! For measuring: the Rust's functions with nothing around them.

use super::*;
use seam::{Mapping, ARENA};

/// # Safety
/// After start-up and EP0's start.
#[inline]
pub unsafe fn on_interrupt() {
    <InterruptHandler<USBHS> as Handler<Global>>::on_interrupt()
}

/// The length of the oldest packet, which is taken.
pub fn take(ep: usize) -> Option<usize> {
    usbhs::iso_out_take(ep, |p| p.len())
}

pub fn queue(ep: usize, data: &[u8]) -> bool {
    usbhs::iso_in_prime(ep, data)
}

const NR: usize = 24;
const SIZE: usize = 64;

/// The operations of 24 buffers of 64 bytes: in one go in cheap mode, else one access at a time.
pub struct Bare {
    held: Box<Held<NR, SIZE>>,
    on: Box<Coroutine>,
    buffers: Mapping,
}

impl Bare {
    #[allow(clippy::new_without_default)]
    pub fn new() -> Self {
        Self { held: Box::new(Held::new()), on: Coroutine::new(), buffers: Mapping::new(ARENA) }
    }

    pub fn base(&self) -> u32 {
        self.buffers.ptr() as usize as u32
    }

    pub fn slots(&self) -> &[u8] {
        // SAFETY: the lent buffer; the Rust runs only within `run`, `begin` and `resume`
        unsafe { core::slice::from_raw_parts(self.buffers.ptr(), NR * SIZE) }
    }

    /// What the chip stores at an address that it was told.
    #[inline]
    pub fn store(&mut self, address: u32, bytes: &[u8]) {
        let at = address.wrapping_sub(self.base()) as usize;
        assert!(at + bytes.len() <= NR * SIZE);
        // SAFETY: inside the lent buffer
        unsafe { core::ptr::copy_nonoverlapping(bytes.as_ptr(), self.buffers.ptr().add(at), bytes.len()) }
    }

    /// In one go.
    #[inline]
    pub fn run(&mut self, call: &Call) -> Finish {
        text(&mut self.held, self.buffers.ptr(), call)
    }

    /// Up to the first access.
    #[inline]
    pub fn begin(&mut self, call: &Call) -> Out {
        let (held, buffers, call): (*mut Held<NR, SIZE>, _, *const Call) = (&mut *self.held, self.buffers.ptr(), call);
        // SAFETY: boxed, and in use by one coroutine at a time; the call outlives its operation
        self.on.start(false, move || unsafe { text(&mut *held, buffers, &*call) })
    }

    #[inline]
    pub fn resume(&mut self, value: u32) -> Out {
        self.on.resume(value)
    }
}

fn text(held: &mut Held<NR, SIZE>, buffers: *mut u8, call: &Call) -> Finish {
    match *call {
        Call::StartUp { .. } => return held.new_driver(buffers, NR),
        Call::Allocate { kind, address, maximum, interval, dir } => {
            return held.allocate(kind, address, maximum, interval, dir)
        }
        Call::Start(maximum) => return held.start_ep0(maximum),
        Call::BusPoll => return held.bus_poll(),
        // SAFETY: after start-up and EP0's start
        Call::Interrupt => unsafe { on_interrupt() },
        Call::SetEnabled { ep, dir, on } => held.bus.as_mut().unwrap().endpoint_set_enabled(address(ep, dir), on),
        Call::SetStalled { ep, dir, on } => held.bus.as_mut().unwrap().endpoint_set_stalled(address(ep, dir), on),
        _ => unreachable!("{call:?} is not measured"),
    }
    Finish::Value(0)
}
