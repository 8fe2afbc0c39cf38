//! The free functions: isochronous packets in place, and what is asked from the start-of-frame callback.

use core::sync::atomic::{AtomicU16, Ordering};
use core::task::Waker;

use embassy_usb_driver::Direction;
use usbhs_port::{Answer, Refusal, LONGEST};

use super::lent::{self, call, Free};
use super::{dir, ISO_IN_SLOTS, MAX_NR_EP, WAKERS};

/// Pacing and advances that came while an operation was under way, or before EP0's start: a bit each. They are made up
/// for at the operation's end.
pub(super) static PACE: AtomicU16 = AtomicU16::new(0);
pub(super) static PACED: AtomicU16 = AtomicU16::new(0);
pub(super) static ADVANCE: AtomicU16 = AtomicU16::new(0);
/// Isochronous IN endpoints, a bit each: `iso_in_fill` does not run its closure for others.
pub(super) static ISO_IN: AtomicU16 = AtomicU16::new(0);

/// Sets or clears a bit, masked: a chip without atomic read-modify-write has none.
fn set(mask: &AtomicU16, ep: u8, on: bool) {
    critical_section::with(|_| {
        let bits = mask.load(Ordering::Relaxed);
        mask.store(if on { bits | 1 << ep } else { bits & !(1 << ep) }, Ordering::Relaxed);
    });
}

/// A new driver has no isochronous IN yet.
pub(super) fn forget() {
    ISO_IN.store(0, Ordering::Relaxed);
}

pub(super) fn is_iso_in(ep: usize) {
    set(&ISO_IN, ep as u8 & 15, true);
}

/// What could not be done while the operation that is over now was under way.
#[inline]
pub(super) fn deferred() {
    if (PACE.load(Ordering::Relaxed) | ADVANCE.load(Ordering::Relaxed)) != 0 {
        make_up();
    }
}

#[cold]
#[inline(never)]
fn make_up() {
    for (mask, paced) in [(&PACE, true), (&ADVANCE, false)] {
        let mut eps = critical_section::with(|_| {
            let eps = mask.load(Ordering::Relaxed);
            mask.store(0, Ordering::Relaxed);
            eps
        });
        while eps != 0 {
            let ep = eps.trailing_zeros() as usize;
            eps &= eps - 1;
            if paced {
                iso_in_set_paced(ep, PACED.load(Ordering::Relaxed) & 1 << ep != 0);
            } else {
                iso_in_advance(ep);
            }
        }
    }
}

/// By the driver that exists, if one does.
fn by_driver(what: Free) -> Option<Answer> {
    lent::with(|l| l.free).map(|f| f(what))
}

/// 1 to 15.
fn number(ep: usize) -> Option<u8> {
    (1..MAX_NR_EP).contains(&ep).then_some(ep as u8)
}

/// Call `f` from the USB interrupt on every SOF (every 125 us microframe at high speed).
/// Keep it short: it delays every other USB completion.
pub fn set_sof_callback(f: fn()) {
    lent::with(|l| l.callback = Some(f));
    let _ = by_driver(Free::Sof);
}

/// The current microframe number: 8 per frame, wrapping at 2^14. Read from the frame number register, so it also
/// counts microframes whose SOF interrupt was missed.
pub fn microframe() -> u16 {
    let index = |what| by_driver(what).map_or(Ok(0), Answer::ended);
    // refused from the callback, or before EP0's start
    index(Free::Microframe).or_else(|_| index(Free::Frame)).unwrap_or(0)
}

/// Whether the host enabled endpoint `ep` in `direction` (of an isochronous one: selected its interface's streaming
/// alternate setting).
pub fn endpoint_enabled(ep: usize, direction: Direction) -> bool {
    ep < MAX_NR_EP && call(|p| p.enabled(ep as u8, dir(direction)))
}

/// Take the oldest packet waiting on isochronous OUT endpoint `ep`, in place: `f` reads it, then its slot goes back to
/// the ring. `None`: no packet waits, or it is no isochronous OUT. Callable from interrupts.
///
/// **One reader per endpoint**: two that take at once get one packet twice. `f` runs unmasked.
pub fn iso_out_take<R>(ep: usize, f: impl FnOnce(&[u8]) -> R) -> Option<R> {
    iso_out_take_stamped(ep, |packet, _| f(packet))
}

/// As `iso_out_take`, with the microframe index of the interrupt that admitted the packet (request One). The Rust has
/// none. One reader per endpoint.
pub fn iso_out_take_stamped<R>(ep: usize, f: impl FnOnce(&[u8], u16) -> R) -> Option<R> {
    let ep = number(ep)?;
    let packet = call(|p| p.open(ep)).ok()?;
    let r = lent::on_packet(packet, |bytes| f(bytes, packet.stamp));
    // refused with 14 where a reset voided the packet meanwhile
    let _ = call(|p| p.close(ep));
    Some(r)
}

/// Packets dropped because isochronous OUT endpoint `ep`'s ring was full (the newest packet is dropped), since the
/// driver was created. 0 for an endpoint that is not isochronous OUT.
pub fn iso_out_overruns(ep: usize) -> u32 {
    number(ep).map_or(0, |ep| call(|p| p.overruns(ep)))
}

/// Wake `waker` when isochronous IN endpoint `ep` sends a packet (a slot frees up), to refill it from a task. One
/// waiter per endpoint, shared with the endpoint's `write`.
pub fn iso_in_register_waker(ep: usize, waker: &Waker) {
    if let Some(ep) = number(ep) {
        WAKERS[ep as usize].register(waker);
    }
}

/// Packets queued on isochronous IN endpoint `ep` and not yet taken by the host, the loaded one among them.
pub fn iso_in_pending(ep: usize) -> u8 {
    number(ep).map_or(0, |ep| call(|p| p.pending(ep)) as u8)
}

/// Pace isochronous IN endpoint `ep` (polled every microframe) from outside: the interrupt no longer moves it on after
/// an IN; [`iso_in_advance`] does, called once in each microframe after the host's IN to it and well before the next.
///
/// When: a host polls an isochronous IN early in the microframe (about 3 us after the SOF on Linux), and the interrupt
/// mostly cannot tell that it went out until the next SOF. Loading the next packet there races the host, and now and
/// then the loaded packet goes out again. A timer some way into the microframe has tens of microseconds on either side.
pub fn iso_in_set_paced(ep: usize, paced: bool) {
    if let Some(ep) = number(ep) {
        critical_section::with(|_| {
            set(&PACED, ep, paced);
            if let Answer::Refused(_) = call(|p| p.set_paced(ep, paced)) {
                set(&PACE, ep, true);
            }
        });
    }
}

/// A paced iso IN endpoint (`iso_in_set_paced`): the host took a packet in each microframe since the last call; they
/// move on and the next queued packet is loaded. Call it at the USB interrupt's priority or below, some way into the
/// microframe: after the host's IN, before the next microframe's.
pub fn iso_in_advance(ep: usize) {
    if let Some(ep) = number(ep) {
        if by_driver(Free::Advance(ep)) == Some(Answer::Refused(Refusal::UnderWay)) {
            set(&ADVANCE, ep, true);
        }
    }
}

/// Queue one packet on isochronous IN endpoint `ep`; callable from interrupts. `false`: not queued (ring full, endpoint
/// not enabled or not isochronous, packet too long). One producer per endpoint.
pub fn iso_in_prime(ep: usize, data: &[u8]) -> bool {
    number(ep).is_some_and(|ep| call(|p| p.queue(ep, data)).ended().is_ok())
}

/// Build one packet on isochronous IN endpoint `ep` and queue it. `f` fills one endpoint buffer and returns the
/// packet's length. Unlike the Rust's, the buffer is one on the stack, zero at first, which is then copied.
pub fn iso_in_fill(ep: usize, f: impl FnOnce(&mut [u8]) -> usize) -> bool {
    if !endpoint_enabled(ep, Direction::In)
        || ISO_IN.load(Ordering::Relaxed) & 1 << ep == 0
        || iso_in_pending(ep) as usize >= ISO_IN_SLOTS
    {
        return false;
    }
    let size = lent::with(|l| l.size).min(LONGEST);
    let mut packet = [0; LONGEST];
    let len = f(&mut packet[..size]).min(size);
    iso_in_prime(ep, &packet[..len])
}
