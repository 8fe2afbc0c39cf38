//! What a driver is lent, and its exported calls (include/usbhs.h) on that.

use oracle::Call;

use crate::exported::*;

/// At least as long as the port's state.
const STATE: usize = 4096;

/// What slices are filled with where a call may leave them as they are.
pub const FILLED: u8 = 0xA7;

/// The state's bytes, the slots, the record of bus time.
#[derive(Clone, PartialEq)]
pub struct Lent {
    pub state: Vec<u8>,
    pub slots: Vec<u8>,
    pub time: [u16; TIME_LEN],
}

impl Lent {
    /// As before the first start-up, with slots of this length.
    pub fn new(slots: usize) -> Self {
        Self { state: vec![0; STATE], slots: vec![0; slots], time: [0; TIME_LEN] }
    }

    /// Where state and slots are, the slots' length, where the record is.
    #[inline]
    pub fn parts(&mut self) -> (*mut u8, *mut u8, Length, *mut u16) {
        let n = length(&self.slots);
        (self.state.as_mut_ptr(), self.slots.as_mut_ptr(), n, self.time.as_mut_ptr())
    }

    /// The word that a call answers, by this driver's number in the record. `slice`: what a poll brings, of a write its
    /// data; `stamp`: the room of an open.
    #[inline]
    pub fn made(&mut self, driver: u32, call: &Call, slice: &mut [u8], stamp: &mut u16) -> u64 {
        let (s, p, n, t) = self.parts();
        let m = length(slice);
        // SAFETY: the exported calls are total; the state is longer than theirs, every slice is given with its length
        unsafe {
            match *call {
                Call::StartUp { size, count, callback } => {
                    usbhs_start_up(s, p, n, t, driver, size, count, callback as u32)
                }
                Call::Continue(value) => usbhs_continue(s, p, n, t, driver, value),
                Call::Allocate { kind, address, maximum, interval, dir } => {
                    let address = address.map_or(ANY_ADDRESS, u32::from);
                    usbhs_allocate(s, kind as u32, address, maximum as u32, interval as u32, dir as u32)
                }
                Call::Start(maximum) => usbhs_start(s, maximum as u32),
                Call::Interrupt => usbhs_begin_interrupt(s),
                Call::BusPoll => usbhs_begin_bus_poll(s),
                Call::BusEnable => usbhs_begin_bus_enable(s),
                Call::BusDisable => usbhs_begin_bus_disable(s),
                Call::SetEnabled { ep, dir, on } => {
                    usbhs_begin_set_enabled(s, p, n, t, driver, ep as u32, dir as u32, on as u32)
                }
                Call::SetStalled { ep, dir, on } => usbhs_begin_set_stalled(s, ep as u32, dir as u32, on as u32),
                Call::IsStalled { ep, dir } => usbhs_begin_is_stalled(s, ep as u32, dir as u32),
                Call::SetPaced { ep, on } => usbhs_set_paced(s, ep as u32, on as u32),
                Call::Advance(ep) => usbhs_begin_advance(s, ep as u32),
                Call::Microframe => usbhs_begin_microframe(s),
                Call::Read { ep, length } => usbhs_begin_read(s, ep as u32, length),
                Call::PollRead(ep) => usbhs_poll_read(s, p, n, ep as u32, slice.as_mut_ptr(), m),
                Call::Write { ep, ref data } => usbhs_begin_write(s, p, n, ep as u32, data.as_ptr(), length(data)),
                Call::PollWrite(ep) => usbhs_poll_write(s, p, n, ep as u32, slice.as_ptr(), m),
                Call::Setup => usbhs_begin_setup(s),
                Call::PollSetup => {
                    let mut packet = [FILLED; 8];
                    let a = usbhs_poll_setup(s, packet.as_mut_ptr());
                    slice.iter_mut().zip(packet).for_each(|(to, b)| *to = b);
                    a
                }
                Call::DataOut { length, first } => usbhs_begin_data_out(s, length, first as u32),
                Call::PollDataOut => usbhs_poll_data_out(s, p, n, slice.as_mut_ptr(), m),
                Call::DataIn { ref data, first, last } => {
                    usbhs_begin_data_in(s, p, n, data.as_ptr(), length(data), first as u32, last as u32)
                }
                Call::PollDataIn => usbhs_poll_data_in(s),
                Call::Accept => usbhs_begin_accept(s),
                Call::AcceptSetAddress(address) => usbhs_begin_accept_set_address(s, address as u32),
                Call::PollAccept => usbhs_poll_accept(s),
                Call::Reject => usbhs_begin_reject(s),
                Call::Open(ep) => usbhs_open(s, p, n, ep as u32, stamp),
                Call::Close(ep) => usbhs_close(s, ep as u32),
                Call::Queue { ep, ref data } => usbhs_queue(s, p, n, ep as u32, data.as_ptr(), length(data)),
                Call::Pending(ep) => usbhs_pending(s, ep as u32).into(),
                Call::Overruns(ep) => usbhs_overruns(s, ep as u32).into(),
                Call::Enabled { ep, dir } => usbhs_enabled(s, ep as u32, dir as u32).into(),
                Call::Store { .. } | Call::Fill(_) => unreachable!("{call:?} is no call of the driver"),
            }
        }
    }

    /// The word of a call that brings no slice and is no open, by driver 0.
    pub fn plain(&mut self, call: &Call) -> u64 {
        self.made(0, call, &mut [], &mut 0)
    }
}
