//! The exported calls of `usbhs.h`: the crate's only module with `unsafe`.
#![allow(unsafe_code)]

use core::mem::MaybeUninit;

use crate::exported::*;
use crate::{Answer, Task};

/// The longest buffer.
pub const LONGEST: usize = 1024;

/// The driver's state: bytes that only the driver understands. The archive is compiled for a state on a word boundary.
#[derive(Clone, PartialEq, Eq)]
#[repr(C, align(4))]
pub struct State([u8; STATE_LEN]);

/// Room for the packets, on a word boundary: `N` bytes, as many buffers as start-up names of the size that it names.
#[derive(Clone, PartialEq, Eq)]
#[repr(C, align(4))]
pub struct Slots<const N: usize>(pub [u8; N]);

impl<const N: usize> Slots<N> {
    /// All zero.
    #[must_use]
    pub const fn new() -> Self {
        Self([0; N])
    }
}

impl<const N: usize> Default for Slots<N> {
    fn default() -> Self {
        Self::new()
    }
}

/// The record of bus time that up to four drivers share.
#[derive(Clone, PartialEq, Eq)]
pub struct BusTime([u16; TIME_LEN]);

macro_rules! zeroed {
    ($name:ident, $of:expr) => {
        impl $name {
            /// As it must be before the first start-up.
            #[must_use]
            pub const fn new() -> Self {
                Self($of)
            }
        }

        impl Default for $name {
            fn default() -> Self {
                Self::new()
            }
        }
    };
}

zeroed!(State, [0; STATE_LEN]);
zeroed!(BusTime, [0; TIME_LEN]);

impl BusTime {
    #[cfg(feature = "survey")]
    pub(crate) fn as_ptr(&self) -> *const u16 {
        self.0.as_ptr()
    }

    /// The byte-times of each microframe that are in use, by all drivers of this record.
    #[must_use]
    pub fn in_use(&self) -> u32 {
        // SAFETY: TIME_LEN numbers, which the call only reads
        unsafe { usbhs_time_in_use(self.0.as_ptr()) }
    }
}

/// An endpoint's direction, as the host names it.
#[derive(Clone, Copy, Debug, PartialEq, Eq)]
#[cfg_attr(feature = "defmt", derive(defmt::Format))]
pub enum Direction {
    /// From the host.
    Out = 0,
    /// To the host.
    In = 1,
}

/// An endpoint's transfer type.
#[derive(Clone, Copy, Debug, PartialEq, Eq)]
#[cfg_attr(feature = "defmt", derive(defmt::Format))]
pub enum Transfer {
    /// Requests: setup, data and status.
    Control = 0,
    /// In bus time of its own, never repeated.
    Isochronous = 1,
    /// In the bus time that is left.
    Bulk = 2,
    /// In bus time of its own, repeated until it is through.
    Interrupt = 3,
}

/// An open packet: where it lies in the slots, and the microframe index of the interrupt that admitted it.
#[derive(Clone, Copy, Debug, PartialEq, Eq)]
#[cfg_attr(feature = "defmt", derive(defmt::Format))]
pub struct Packet {
    /// Where it begins in the slots.
    pub offset: u32,
    /// How long it is.
    pub length: u16,
    /// Frame times 8 plus microframe.
    pub stamp: u16,
}

/// `USBHS_MOST_WAKES`.
pub const MOST_WAKES: usize = 64;

/// The tasks that an end wakes, in the order in which they were woken, a task as often as it was.
#[derive(Clone, Copy)]
pub struct Woken {
    /// The first `count` are written.
    room: [MaybeUninit<u8>; MOST_WAKES],
    pub(crate) count: usize,
}

impl Woken {
    /// Nobody.
    #[inline]
    #[must_use]
    pub fn nobody() -> Self {
        let mut woken = MaybeUninit::<Self>::uninit();
        // SAFETY: inside of `woken`; the room may stay as it is, so that nothing but the count is stored
        unsafe {
            (&raw mut (*woken.as_mut_ptr()).count).write(0);
            woken.assume_init()
        }
    }

    /// The tasks.
    #[inline]
    pub fn tasks(&self) -> impl Iterator<Item = Task> + '_ {
        // SAFETY: `ask_woken` counts what the call has written
        self.room.iter().take(self.count).map(|n| Task::of(unsafe { n.assume_init() }))
    }
}

impl core::fmt::Debug for Woken {
    fn fmt(&self, f: &mut core::fmt::Formatter<'_>) -> core::fmt::Result {
        f.debug_list().entries(self.tasks()).finish()
    }
}

/// What [`Port::allocate_all`] would give.
#[derive(Clone, Copy, Debug, PartialEq, Eq)]
#[cfg_attr(feature = "defmt", derive(defmt::Format))]
pub struct Preview {
    /// The endpoints' numbers, `given` of them, zeros behind.
    pub numbers: [u8; NUMBERS_LEN],
    /// How many are given before the first refusal.
    pub given: u16,
    /// How many buffers these take.
    pub buffers: u32,
    /// Why the next one is refused; `None` where all are given.
    pub refusal: Option<crate::Refusal>,
}

/// The driver on what it is lent.
pub struct Port<'a> {
    state: &'a mut State,
    slots: &'a mut [u8],
    time: &'a mut BusTime,
    driver: u32,
}

impl<'a> Port<'a> {
    /// `slots`: as many buffers as start-up is told, of the size that it is told, from a word boundary on (as [`Slots`]
    /// are; else start-up is refused). `driver`: this driver's number in the record of bus time, 0 to 3.
    #[inline]
    pub fn lent(state: &'a mut State, slots: &'a mut [u8], time: &'a mut BusTime, driver: u32) -> Self {
        Self { state, slots, time, driver }
    }

    /// The slots.
    #[inline]
    #[must_use]
    pub fn slots(&mut self) -> &mut [u8] {
        self.slots
    }

    /// The bytes of an open packet; none if it does not lie in the slots.
    #[inline]
    #[must_use]
    pub fn packet(&self, packet: Packet) -> &[u8] {
        let begin = packet.offset as usize;
        self.slots.get(begin..begin.saturating_add(packet.length.into())).unwrap_or_default()
    }

    /// The record of bus time.
    #[inline]
    #[must_use]
    pub fn bus_time(&self) -> &BusTime {
        self.time
    }
}

/// Calls on the state and numbers.
macro_rules! on_numbers {
    ($($(#[$doc:meta])* $name:ident($($arg:ident: $of:ty),*) = $call:ident($($word:expr),*);)*) => {
        impl Port<'_> {
            $($(#[$doc])*
            #[inline]
            pub fn $name(&mut self $(, $arg: $of)*) -> Answer {
                // SAFETY: STATE_LEN bytes, lent to nobody else; any bytes and any numbers are safe
                Answer::of(unsafe { $call(self.state.0.as_mut_ptr() $(, $word)*) })
            })*
        }
    };
}

on_numbers! {
    /// An endpoint, between start-up and EP0's start; ends with its number. `address` as in an endpoint descriptor,
    /// bit 7 the direction, or `None` for any. An isochronous OUT takes 16 buffers, an isochronous IN 2, others 1.
    allocate(transfer: Transfer, address: Option<u8>, maximum: u16, interval: u8, direction: Direction) =
        usbhs_allocate(transfer as u32, address.map_or(ANY_ADDRESS, u32::from), maximum.into(), interval.into(),
            direction as u32);
    /// EP0's start; its maximum is 64.
    start(maximum: u16) = usbhs_start(maximum.into());
    /// The chip's interrupt.
    begin_interrupt() = usbhs_begin_interrupt();
    /// Ends with the event, [`crate::Event::of`].
    begin_bus_poll() = usbhs_begin_bus_poll();
    /// Attaches to the bus.
    begin_bus_enable() = usbhs_begin_bus_enable();
    /// Detaches from the bus.
    begin_bus_disable() = usbhs_begin_bus_disable();
    /// Stalls an endpoint, or ends that.
    begin_set_stalled(endpoint: u8, direction: Direction, stalled: bool) =
        usbhs_begin_set_stalled(endpoint.into(), direction as u32, stalled.into());
    /// Ends with 1 if the endpoint is stalled, else 0.
    begin_is_stalled(endpoint: u8, direction: Direction) = usbhs_begin_is_stalled(endpoint.into(), direction as u32);
    /// An isochronous IN is paced by advances, or by each start of frame. Over at once.
    set_paced(endpoint: u8, paced: bool) = usbhs_set_paced(endpoint.into(), paced.into());
    /// The host took a packet of a paced isochronous IN in each microframe since the last advance.
    begin_advance(endpoint: u8) = usbhs_begin_advance(endpoint.into());
    /// Ends with the microframe index, frame times 8 plus microframe.
    begin_microframe() = usbhs_begin_microframe();
    /// A read of at most `length` bytes; [`Port::poll_read`] brings a slice as long.
    begin_read(endpoint: u8, length: u32) = usbhs_begin_read(endpoint.into(), length);
    /// Waits for a setup packet.
    begin_setup() = usbhs_begin_setup();
    /// A packet of the data stage from the host; [`Port::poll_data_out`] brings a slice as long.
    begin_data_out(length: u32, first: bool) = usbhs_begin_data_out(length, first.into());
    /// Whether the packet of the data stage to the host went out (and, the last, was closed).
    poll_data_in() = usbhs_poll_data_in();
    /// The status stage after data from the host, or after none.
    begin_accept() = usbhs_begin_accept();
    /// The same of a new address, modulo 128, which is written when the stage is through.
    begin_accept_set_address(address: u8) = usbhs_begin_accept_set_address(address.into());
    /// Whether the status stage is through; of a new address this hands out its write.
    poll_accept() = usbhs_poll_accept();
    /// Stalls the control request.
    begin_reject() = usbhs_begin_reject();
    /// Closes the open packet of an isochronous OUT. Over at once.
    close(endpoint: u8) = usbhs_close(endpoint.into());
}

impl Port<'_> {
    /// Start-up, on slots of `count` times `size` bytes; `callback`: there is a start-of-frame callback.
    #[inline]
    pub fn start_up(&mut self, size: u32, count: u32, callback: bool) -> Answer {
        if self.slots.as_ptr() as usize % 4 != 0 {
            return Answer::Refused(crate::Refusal::Misaligned);
        }
        let (s, b, n, t) =
            (self.state.0.as_mut_ptr(), self.slots.as_ptr(), length(self.slots), self.time.0.as_mut_ptr());
        // SAFETY: a constant of the archive, read so that an archive of another version does not link
        unsafe { core::ptr::read_volatile(core::ptr::addr_of!(ARCHIVE)) };
        // SAFETY: state and time of their lengths, the slots with theirs; lent apart, to nobody else
        Answer::of(unsafe { usbhs_start_up(s, b, n, t, self.driver, size, count, callback.into()) })
    }

    /// Goes on with the operation under way; `reading`: what was asked for, any number after a write or a wait.
    #[inline]
    pub fn go_on(&mut self, reading: u32) -> Answer {
        Answer::of(self.go_on_word(reading))
    }

    /// The same, the answer as its word.
    #[inline]
    pub(crate) fn go_on_word(&mut self, reading: u32) -> u64 {
        let (s, b, n) = (self.state.0.as_mut_ptr(), self.slots.as_mut_ptr(), length(self.slots));
        // SAFETY: as in `start_up`
        unsafe { usbhs_continue(s, b, n, self.time.0.as_mut_ptr(), self.driver, reading) }
    }

    /// The chip's interrupt with its first two readings: [`Port::begin_interrupt`], then a [`Port::go_on`] with each, as
    /// long as it is asked for.
    #[inline]
    pub fn interrupt(&mut self, frame_no: u32, int_fg: u32) -> Answer {
        let (s, b, n) = (self.state.0.as_mut_ptr(), self.slots.as_mut_ptr(), length(self.slots));
        // SAFETY: as in `start_up`
        Answer::of(unsafe { usbhs_interrupt(s, b, n, self.time.0.as_mut_ptr(), self.driver, frame_no, int_fg) })
    }

    /// Goes on with a transfer's three readings: a [`Port::go_on`] with each, as long as it is asked for.
    #[inline]
    pub fn go_on_transfer(&mut self, mis_st: u32, int_st: u32, rx_len: u32) -> Answer {
        let (s, b, n, t) =
            (self.state.0.as_mut_ptr(), self.slots.as_mut_ptr(), length(self.slots), self.time.0.as_mut_ptr());
        // SAFETY: as in `start_up`
        Answer::of(unsafe { usbhs_continue_transfer(s, b, n, t, self.driver, mis_st, int_st, rx_len) })
    }

    /// The chip's interrupt with five readings, which are to be made first, in this order: what the chip shows is
    /// overwritten by the next token. [`Port::begin_interrupt`], then a [`Port::go_on`] with each, as long as it is
    /// asked for.
    pub fn interrupt_transfer(&mut self, frame_no: u32, int_fg: u32, mis_st: u32, int_st: u32, rx_len: u32) -> Answer {
        let (s, b, n, t) =
            (self.state.0.as_mut_ptr(), self.slots.as_mut_ptr(), length(self.slots), self.time.0.as_mut_ptr());
        // SAFETY: as in `start_up`
        Answer::of(unsafe {
            usbhs_interrupt_transfer(s, b, n, t, self.driver, frame_no, int_fg, mis_st, int_st, rx_len)
        })
    }

    /// Goes on after the write that clears the transfer's flag: a [`Port::go_on`], and one with frame_no if it is asked
    /// for.
    pub fn go_on_released(&mut self, frame_no: u32) -> Answer {
        let (s, b, n) = (self.state.0.as_mut_ptr(), self.slots.as_mut_ptr(), length(self.slots));
        // SAFETY: as in `start_up`
        Answer::of(unsafe { usbhs_continue_released(s, b, n, self.time.0.as_mut_ptr(), self.driver, frame_no) })
    }

    /// Goes on where mis_st is asked for again and again: `looks` of [`Port::go_on`] with `busy`, then one with `last`,
    /// as long as mis_st is asked for.
    pub fn go_on_looks(&mut self, looks: u32, busy: u32, last: u32) -> Answer {
        let (s, b, n, t) =
            (self.state.0.as_mut_ptr(), self.slots.as_mut_ptr(), length(self.slots), self.time.0.as_mut_ptr());
        // SAFETY: as in `start_up`
        Answer::of(unsafe { usbhs_continue_looks(s, b, n, t, self.driver, looks, busy, last) })
    }

    /// Enables or disables an endpoint; refused with 19 where there is no bus time for it.
    #[inline]
    pub fn begin_set_enabled(&mut self, endpoint: u8, direction: Direction, enabled: bool) -> Answer {
        let (s, b, n, t) =
            (self.state.0.as_mut_ptr(), self.slots.as_mut_ptr(), length(self.slots), self.time.0.as_mut_ptr());
        let (endpoint, direction, enabled) = (endpoint.into(), direction as u32, enabled.into());
        // SAFETY: as in `start_up`
        Answer::of(unsafe { usbhs_begin_set_enabled(s, b, n, t, self.driver, endpoint, direction, enabled) })
    }

    /// All endpoints of a configuration descriptor as one operation, or none; ends with how many there are.
    #[inline]
    pub fn allocate_all(&mut self, descriptor: &[u8]) -> Answer {
        // SAFETY: state and descriptor with their lengths, lent apart
        Answer::of(unsafe { usbhs_allocate_all(self.state.0.as_mut_ptr(), descriptor.as_ptr(), length(descriptor)) })
    }

    /// What [`Port::allocate`] of each endpoint would give, up to the first refusal; nothing is allocated.
    #[inline]
    pub fn preview(&self, descriptor: &[u8]) -> Result<Preview, crate::Refusal> {
        let (mut numbers, mut buffers, mut row) = ([0; NUMBERS_LEN], 0, 0);
        let (bytes, n) = (descriptor.as_ptr(), length(descriptor));
        // SAFETY: as in `allocate_all`; the state is only read, and the rooms are as long as the call says
        let word =
            unsafe { usbhs_preview(self.state.0.as_ptr(), bytes, n, numbers.as_mut_ptr(), &mut buffers, &mut row) };
        let given = Answer::of(word).ended()?;
        Ok(Preview { numbers, given, buffers, refusal: (row != 0).then(|| crate::Refusal::of(row as u8)) })
    }

    /// A read's packet, in the slice's front.
    #[inline]
    pub fn poll_read(&mut self, endpoint: u8, slice: &mut [u8]) -> Answer {
        let (s, b, n) = (self.state.0.as_mut_ptr(), self.slots.as_ptr(), length(self.slots));
        // SAFETY: state, slots and slice with their lengths, lent apart
        Answer::of(unsafe { usbhs_poll_read(s, b, n, endpoint.into(), slice.as_mut_ptr(), length(slice)) })
    }

    /// A write of one packet.
    #[inline]
    pub fn begin_write(&mut self, endpoint: u8, data: &[u8]) -> Answer {
        let (s, b, n) = (self.state.0.as_mut_ptr(), self.slots.as_mut_ptr(), length(self.slots));
        // SAFETY: state, slots and data with their lengths, lent apart
        Answer::of(unsafe { usbhs_begin_write(s, b, n, endpoint.into(), data.as_ptr(), length(data)) })
    }

    /// Whether the packet, which is brought again, is written.
    #[inline]
    pub fn poll_write(&mut self, endpoint: u8, data: &[u8]) -> Answer {
        let (s, b, n) = (self.state.0.as_mut_ptr(), self.slots.as_mut_ptr(), length(self.slots));
        // SAFETY: as in `begin_write`
        Answer::of(unsafe { usbhs_poll_write(s, b, n, endpoint.into(), data.as_ptr(), length(data)) })
    }

    /// The setup packet.
    #[inline]
    pub fn poll_setup(&mut self, packet: &mut [u8; 8]) -> Answer {
        // SAFETY: state and packet of their lengths, lent apart
        Answer::of(unsafe { usbhs_poll_setup(self.state.0.as_mut_ptr(), packet.as_mut_ptr()) })
    }

    /// The data stage's packet, in the slice's front.
    #[inline]
    pub fn poll_data_out(&mut self, slice: &mut [u8]) -> Answer {
        let (s, b, n) = (self.state.0.as_mut_ptr(), self.slots.as_ptr(), length(self.slots));
        // SAFETY: as in `poll_read`
        Answer::of(unsafe { usbhs_poll_data_out(s, b, n, slice.as_mut_ptr(), length(slice)) })
    }

    /// A packet of the data stage to the host.
    #[inline]
    pub fn begin_data_in(&mut self, data: &[u8], first: bool, last: bool) -> Answer {
        let (s, b, n) = (self.state.0.as_mut_ptr(), self.slots.as_mut_ptr(), length(self.slots));
        let (first, last) = (first.into(), last.into());
        // SAFETY: as in `begin_write`
        Answer::of(unsafe { usbhs_begin_data_in(s, b, n, data.as_ptr(), length(data), first, last) })
    }

    /// The oldest packet of an isochronous OUT, in place: it stays until [`Port::close`]. One reader per endpoint: a
    /// second open before the close shows the same packet again.
    #[inline]
    pub fn open(&mut self, endpoint: u8) -> Result<Packet, crate::Refusal> {
        let mut stamp = 0;
        let (s, b, n) = (self.state.0.as_mut_ptr(), self.slots.as_ptr(), length(self.slots));
        // SAFETY: state and slots with their lengths, the stamp one number
        match Answer::of(unsafe { usbhs_open(s, b, n, endpoint.into(), &mut stamp) }) {
            Answer::Shown { offset, length } => Ok(Packet { offset, length, stamp }),
            answer => answer.ended().and(Err(crate::Refusal::NoPacket)),
        }
    }

    /// Queues a packet on an isochronous IN. Over at once.
    #[inline]
    pub fn queue(&mut self, endpoint: u8, data: &[u8]) -> Answer {
        let (s, b, n) = (self.state.0.as_mut_ptr(), self.slots.as_mut_ptr(), length(self.slots));
        // SAFETY: as in `begin_write`
        Answer::of(unsafe { usbhs_queue(s, b, n, endpoint.into(), data.as_ptr(), length(data)) })
    }

    /// The tasks to wake, of an end that has some: to be asked before the next call.
    #[inline]
    pub fn ask_woken(&self, answer: Answer, woken: &mut Woken) {
        if matches!(answer, Answer::End { wakes: 1.., .. }) {
            // SAFETY: the state is only read; the room has MOST_WAKES bytes, and as many are written as is answered
            let count = unsafe { usbhs_woken(self.state.0.as_ptr(), woken.room.as_mut_ptr().cast()) };
            woken.count = MOST_WAKES.min(count as usize);
        }
    }

    /// How many packets are queued on an IN.
    #[inline]
    #[must_use]
    pub fn pending(&self, endpoint: u8) -> u32 {
        // SAFETY: the state is only read
        unsafe { usbhs_pending(self.state.0.as_ptr(), endpoint.into()) }
    }

    /// How many packets of an OUT were turned away.
    #[inline]
    #[must_use]
    pub fn overruns(&self, endpoint: u8) -> u32 {
        // SAFETY: the state is only read
        unsafe { usbhs_overruns(self.state.0.as_ptr(), endpoint.into()) }
    }

    /// Whether the host enabled the endpoint.
    #[inline]
    #[must_use]
    pub fn enabled(&self, endpoint: u8, direction: Direction) -> bool {
        // SAFETY: the state is only read
        unsafe { usbhs_enabled(self.state.0.as_ptr(), endpoint.into(), direction as u32) == 1 }
    }
}
