//! What the driver was asked and what it did, in a ring (the feature `trace`). `usbhs replay --trace` of this
//! repository replays it at a desk and draws it.
//!
//! [`Traced`] is an [`Access`] around your own; its [`Traced::run`] notes a call, its accesses and its end. Send
//! [`Ring::front`] and [`Ring::entries`] to where they can be kept, or read the ring with a debugger: it lies in memory
//! as `usbhs replay --trace` takes it.
//!
//! ```
//! use usbhs_port::trace::{Noted, Ring, Traced};
//! # use usbhs_port::{Access, BusTime, Port, Register, State, Task};
//! # struct Idle;
//! # impl Access for Idle {
//! #     fn read(&mut self, register: Register, _endpoint: u8) -> u32 { (register == Register::MisSt) as u32 }
//! #     fn write(&mut self, _register: Register, _endpoint: u8, _value: u32) {}
//! #     fn wait(&mut self, _microseconds: u8) {}
//! #     fn callback(&mut self) {}
//! #     fn wake(&mut self, _task: Task) {}
//! # }
//! let (mut state, mut time, mut slots) = (State::new(), BusTime::new(), [0; 24 * 64]);
//! let mut port = Port::lent(&mut state, &mut slots, &mut time, 0);
//! let mut ring = Ring::<256>::new();
//! let mut chip = Traced { access: Idle, ring: &mut ring };
//! chip.run(&mut port, Noted::start_up(64, 24, false), |p| p.start_up(64, 24, false)).ended().unwrap();
//! // a call, its accesses, its end
//! assert!(ring.entries().count() > 5);
//! ```

use crate::{run, Access, Answer, Direction, Lend, Port, Register, Task, Transfer};

/// An entry's bytes: a word of 8, a reading of 4, lowest first.
pub const ENTRY_LEN: usize = 12;

/// Of a card's trace: the kind of an entry that says how many are missing.
const LOST: u8 = 13;

/// A call with its numbers, as the ring has it.
#[derive(Clone, Copy, Debug, PartialEq, Eq)]
#[cfg_attr(feature = "defmt", derive(defmt::Format))]
pub struct Noted {
    number: u8,
    a: u16,
    b: u32,
    c: u32,
}

impl Noted {
    /// Any call, by its number in `firmware/trace.h`, which says what its numbers are.
    #[must_use]
    pub const fn call(number: u8, a: u16, b: u32, c: u32) -> Self {
        Self { number, a, b, c }
    }

    /// [`Port::start_up`].
    #[must_use]
    pub const fn start_up(size: u32, count: u32, callback: bool) -> Self {
        Self::call(0, size as u16, count, callback as u32)
    }

    /// [`Port::allocate`].
    #[must_use]
    pub fn allocate(t: Transfer, address: Option<u8>, maximum: u16, interval: u8, dir: Direction) -> Self {
        let address = address.map_or(256, u16::from);
        Self::call(2, t as u16 | (dir as u16) << 2 | address << 3, maximum.into(), interval.into())
    }

    /// [`Port::start`].
    #[must_use]
    pub const fn start(maximum: u16) -> Self {
        Self::call(3, maximum, 0, 0)
    }

    /// [`Port::begin_interrupt`].
    #[must_use]
    pub const fn interrupt() -> Self {
        Self::call(4, 0, 0, 0)
    }

    /// [`Port::begin_bus_poll`].
    #[must_use]
    pub const fn bus_poll() -> Self {
        Self::call(5, 0, 0, 0)
    }

    /// [`Port::begin_bus_enable`].
    #[must_use]
    pub const fn bus_enable() -> Self {
        Self::call(6, 0, 0, 0)
    }

    /// [`Port::begin_set_enabled`].
    #[must_use]
    pub fn set_enabled(endpoint: u8, dir: Direction, enabled: bool) -> Self {
        Self::call(8, endpoint.into(), dir as u32, enabled.into())
    }

    /// [`Port::open`].
    #[must_use]
    pub fn open(endpoint: u8) -> Self {
        Self::call(28, endpoint.into(), 0, 0)
    }

    /// [`Port::close`].
    #[must_use]
    pub fn close(endpoint: u8) -> Self {
        Self::call(29, endpoint.into(), 0, 0)
    }

    /// [`Port::queue`] of so many bytes.
    #[must_use]
    pub fn queue(endpoint: u8, length: u32) -> Self {
        Self::call(30, endpoint.into(), length, 0)
    }
}

/// The last `N` entries. In memory as the desk's tool takes it.
#[derive(Clone, Debug)]
#[repr(C)]
pub struct Ring<const N: usize> {
    magic: [u8; 4],
    size: [u8; 4],
    count: [u8; 4],
    ring: [[u8; ENTRY_LEN]; N],
}

impl<const N: usize> Default for Ring<N> {
    fn default() -> Self {
        Self::new()
    }
}

impl<const N: usize> Ring<N> {
    /// Nothing is noted.
    #[must_use]
    pub const fn new() -> Self {
        const { assert!(N > 0 && N <= 1 << 20) };
        Self { magic: *b"USTR", size: (N as u32).to_le_bytes(), count: [0; 4], ring: [[0; ENTRY_LEN]; N] }
    }

    fn count(&self) -> usize {
        u32::from_le_bytes(self.count) as usize
    }

    /// Notes an answer's word and the reading that its access brought. The entry's place, for a reading that comes
    /// later.
    fn note(&mut self, word: u64, reading: u32) -> usize {
        let at = self.count() % N;
        let [a, b, c, d, e, f, g, h] = word.to_le_bytes();
        let [i, j, k, l] = reading.to_le_bytes();
        if let Some(entry) = self.ring.get_mut(at) {
            *entry = [a, b, c, d, e, f, g, h, i, j, k, l];
        }
        // behind the last number the ring stays full
        let next = match self.count().checked_add(1) {
            Some(next) if next <= u32::MAX as usize => next as u32,
            _ => (u32::MAX as usize / N * N - N + at + 1) as u32,
        };
        self.count = next.to_le_bytes();
        at
    }

    /// Notes a call before it is made.
    pub fn call(&mut self, call: Noted) {
        let Noted { number, a, b, c } = call;
        self.note(15 | u64::from(number) << 8 | u64::from(a) << 16 | u64::from(b) << 32, c);
    }

    /// Notes an answer.
    pub fn answer(&mut self, answer: Answer) {
        self.note(answer.word(), 0);
    }

    /// The ring's front as bytes: what it is, how many entries it holds, how many were ever made.
    #[must_use]
    pub fn front(&self) -> [u8; ENTRY_LEN] {
        let [[a, b, c, d], [e, f, g, h], [i, j, k, l]] = [self.magic, self.size, self.count];
        [a, b, c, d, e, f, g, h, i, j, k, l]
    }

    /// The entries, the oldest first: for records of kind 4 on the recorder's endpoint.
    pub fn entries(&self) -> impl Iterator<Item = &[u8; ENTRY_LEN]> {
        let all = self.count();
        let from = all.saturating_sub(N);
        (from..all).filter_map(|i| self.ring.get(i % N))
    }

    /// The ring's next entries as a record of kind 4 for the recorder's endpoint (docs/TOOL.md), in the room's front,
    /// from entry `from` on, which is 0 at first: the record's length, 0 where there is no more. The room holds two
    /// entries at least. Where entries were written over before, the record says so, and how many.
    ///
    /// ```
    /// # use usbhs_port::trace::{Noted, Ring};
    /// let (mut ring, mut from, mut room) = (Ring::<4>::new(), 0, [0; 66]);
    /// ring.call(Noted::bus_poll());
    /// assert_eq!(ring.record(&mut room, 7, &mut from), 6 + 12); // one entry
    /// assert_eq!(ring.record(&mut room, 7, &mut from), 0);
    /// // `recorder.record(RECORDER, &room[..length], overruns)` puts it onto the card
    /// ```
    pub fn record(&self, room: &mut [u8], survey: u32, from: &mut u32) -> usize {
        let (count, all) = (u32::from_le_bytes(self.count), N as u32);
        // behind its last number the count goes back: then it is not known how many there were
        let new = count.checked_sub(*from).unwrap_or(u32::MAX);
        let Some((head, rest)) = room.split_at_mut_checked(6) else { return 0 };
        if new == 0 || rest.len() < 2 * ENTRY_LEN {
            return 0;
        }
        let [a, b, c, d] = survey.to_le_bytes();
        head.copy_from_slice(&[4, 0, a, b, c, d]);
        let (mut places, mut length) = (rest.chunks_exact_mut(ENTRY_LEN), 6);
        if new > all {
            let [a, b, c, d] = (new - all).to_le_bytes();
            places.next().unwrap_or_default().copy_from_slice(&[LOST, 0, 0, 0, a, b, c, d, 0, 0, 0, 0]);
            *from = count.wrapping_sub(all);
            length += ENTRY_LEN;
        }
        while let (true, Some(place)) = (*from != count, places.next()) {
            place.copy_from_slice(self.ring.get(*from as usize % N).unwrap_or(&[0; ENTRY_LEN]));
            *from = from.wrapping_add(1);
            length += ENTRY_LEN;
        }
        length
    }

    /// The entries as they lie in the ring, all of them: behind [`Ring::front`] what a debugger reads.
    pub fn in_place(&self) -> impl Iterator<Item = &[u8; ENTRY_LEN]> {
        self.ring.iter()
    }
}

/// An access whose every step is noted.
pub struct Traced<'a, A: Access, const N: usize> {
    /// Your own.
    pub access: A,
    /// Where it is noted.
    pub ring: &'a mut Ring<N>,
}

impl<A: Access, const N: usize> Traced<'_, A, N> {
    /// [`run()`], with the call before it and the answer behind it noted.
    pub fn run(&mut self, lend: &mut impl Lend, call: Noted, make: impl FnOnce(&mut Port<'_>) -> Answer) -> Answer {
        self.ring.call(call);
        let answer = run(lend, self, make);
        self.ring.answer(answer);
        answer
    }
}

impl<A: Access, const N: usize> Access for Traced<'_, A, N> {
    fn read(&mut self, register: Register, endpoint: u8) -> u32 {
        let reading = self.access.read(register, endpoint);
        self.ring.note(Answer::Read { register, endpoint }.word(), reading);
        reading
    }

    fn write(&mut self, register: Register, endpoint: u8, value: u32) {
        self.ring.answer(Answer::Write { register, endpoint, value });
        self.access.write(register, endpoint, value);
    }

    fn wait(&mut self, microseconds: u8) {
        self.ring.answer(Answer::Wait(microseconds));
        self.access.wait(microseconds);
    }

    /// Noted before it is made: what it calls stands behind it.
    fn callback(&mut self) {
        self.ring.answer(Answer::Callback);
        self.access.callback();
    }

    fn wake(&mut self, task: Task) {
        self.access.wake(task);
    }
}
