//! The port as a `Driver`, through its exported calls.

use oracle::number::{decode, wake};
use oracle::{Answer, Call, Driver, Wake};

use crate::exported::{usbhs_time_in_use, usbhs_woken};
use crate::lent::{Lent, FILLED};
use crate::stamps;
use crate::together::Together;

/// This driver's number in the record of bus time.
pub const DRIVER: u32 = 2;

pub struct Port {
    pub lent: Lent,
    geometry: (u32, u32),
    /// What each request's begin brought: its polls bring the same.
    read: [usize; 16],
    write: [Vec<u8>; 16],
    data_out: usize,
    /// The interrupts begun: each is brought a frame reading at its begin, which the Rust does not have.
    interrupts: u16,
    /// What each open left in the room for the stamp.
    pub stamps: Vec<u16>,
    /// The bus time in use after each call.
    pub times: Vec<u32>,
    /// Readings that are also brought by one call.
    pub together: Together,
}

impl Default for Port {
    fn default() -> Self {
        Self::new()
    }
}

impl Port {
    pub fn new() -> Self {
        Self {
            lent: Lent::new(0),
            geometry: (0, 0),
            read: [0; 16],
            write: [const { vec![] }; 16],
            data_out: 0,
            interrupts: 0,
            stamps: vec![],
            times: vec![],
            together: Together::default(),
        }
    }
}

/// A poll that fills `slice`; it has no wake-ups.
fn received(a: u64, slice: &[u8]) -> Answer {
    match decode(a, none) {
        Answer::Done { length, .. } => Answer::Done { length, bytes: slice[..length as usize].to_vec() },
        a => a,
    }
}

fn none(count: usize) -> Vec<Wake> {
    assert_eq!(count, 0);
    vec![]
}

/// Its number (`oracle::call::REGISTERS`).
const FRAME_NO: u8 = 4;

/// Of an end that has so many wake-ups, their list; the room past them stays.
fn woken(state: &[u8], count: usize) -> Vec<Wake> {
    if count == 0 {
        return vec![];
    }
    let mut room = [0xEE; 64];
    // SAFETY: the state and 64 bytes are lent
    assert_eq!(unsafe { usbhs_woken(state.as_ptr(), room.as_mut_ptr()) } as usize, count);
    assert!(room[count..].iter().all(|&b| b == 0xEE));
    room[..count].iter().map(|&code| wake(code)).collect()
}

fn accepted(a: u64) -> bool {
    a & 15 != 0
}

impl Driver for Port {
    fn fresh(&mut self) {
        let together = std::mem::take(&mut self.together);
        *self = Self { together, ..Self::new() };
    }

    fn slots(&mut self) -> &mut [u8] {
        &mut self.lent.slots
    }

    fn call(&mut self, call: &Call) -> Answer {
        let answer = self.made(call);
        // SAFETY: the record is lent, and only read
        self.times.push(unsafe { usbhs_time_in_use(self.lent.time.as_ptr()) });
        answer
    }
}

/// The longest slot buffer that a call may be lent in place of its own.
pub const ANY: usize = 70_000;

/// What came of a misplaced call.
pub struct Misplaced {
    pub answer: Answer,
    /// It left the state, the bus time and every lent byte as they were.
    pub kept: bool,
    /// What the same call answers next, if it is a poll that brings its begin's length.
    pub then: Answer,
}

impl Port {
    /// A call that is to be refused, with a slot buffer and, if it is a poll, a slice of these lengths: made on a copy
    /// of what is lent.
    pub fn misplaced(&self, call: &Call, slots: usize, poll: usize, due: usize) -> Misplaced {
        let own = slots == self.lent.slots.len();
        let slots = if own { self.lent.slots.clone() } else { vec![FILLED; slots] };
        let mut lent = Lent { state: self.lent.state.clone(), slots, time: self.lent.time };
        let before = lent.clone();
        let mut slice = vec![FILLED; poll];
        let mut stamp = stamps::NONE;
        let a = lent.made(DRIVER, call, &mut slice, &mut stamp);
        let kept = lent == before && stamp == stamps::NONE && slice.iter().all(|&b| b == FILLED);
        let then = lent.made(DRIVER, call, &mut vec![FILLED; due], &mut stamp);
        Misplaced { answer: decode(a, none), kept, then: decode(then, none) }
    }

    /// What the call's poll brings: its begin's length, of a write its data.
    fn slice(&self, call: &Call) -> Vec<u8> {
        match *call {
            Call::PollRead(ep) => vec![0; self.read[ep as usize & 15]],
            Call::PollWrite(ep) => self.write[ep as usize & 15].clone(),
            Call::PollDataOut => vec![0; self.data_out],
            Call::PollSetup => vec![0; 8],
            _ => vec![],
        }
    }

    /// The word that a call answers; its readings may also be brought by one call.
    fn word(&mut self, call: &Call, slice: &mut [u8], stamp: &mut u16) -> u64 {
        self.together.before(call, &self.lent);
        let word = self.lent.made(DRIVER, call, slice, stamp);
        self.together.after(call, word, &self.lent);
        word
    }

    fn made(&mut self, call: &Call) -> Answer {
        // another size or count brings another buffer
        let before = match *call {
            Call::StartUp { size, count, .. } if self.geometry != (size, count) => {
                let slots = std::mem::replace(&mut self.lent.slots, vec![0; (size * count) as usize]);
                Some((std::mem::replace(&mut self.geometry, (size, count)), slots))
            }
            _ => None,
        };
        let mut slice = self.slice(call);
        let mut stamp = stamps::NONE;
        let a = self.word(call, &mut slice, &mut stamp);
        if let (Some(before), false) = (before, accepted(a)) {
            (self.geometry, self.lent.slots) = before;
        }
        match *call {
            Call::Interrupt if accepted(a) => {
                assert_eq!(decode(a, none), Answer::Read { reg: FRAME_NO, ep: 0 }, "its first access");
                self.interrupts = self.interrupts.wrapping_add(1);
                let frame = Call::Continue(stamps::frame(self.interrupts).into());
                return decode(self.word(&frame, &mut [], &mut stamp), none);
            }
            Call::Read { ep, length } if accepted(a) => self.read[ep as usize & 15] = length as usize,
            Call::Write { ep, ref data } if accepted(a) => self.write[ep as usize & 15] = data.clone(),
            Call::DataOut { length, .. } if accepted(a) => self.data_out = length as usize,
            Call::PollRead(_) | Call::PollSetup | Call::PollDataOut => return received(a, &slice),
            Call::Open(_) => self.stamps.push(stamp),
            Call::Pending(_) | Call::Overruns(_) | Call::Enabled { .. } => return Answer::Number(a as u32),
            _ => {}
        }
        decode(a, |count| woken(&self.lent.state, count))
    }
}
