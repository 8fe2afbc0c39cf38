//! The proved USBHS device driver from Rust: every exported call of `usbhs.h` as a method on what the caller lends,
//! every answer an enum. `no_std`, no allocation, no state of its own.
//!
//! A [`Port`] is lent a [`State`], the slots (the packet buffers that the chip reads and writes), and a [`BusTime`].
//! A call answers with an [`Answer`]: one access of the chip to make, or the end. [`run()`] makes the accesses by your
//! [`Access`] until the operation is over, and then wakes the tasks.
//!
//! ```
//! use usbhs_port::{Access, Answer, BusTime, Direction, Event, Port, Register, Slots, State, Task, Transfer};
//!
//! /// A chip on which nothing happens: its registers read zero, but that the interface is free.
//! #[derive(Default)]
//! struct Idle { writes: usize }
//!
//! impl Access for Idle {
//!     fn read(&mut self, register: Register, _endpoint: u8) -> u32 {
//!         (register == Register::MisSt) as u32
//!     }
//!     fn write(&mut self, _register: Register, _endpoint: u8, _value: u32) {
//!         self.writes += 1;
//!     }
//!     fn wait(&mut self, _microseconds: u8) {}
//!     fn callback(&mut self) {}
//!     fn wake(&mut self, task: Task) {
//!         panic!("nobody waits, and {task:?} is woken");
//!     }
//! }
//!
//! let (mut state, mut time, mut slots) = (State::new(), BusTime::new(), Slots([0; 24 * 64]));
//! let mut chip = Idle::default();
//! let mut port = Port::lent(&mut state, &mut slots.0, &mut time, 0);
//! port.run(&mut chip, |p| p.start_up(64, 24, false)).ended().unwrap();
//! // an isochronous OUT of 64 bytes, under any number
//! let ep = port.run(&mut chip, |p| p.allocate(Transfer::Isochronous, None, 64, 1, Direction::Out)).ended().unwrap();
//! assert_eq!(ep, 1);
//! port.run(&mut chip, |p| p.start(64)).ended().unwrap();
//! let event = port.run(&mut chip, |p| p.begin_bus_poll()).ended().unwrap();
//! assert_eq!(Event::of(event), Some(Event::Power));
//! port.run(&mut chip, |p| p.begin_bus_enable()).ended().unwrap();
//! assert!(chip.writes > 0);
//! ```
//!
//! Any argument is safe: what cannot be is refused, and a refused call changes nothing (`usbhs.h` names the
//! exceptions). While an operation of a task is under way, keep the chip's interrupt masked; during an interrupt's
//! operation packets may be opened, closed and queued.
#![no_std]
#![deny(unsafe_code)]

mod answer;
mod calls;
mod exported;
#[cfg(feature = "survey")]
mod exported_survey;
mod run;
#[cfg(feature = "survey")]
pub mod survey;
#[cfg(feature = "trace")]
pub mod trace;

pub use answer::{Answer, Event, Refusal, Register, Task};
pub use calls::{BusTime, Direction, Packet, Port, Preview, Slots, State, Transfer, Woken, LONGEST, MOST_WAKES};
pub use exported::{NUMBERS_LEN, STATE_LEN, TIME_LEN};
pub use run::{run, Access, Lend};
