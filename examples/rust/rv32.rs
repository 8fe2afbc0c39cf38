// SPDX-License-Identifier: MIT OR Apache-2.0
//! A device in Rust for RV32, over `usbhs_port` and the archive of `prebuilt/rv32imac`: it starts up, enables an
//! isochronous OUT, and takes a packet in place. `tests/examples/rust` compiles it and runs it on the emulator; there a
//! chip of a few lines stands for the block. On a board `Access` reads and writes the block's registers
//! (firmware/ch32v30x/registers.c has their layout).
#![no_std]

use usbhs_port::{Access, BusTime, Direction, Port, Refusal, Register, Slots, State, Task, Transfer};

extern "C" {
    fn print(text: *const u8);
    fn emulator_end(failed: i32) -> !;
}

/// A chip on which one packet has arrived, once it is armed.
#[derive(Default)]
struct Chip {
    flags: u32,
    armed: u32,
    woken: u32,
}

impl Access for Chip {
    fn read(&mut self, register: Register, _endpoint: u8) -> u32 {
        match register {
            Register::IntFg => self.flags,
            Register::IntSt => 0x41, // OUT of endpoint 1, tog_ok
            Register::MisSt => 1,    // the interface is free
            Register::RxLen => 20,
            Register::FrameNo => 5 | 3 << 13, // frame 5, microframe 3
            _ => 0,
        }
    }
    fn write(&mut self, register: Register, endpoint: u8, value: u32) {
        match (register, endpoint) {
            (Register::IntFg, _) => self.flags &= !value,
            (Register::EpRxDma, 1) => self.armed = value,
            _ => {}
        }
    }
    fn wait(&mut self, _microseconds: u8) {}
    fn callback(&mut self) {}
    fn wake(&mut self, _task: Task) {
        self.woken += 1;
    }
}

/// The packet's first byte, its length and its stamp.
fn device() -> Result<(u8, u16, u16), Refusal> {
    let (mut state, mut time, mut slots) = (State::new(), BusTime::new(), Slots::<{ 17 * 64 }>::new());
    let mut chip = Chip::default();
    let mut port = Port::lent(&mut state, &mut slots.0, &mut time, 0);
    port.run(&mut chip, |p| p.start_up(64, 17, false)).ended()?;
    port.run(&mut chip, |p| p.allocate(Transfer::Isochronous, Some(1), 64, 1, Direction::Out)).ended()?;
    port.run(&mut chip, |p| p.start(64)).ended()?;
    port.run(&mut chip, |p| p.begin_bus_enable()).ended()?;
    port.run(&mut chip, |p| p.begin_set_enabled(1, Direction::Out, true)).ended()?;

    // the chip stores a packet where the driver armed it, and raises its flag
    let at = chip.armed as usize;
    slots.0[at..at + 20].fill(7);
    chip.flags = 2;
    let mut port = Port::lent(&mut state, &mut slots.0, &mut time, 0);
    port.run(&mut chip, |p| p.begin_interrupt()).ended()?;
    let packet = port.open(1)?;
    let first = port.slots()[packet.offset as usize];
    port.close(1).ended()?;
    // one reader, one packet
    match port.open(1) {
        Err(Refusal::NoPacket) if chip.woken > 0 => Ok((first, packet.length, packet.stamp)),
        _ => Err(Refusal::NotOpen),
    }
}

/// Called by firmware/start.S.
#[no_mangle]
pub extern "C" fn main() -> i32 {
    let text: &[u8] = match device() {
        Ok((7, 20, 43)) => b"rv32: a packet of 20 bytes, taken in place, stamp 43\n\0",
        _ => b"rv32: failed\n\0",
    };
    // SAFETY: a text that ends with 0
    unsafe { print(text.as_ptr()) };
    i32::from(text[6] == b'f')
}

#[panic_handler]
fn panicked(_: &core::panic::PanicInfo<'_>) -> ! {
    // SAFETY: ends the emulator
    unsafe { emulator_end(1) }
}
