//! steps: the cost of a call of the port against the Rust's, operation by operation, over the same registers in one run.
//!
//! Both are stepped: a call answers an access, the access is made on registers that are memory, and the next call brings the reading. The Rust's call is
//! the resumption of its coroutine. Beside it the Rust in one go, where an access is a load or a store in the midst of its text.
//! `steps OPERATION (port|stepped|whole) N` makes the operation N times and prints nothing: for counting instructions.

use std::hint::black_box;

use compare::clock::{best, nanoseconds, ROUNDS};
use compare::exported::usbhs_continue;
use compare::lent::Lent;
use oracle::{Call, Dir, Kind};
use original::bench::Bare;
use seam::{reg, Ask, Coroutine, Finish, Out};

const SIZE: u32 = 64;
const COUNT: u32 = 24;

/// What each register reads, and what was written last.
#[derive(Clone, PartialEq)]
struct Registers {
    reads: [[u32; 16]; reg::COUNT],
    written: [[u32; 16]; reg::COUNT],
}

impl Registers {
    /// A bus reset is flagged, the control words answer ACK with DATA1, the SIE is free.
    fn new() -> Self {
        let mut reads = [[0; 16]; reg::COUNT];
        reads[reg::INT_FG as usize][0] = 1;
        reads[reg::MIS_ST as usize][0] = 1;
        reads[reg::CTRL as usize][0] = 6;
        reads[reg::EP_RX_CTRL as usize] = [4; 16];
        reads[reg::EP_TX_CTRL as usize] = [4; 16];
        Self { reads, written: [[0; 16]; reg::COUNT] }
    }

    fn read_as(&mut self, o: &Operation) {
        for (reg, value) in [(reg::INT_FG, o.flags), (reg::INT_ST, o.status), (reg::RX_LEN, o.len)] {
            self.reads[reg as usize][0] = value;
        }
    }

    #[inline(always)]
    fn read(&self, reg: u8, ep: u8) -> u32 {
        self.reads[reg as usize][ep as usize % 16]
    }

    #[inline(always)]
    fn write(&mut self, reg: u8, ep: u8, value: u32) -> u32 {
        self.written[reg as usize][ep as usize % 16] = value;
        0
    }
}

struct Port {
    lent: Lent,
    registers: Registers,
}

impl Port {
    fn new() -> Self {
        Self { lent: Lent::new((SIZE * COUNT) as usize), registers: Registers::new() }
    }

    /// The whole operation; how many calls it took.
    #[inline(never)]
    fn operate(&mut self, call: &Call) -> u32 {
        let mut calls = 1;
        let mut a = self.lent.plain(call);
        loop {
            let value = match a & 15 {
                1 => self.registers.read((a >> 8) as u8, (a >> 16) as u8),
                2 => self.registers.write((a >> 8) as u8, (a >> 16) as u8, (a >> 32) as u32),
                3 => 0,
                5 => return calls,
                _ => panic!("{call:?}: {a:#x}"),
            };
            calls += 1;
            let (s, p, n, t) = self.lent.parts();
            // SAFETY: all that is lent, the slots with their length
            a = unsafe { usbhs_continue(s, p, n, t, 0, value) };
        }
    }

    fn made(&mut self, o: &Operation) -> u32 {
        if o.arrives {
            let at = self.registers.written[reg::EP_RX_DMA as usize][1] as usize;
            self.lent.slots[at..at + PACKET.len()].copy_from_slice(black_box(&PACKET));
        }
        self.operate(&o.call)
    }
}

struct Stepped {
    bare: Bare,
    registers: Registers,
}

impl Stepped {
    /// The same of the Rust.
    #[inline(never)]
    fn operate(&mut self, call: &Call) -> u32 {
        let mut calls = 1;
        let mut out = self.bare.begin(call);
        loop {
            let value = match out {
                Out::Asked(Ask::Read { reg, ep }) => self.registers.read(reg, ep),
                Out::Asked(Ask::Write { reg, ep, value }) => self.registers.write(reg, ep, value),
                Out::Asked(Ask::Wait(_)) => 0,
                Out::Ended(_) => {
                    seam::drop_wakes();
                    return calls;
                }
                _ => panic!("{call:?}: {out:?}"),
            };
            calls += 1;
            out = self.bare.resume(value);
        }
    }

    /// The armed slot stays the same once the ring is full.
    #[inline]
    fn arrive(&mut self, o: &Operation) {
        if o.arrives {
            self.bare.store(self.registers.written[reg::EP_RX_DMA as usize][1], black_box(&PACKET));
        }
    }

    fn made(&mut self, o: &Operation) -> u32 {
        self.arrive(o);
        self.operate(&o.call)
    }

    /// In one go, over the seam's registers.
    #[inline(never)]
    fn whole(&mut self, o: &Operation) {
        self.arrive(o);
        black_box(self.bare.run(&o.call));
    }
}

fn start_up() -> Call {
    Call::StartUp { size: SIZE, count: COUNT, callback: false }
}

/// Endpoints as in runs/worked-traces.txt: 1 isochronous OUT, 2 isochronous IN, 3 bulk OUT, 4 bulk IN, all enabled. The first poll answers the power.
fn prepared() -> Vec<Call> {
    let endpoint = |kind, address, dir| Call::Allocate { kind, address: Some(address), maximum: 64, interval: 1, dir };
    let enabled = |ep, dir| Call::SetEnabled { ep, dir, on: true };
    vec![
        start_up(),
        endpoint(Kind::Isochronous, 1, Dir::Out),
        endpoint(Kind::Isochronous, 0x82, Dir::In),
        endpoint(Kind::Bulk, 3, Dir::Out),
        endpoint(Kind::Bulk, 0x84, Dir::In),
        Call::Start(64),
        Call::BusPoll,
        enabled(1, Dir::Out),
        enabled(2, Dir::In),
        enabled(3, Dir::Out),
        enabled(4, Dir::In),
    ]
}

struct Operation {
    name: &'static str,
    call: Call,
    /// int_fg, int_st and rx_len: a bus reset is flagged, or what the interrupt is for
    flags: u32,
    status: u32,
    len: u32,
    /// the chip has stored a packet in the armed slot
    arrives: bool,
}

/// A packet of 36 bytes, of isochronous OUT 1.
const PACKET: [u8; 36] = [7; 36];

/// Each is made over and over: nothing that it does depends on what the last one left.
fn operations() -> Vec<Operation> {
    let other = |name, call| Operation { name, call, flags: 1, status: 0, len: 0, arrives: false };
    let interrupt =
        |name, flags, status, len| Operation { name, call: Call::Interrupt, flags, status, len, arrives: false };
    vec![
        other("start-up", start_up()),
        other("bus-reset", Call::BusPoll),
        other("enable-iso-out", Call::SetEnabled { ep: 1, dir: Dir::Out, on: true }),
        other("stall-out", Call::SetStalled { ep: 3, dir: Dir::Out, on: true }),
        other("clear-stall-out", Call::SetStalled { ep: 3, dir: Dir::Out, on: false }),
        other("stall-in", Call::SetStalled { ep: 4, dir: Dir::In, on: true }),
        other("clear-stall-in", Call::SetStalled { ep: 4, dir: Dir::In, on: false }),
        interrupt("interrupt-none", 0, 0, 0),
        interrupt("interrupt-sof", 2, 0x10, 0),
        // with 15 waiting: turned away, and its slot armed again
        Operation { arrives: true, ..interrupt("interrupt-iso-out", 2, 0x41, 36) },
        interrupt("interrupt-bulk-out", 2, 0x43, 64),
        interrupt("interrupt-bulk-in", 2, 0x64, 0),
        interrupt("interrupt-setup", 0x20, 0x30, 8),
    ]
}

/// Both sides after the first calls, with the operation, which both made alike.
fn both(o: &Operation) -> (Port, Stepped, u32) {
    let mut port = Port::new();
    let mut rust = Stepped { bare: Bare::new(), registers: Registers::new() };
    for c in &prepared() {
        assert_eq!(port.operate(c), rust.operate(c), "{c:?}");
    }
    port.registers.read_as(o);
    rust.registers.read_as(o);
    // a ring is then full, and the microframe handled: the Rust's statics outlive a start-up
    for _ in 0..40 {
        port.made(o);
        rust.made(o);
    }
    let calls = port.made(o);
    // request One: an interrupt begins with a reading that the Rust does not have
    let more = matches!(o.call, Call::Interrupt) as u32;
    assert_eq!(calls, rust.made(o) + more, "{}", o.name);
    let mut told = rust.registers.clone();
    for r in [reg::EP0_DMA, reg::EP_RX_DMA, reg::EP_TX_DMA] {
        for w in told.written[r as usize].iter_mut().filter(|w| **w != 0) {
            *w -= rust.bare.base();
        }
    }
    // the ring of isochronous OUT 1, which lies first, is marked otherwise since request Eight
    let ring = 16 * SIZE as usize;
    assert!(port.registers == told && port.lent.slots[ring..] == rust.bare.slots()[ring..], "{}", o.name);
    for (r, row) in rust.registers.reads.iter().enumerate() {
        for (e, &value) in row.iter().enumerate() {
            // the driver keeps these: they read as written
            if !matches!(r as u8, reg::INT_EN | reg::EP_CONFIG | reg::EP_TYPE) {
                seam::set(r as u8, e as u8, value);
            }
        }
    }
    (port, rust, calls)
}

/// A coroutine that does nothing but read: the stepping's own cost, in nanoseconds a call.
fn switches() -> f64 {
    const CALLS: u32 = 40;
    let mut on = Coroutine::new();
    let registers = Registers::new();
    let operation = || {
        let mut out = on.start(false, || {
            for _ in 1..CALLS {
                black_box(seam::read(reg::INT_FG, 0));
            }
            Finish::Nothing
        });
        while let Out::Asked(Ask::Read { reg, ep }) = out {
            out = on.resume(registers.read(reg, ep));
        }
    };
    best(operation) / CALLS as f64
}

fn measure(o: &Operation) {
    let name = o.name;
    let (mut port, mut rust, calls) = both(o);
    let (mut ported, mut stepped, mut whole) = (f64::MAX, f64::MAX, f64::MAX);
    for _ in 0..ROUNDS {
        ported = ported.min(nanoseconds(|| {
            black_box(port.made(black_box(o)));
        }));
        stepped = stepped.min(nanoseconds(|| {
            black_box(rust.made(black_box(o)));
        }));
        seam::cheap();
        whole = whole.min(nanoseconds(|| rust.whole(black_box(o))));
        seam::stepped();
    }
    let per = |ns: f64| ns / calls as f64;
    println!(
        "| {name} | {calls} | {:.1} | {:.1} | {:.2} | {:.1} | {:.1} |",
        per(ported),
        per(stepped),
        ported / stepped,
        per(whole),
        ported / whole
    );
}

fn main() {
    let args: Vec<String> = std::env::args().skip(1).collect();
    // the Rust has statics, and so has the seam
    let _lock = seam::lock();
    if let [name, how, times] = &args[..] {
        let o = operations().into_iter().find(|o| o.name == name).expect("an operation");
        let (mut port, mut rust, _) = both(&o);
        for _ in 0..times.parse().expect("a number") {
            match how.as_str() {
                "port" => port.made(&o),
                "stepped" => rust.made(&o),
                _ => {
                    seam::cheap();
                    rust.whole(&o);
                    0
                }
            };
        }
        return;
    }
    println!("| operation | calls | port, ns a call | Rust stepped, ns a call | port / Rust stepped | Rust in one go, ns a call | port / Rust in one go |");
    println!("|---|---|---|---|---|---|---|");
    for o in operations() {
        measure(&o);
    }
    println!("a call of a coroutine that only reads: {:.1} ns", switches());
}
