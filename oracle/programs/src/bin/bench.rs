//! bench: nanoseconds per interrupt of the Rust over a cheap register layer (registers are memory), best of several runs.

use std::hint::black_box;
use std::time::Instant;

use oracle::{Answer, Call, Dir, Driver, Kind};
use seam::reg;

const RUNS: usize = 300;
const ROUNDS: usize = 1000;

/// Endpoints as in runs/worked-traces.txt: 1 isochronous OUT, 2 isochronous IN, 3 bulk OUT, 4 bulk IN, all enabled.
fn set_up(rust: &mut original::Rust) {
    let mut to_end = |call: Call| {
        let mut a = rust.call(&call);
        while !matches!(a, Answer::End { .. }) {
            assert!(!matches!(a, Answer::Refused(_) | Answer::Outside), "{call:?}");
            a = rust.call(&Call::Continue(0));
        }
    };
    to_end(Call::StartUp { size: 64, count: 24, callback: false });
    for (ep, kind, dir) in [
        (1, Kind::Isochronous, Dir::Out),
        (0x82, Kind::Isochronous, Dir::In),
        (3, Kind::Bulk, Dir::Out),
        (0x84, Kind::Bulk, Dir::In),
    ] {
        to_end(Call::Allocate { kind, address: Some(ep), maximum: 64, interval: 1, dir });
    }
    to_end(Call::Start(64));
    for (ep, dir) in [(1, Dir::Out), (2, Dir::In), (3, Dir::Out), (4, Dir::In)] {
        to_end(Call::SetEnabled { ep, dir, on: true });
    }
}

fn interrupt() {
    // SAFETY: set up, and cheap
    unsafe { original::bench::on_interrupt() }
}

fn read_as(flags: u32, status: u32, len: u32) {
    seam::set(reg::INT_FG, 0, flags);
    seam::set(reg::MIS_ST, 0, 1);
    seam::set(reg::INT_ST, 0, status);
    seam::set(reg::RX_LEN, 0, len);
}

/// The next microframe's number.
fn next_frame(index: &mut u32) {
    *index = (*index + 1) & 16383;
    seam::set(reg::FRAME_NO, 0, *index >> 3 | (*index & 7) << 13);
}

/// The best of `RUNS`: rounds of `between`, not measured, and `n` times `timed`.
fn best(n: usize, mut between: impl FnMut(), mut timed: impl FnMut(usize)) -> f64 {
    let mut clock = f64::MAX;
    for _ in 0..1000 {
        let t = Instant::now();
        clock = clock.min(black_box(t.elapsed()).as_nanos() as f64);
    }
    let mut best = f64::MAX;
    for _ in 0..RUNS {
        let mut total = 0.0;
        for _ in 0..ROUNDS {
            between();
            let t = Instant::now();
            for i in 0..n {
                timed(i);
            }
            total += t.elapsed().as_nanos() as f64 - clock;
        }
        best = best.min(total / (ROUNDS * n) as f64);
    }
    best
}

fn main() {
    let mut rust = original::Rust::new();
    set_up(&mut rust);
    seam::cheap();
    let slots = rust.slots().as_mut_ptr();
    let offset = move |address: u32| address.wrapping_sub(slots as usize as u32) as usize;
    // the chip stores the first 36 bytes of a packet in the armed slot
    let arrive = move || {
        let at = offset(seam::written(reg::EP_RX_DMA, 1));
        // SAFETY: a slot of the buffer
        unsafe {
            for word in 0..9 {
                slots.add(at + 4 * word).cast::<u32>().write_volatile(0x0102_0304);
            }
        }
    };
    let mut index = 0;
    let drain = || {
        while let Some(n) = original::bench::take(1) {
            black_box(n);
        }
    };
    println!("| case | ns |");
    println!("|---|---|");
    let line = |name: &str, ns: f64| println!("| {name} | {ns:.1} |");

    next_frame(&mut index);
    read_as(2, 0x10, 0);
    interrupt();
    line("flag 0: one reading", {
        read_as(0, 0, 0);
        best(16, || {}, |_| interrupt())
    });
    read_as(2, 0x10, 0);
    line("SOF of the same microframe", best(16, || {}, |_| interrupt()));
    let sof = best(
        16,
        || {},
        |_| {
            next_frame(&mut index);
            interrupt();
        },
    );
    line("SOF, an isochronous IN caught up", sof);
    line(
        "isochronous IN in its microframe, with that microframe's SOF (two interrupts), a packet queued",
        best(
            2,
            || {
                for _ in 0..2 {
                    original::bench::queue(2, &[7; 64]);
                }
            },
            |_| {
                next_frame(&mut index);
                read_as(2, 0x10, 0);
                interrupt();
                read_as(2, 0x62, 0);
                interrupt();
            },
        ),
    );
    read_as(2, 0x41, 36);
    line(
        "isochronous OUT, 36 bytes, length with the interrupt",
        best(15, drain, |_| {
            arrive();
            interrupt();
        }),
    );
    read_as(2, 0x62, 0);
    interrupt();
    line(
        "isochronous OUT, 36 bytes, length by the marks",
        best(15, drain, |_| {
            arrive();
            interrupt();
        }),
    );
    line("the 36 bytes' stores alone, as in the two lines above", best(15, drain, |_| arrive()));
    drain();
    // what the stores left in the slot is taken
    interrupt();
    drain();
    read_as(2, 0x43, 64);
    line(
        "bulk OUT, a new packet",
        best(
            16,
            || {},
            |i| {
                seam::set(reg::EP_RX_CTRL, 3, if i % 2 == 0 { 0x16 } else { 0x12 });
                interrupt();
            },
        ),
    );
    read_as(0x20, 0x30, 8);
    line("setup", best(16, || {}, |_| interrupt()));
}
