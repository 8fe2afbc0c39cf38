// Load a record, change its head and one length, store it: the port over lent bytes against plain Rust statics, in one run.
//
//     firmware/staticlib state_bench && cd bench && cargo run --release --offline
use std::hint::black_box;
use std::sync::atomic::{AtomicU16, AtomicU32, AtomicU8, Ordering::Relaxed};
use std::time::Instant;

const STATE_LEN: usize = 2999;
// where crate state lays the endpoints' records and the recorded lengths, and a record's head
const EPS: usize = 40;
const LENS: usize = 1966;
const HEAD: usize = 29;
const CALLS: u32 = 20_000_000;
const ROUNDS: usize = 15;

extern "C" {
    fn state_bench_push(s: *mut u8, e: u8, len: u16);
}

// The Rust's record, of what the call touches and its neighbours.
struct EpState {
    len: AtomicU16,
    base: AtomicU32,
    head: AtomicU8,
    tail: AtomicU8,
    lens: [AtomicU16; 16],
    overruns: AtomicU32,
}

static OUT_STATE: [EpState; 16] = [const {
    EpState {
        len: AtomicU16::new(0),
        base: AtomicU32::new(0),
        head: AtomicU8::new(0),
        tail: AtomicU8::new(0),
        lens: [const { AtomicU16::new(0) }; 16],
        overruns: AtomicU32::new(0),
    }
}; 16];

#[inline(never)]
extern "C" fn plain_push(e: u8, len: u16) {
    let s = &OUT_STATE[(e % 16) as usize];
    let head = s.head.load(Relaxed);
    s.lens[(head % 16) as usize].store(len, Relaxed);
    s.head.store(head.wrapping_add(1), Relaxed);
}

fn nanoseconds(mut call: impl FnMut(u8, u16)) -> f64 {
    let start = Instant::now();
    for i in 0..CALLS {
        call(black_box(i as u8), black_box(i as u16));
    }
    start.elapsed().as_secs_f64() * 1e9 / CALLS as f64
}

fn main() {
    let mut state = [0u8; STATE_LEN];
    let (mut port, mut plain) = (f64::MAX, f64::MAX);
    for _ in 0..ROUNDS {
        port = port.min(nanoseconds(|e, len| unsafe { state_bench_push(state.as_mut_ptr(), e, len) }));
        plain = plain.min(nanoseconds(|e, len| plain_push(e, len)));
    }
    // the two did the same: heads and lengths agree
    for (e, s) in OUT_STATE.iter().enumerate() {
        assert_eq!(state[EPS + e * 32 + HEAD], s.head.load(Relaxed));
        for i in 0..16 {
            let at = LENS + (e * 16 + i) * 2;
            assert_eq!(u16::from_le_bytes([state[at], state[at + 1]]), s.lens[i].load(Relaxed));
        }
        black_box((s.len.load(Relaxed), s.base.load(Relaxed), s.tail.load(Relaxed), s.overruns.load(Relaxed)));
    }
    let ratio = port / plain;
    println!("port {port:.2} ns, plain Rust {plain:.2} ns, ratio {ratio:.2}");
    if ratio > 1.5 {
        std::process::exit(1);
    }
}
