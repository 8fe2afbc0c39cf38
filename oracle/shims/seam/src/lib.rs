//! Where the Rust under test meets the oracle: every register access, the wait, the callback and the
//! first registration of a request's waker come here. Under a coroutine each of them suspends it; in
//! cheap mode (benchmarks) registers are plain memory.
//!
//! One run at a time: whoever drives the Rust holds [`lock`].

mod coroutine;
mod memory;

use core::ptr::addr_of_mut;
use std::sync::{Mutex, MutexGuard};

pub use coroutine::{Coroutine, Out};
pub use memory::{Mapping, ARENA};

/// Registers by number, in the order of `oracle/FORMAT.md`.
pub mod reg {
    pub const INT_FG: u8 = 0;
    pub const INT_ST: u8 = 1;
    pub const MIS_ST: u8 = 2;
    pub const RX_LEN: u8 = 3;
    pub const FRAME_NO: u8 = 4;
    pub const CTRL: u8 = 5;
    pub const INT_EN: u8 = 6;
    pub const DEV_AD: u8 = 7;
    pub const HOST_CTRL: u8 = 8;
    pub const EP_CONFIG: u8 = 9;
    pub const EP_TYPE: u8 = 10;
    pub const EP_BUF_MOD: u8 = 11;
    pub const EP0_DMA: u8 = 12;
    pub const EP_MAX_LEN: u8 = 13;
    pub const EP_T_LEN: u8 = 14;
    pub const EP_RX_DMA: u8 = 15;
    pub const EP_TX_DMA: u8 = 16;
    pub const EP_RX_CTRL: u8 = 17;
    pub const EP_TX_CTRL: u8 = 18;
    pub const COUNT: usize = 19;
}

/// The driver keeps int_en, ep_config and ep_type: they read back as written, unrecorded.
const fn kept(reg: u8) -> bool {
    matches!(reg, reg::INT_EN | reg::EP_CONFIG | reg::EP_TYPE)
}

/// What a coroutine hands out when it suspends.
#[derive(Clone, Copy, PartialEq, Eq, Debug)]
pub enum Ask {
    Read {
        reg: u8,
        ep: u8,
    },
    Write {
        reg: u8,
        ep: u8,
        value: u32,
    },
    Wait(u32),
    Callback,
    /// A request registered its waker for the first time: its begin is over.
    Registered,
    /// A request's poll answers that it is not over.
    NotYet,
    /// A take shows its packet: address and length.
    Shown(u32, u32),
}

/// How the Rust text of a coroutine ended.
#[derive(Clone, Copy, PartialEq, Eq, Debug)]
pub enum Finish {
    Value(u32),
    Length(u32),
    Setup([u8; 8]),
    Refused(u8),
    Nothing,
}

struct Seam {
    current: *mut Coroutine,
    /// The next registration of a waker suspends.
    begin: bool,
    wakes: Vec<usize>,
    errors: u32,
    cheap: bool,
    regs: [[u32; 16]; reg::COUNT],
    written: [[u32; 16]; reg::COUNT],
    hits: [u64; 512],
    /// The arm that is not taken where it is due, and the change that is made; none where beyond them all.
    turned: usize,
    mutant: usize,
    /// Arms passed since the last access.
    passed: u32,
}

static mut SEAM: Seam = Seam {
    current: core::ptr::null_mut(),
    begin: false,
    wakes: Vec::new(),
    errors: 0,
    cheap: false,
    regs: [[0; 16]; reg::COUNT],
    written: [[0; 16]; reg::COUNT],
    hits: [0; 512],
    turned: NONE,
    mutant: NONE,
    passed: 0,
};

const NONE: usize = usize::MAX;

/// More arms than any operation passes between two accesses: it hangs.
const HANGS: u32 = 1 << 20;

/// The Rust under test has statics, and so has this crate: one thread at a time.
fn seam() -> &'static mut Seam {
    // SAFETY: callers hold `lock`, and no reference is kept over a suspension
    unsafe { &mut *addr_of_mut!(SEAM) }
}

static LOCK: Mutex<()> = Mutex::new(());

pub fn lock() -> MutexGuard<'static, ()> {
    LOCK.lock().unwrap_or_else(|e| e.into_inner())
}

/// Register layer and records as at power-on.
pub fn power_on() {
    let s = seam();
    s.current = core::ptr::null_mut();
    s.begin = false;
    s.wakes.clear();
    s.errors = 0;
    s.cheap = false;
    s.regs = [[0; 16]; reg::COUNT];
}

#[inline]
fn suspend(ask: Ask) -> u32 {
    let s = seam();
    s.passed = 0;
    let c = s.current;
    assert!(!c.is_null(), "{ask:?} outside an operation");
    // SAFETY: the running coroutine
    unsafe { (*c).suspend(ask) }
}

#[inline]
pub fn read(reg: u8, ep: u8) -> u32 {
    let s = seam();
    if s.cheap || kept(reg) {
        return s.regs[reg as usize][ep as usize];
    }
    suspend(Ask::Read { reg, ep })
}

#[inline]
pub fn write(reg: u8, ep: u8, value: u32) {
    let s = seam();
    if kept(reg) {
        s.regs[reg as usize][ep as usize] = value;
    }
    s.written[reg as usize][ep as usize] = value;
    if s.cheap {
        return;
    }
    suspend(Ask::Write { reg, ep, value });
}

pub fn wait_us(us: u32) {
    if !seam().cheap {
        suspend(Ask::Wait(us));
    }
}

/// The start-of-frame callback that the Rust is given.
pub fn callback() {
    if !seam().cheap {
        suspend(Ask::Callback);
    }
}

/// A waker was registered: the seam between a request's begin and its first poll.
pub fn registered() {
    let s = seam();
    if s.begin {
        s.begin = false;
        suspend(Ask::Registered);
    }
}

/// A request's poll is pending; goes on with the next poll.
pub fn not_yet() {
    suspend(Ask::NotYet);
}

/// A take reached its closure with this packet.
pub fn shown(packet: &[u8]) {
    suspend(Ask::Shown(packet.as_ptr() as u32, packet.len() as u32));
}

pub fn wake(waker: usize) {
    let s = seam();
    if !s.cheap {
        s.wakes.push(waker);
    }
}

/// The wakes since the last call, in order, as addresses of wakers.
pub fn take_wakes() -> Vec<usize> {
    core::mem::take(&mut seam().wakes)
}

/// The wakes are taken by nobody; their memory stays.
#[inline]
pub fn drop_wakes() {
    seam().wakes.clear();
}

/// `error!` was reached.
pub fn error() {
    seam().errors += 1;
}

/// Rust text runs in a coroutine.
pub fn stepping() -> bool {
    !seam().current.is_null()
}

pub fn errors() -> u32 {
    seam().errors
}

/// An arm of the traced copy was reached. Answers whether it is taken: one arm may be turned.
#[inline]
pub fn hit(arm: usize) -> bool {
    let s = seam();
    s.hits[arm] += 1;
    s.passed += 1;
    assert!(s.passed < HANGS, "no access any more");
    arm != s.turned
}

/// Counts `arm` where `c` holds, else the arm after it; answers `c`, or not `c` where this arm is turned.
#[inline]
pub fn branch(arm: usize, c: bool) -> bool {
    hit(if c { arm } else { arm + 1 }) == c
}

/// From here on this arm of the traced copy is turned: where it is due the other one is taken.
pub fn turn(arm: usize) {
    seam().turned = arm;
}

/// Is this change of the mutated copy made?
#[inline]
pub fn mutant(number: usize) -> bool {
    seam().mutant == number
}

/// From here on this change of the mutated copy is made.
pub fn mutate(number: usize) {
    seam().mutant = number;
}

pub fn hits() -> [u64; 512] {
    seam().hits
}

/// Registers as plain memory from here on: `set` gives what they read.
pub fn cheap() {
    seam().cheap = true;
}

/// Every access suspends again.
pub fn stepped() {
    seam().cheap = false;
}

#[inline]
pub fn set(reg: u8, ep: u8, value: u32) {
    seam().regs[reg as usize][ep as usize] = value;
}

pub fn written(reg: u8, ep: u8) -> u32 {
    seam().written[reg as usize][ep as usize]
}
