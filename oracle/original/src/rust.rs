//! The calls on the Rust: which coroutine runs what, and what it hands out as an answer.

#[path = "requests.rs"]
mod requests;

use std::sync::{MutexGuard, Once};

use oracle::{Answer, Call, Dir, Driver};
use seam::{reg, Ask, Coroutine, Finish, Mapping, Out, ARENA};

use crate::held::{exact_objects, is_size, objects, Objects};
use crate::usbhs::{self, probe};

/// Whose coroutine the operation under way runs on.
#[derive(Clone, Copy, PartialEq, Eq)]
enum On {
    Main,
    Read(u8),
    Write(u8),
    Control,
}

#[derive(Clone, Copy, PartialEq, Eq)]
enum Sort {
    Setup,
    DataOut,
    DataIn,
    Accept,
    AcceptSetAddress,
}

#[derive(Clone, Copy, PartialEq, Eq)]
enum Stage {
    Off,
    StartUp,
    Running,
}

pub struct Rust {
    objects: Option<Box<dyn Objects>>,
    /// The lent buffer is the end of this memory; an unmapped page follows.
    arena: Mapping,
    size: u32,
    count: u32,
    exact: bool,
    stage: Stage,
    under_way: Option<(On, Call)>,
    main: Box<Coroutine>,
    /// Where begins and takes start, until they are accepted.
    spare: Box<Coroutine>,
    reads: [Box<Coroutine>; 16],
    writes: [Box<Coroutine>; 16],
    takes: [Box<Coroutine>; 16],
    control: Box<Coroutine>,
    sort: Sort,
    _lock: MutexGuard<'static, ()>,
}

/// What stands in front of the lent buffer, to be left alone.
const FRONT: u8 = 0xEE;

impl Default for Rust {
    fn default() -> Self {
        Self::new()
    }
}

impl Rust {
    pub fn new() -> Self {
        let lock = seam::lock();
        quiet();
        let mut this = Self {
            objects: None,
            arena: Mapping::new(ARENA),
            size: 0,
            count: 0,
            exact: false,
            stage: Stage::Off,
            under_way: None,
            main: Coroutine::new(),
            spare: Coroutine::new(),
            reads: std::array::from_fn(|_| Coroutine::new()),
            writes: std::array::from_fn(|_| Coroutine::new()),
            takes: std::array::from_fn(|_| Coroutine::new()),
            control: Coroutine::new(),
            sort: Sort::Setup,
            _lock: lock,
        };
        this.fresh();
        this
    }

    /// Arrays of their own length, where `exact_objects` has them.
    pub fn exact() -> Self {
        let mut this = Self::new();
        this.exact = true;
        this
    }

    fn len(&self) -> usize {
        (self.size * self.count) as usize
    }

    fn base(&self) -> *mut u8 {
        // SAFETY: inside the arena
        unsafe { self.arena.end().sub(self.len()) }
    }

    /// No byte in front of the lent buffer was written.
    pub fn front_untouched(&self) -> bool {
        // SAFETY: the arena's bytes
        let front = unsafe { core::slice::from_raw_parts(self.arena.ptr(), ARENA - self.len()) };
        front.iter().all(|&b| b == FRONT)
    }

    fn power_on(&mut self) {
        for c in self.reads.iter_mut().chain(&mut self.writes).chain(&mut self.takes) {
            c.abandon();
        }
        self.main.abandon();
        self.control.abandon();
        self.under_way = None;
        self.objects = None;
        probe::power_on();
        seam::power_on();
    }

    fn start_up(&mut self, size: u32, count: u32, callback: bool) -> Answer {
        if !is_size(size) || count == 0 || size as u64 * count as u64 > ARENA as u64 {
            return Answer::Refused(2);
        }
        self.power_on();
        if (size, count) != (self.size, self.count) {
            (self.size, self.count) = (size, count);
            // SAFETY: the arena's bytes
            unsafe {
                core::ptr::write_bytes(self.arena.ptr(), FRONT, ARENA - self.len());
                core::ptr::write_bytes(self.base(), 0, self.len());
            }
        }
        self.stage = Stage::StartUp;
        let exact = if self.exact { exact_objects(size, count) } else { None };
        let mut held = exact.unwrap_or_else(|| objects(size));
        if callback {
            usbhs::set_sof_callback(seam::callback);
        }
        let base = self.base();
        let out = held.start_up(&mut self.main, base, count as usize);
        self.objects = Some(held);
        self.step(On::Main, &Call::StartUp { size, count, callback }, out)
    }

    /// What a call's text came to, as its answer.
    fn step(&mut self, on: On, call: &Call, out: Out) -> Answer {
        self.under_way = None;
        let ask = match out {
            Out::Panicked => return Answer::Panicked,
            Out::Ended(Finish::Refused(n)) => return Answer::Refused(n),
            Out::Ended(Finish::Value(v)) => return self.end(v),
            Out::Ended(_) => return self.end(0),
            Out::Asked(Ask::Registered) => return self.end(0),
            Out::Asked(ask) => ask,
        };
        self.under_way = Some((on, call.clone()));
        match ask {
            Ask::Read { reg, ep } => Answer::Read { reg, ep },
            Ask::Write { reg, ep, value } => {
                if *call == Call::BusPoll && reg == reg::INT_FG && value == 1 {
                    self.takes.iter_mut().for_each(|t| t.abandon());
                }
                let value = match reg {
                    reg::EP0_DMA | reg::EP_RX_DMA | reg::EP_TX_DMA => self.offset(value),
                    _ => value,
                };
                Answer::Write { reg, ep, value }
            }
            Ask::Wait(us) => Answer::Wait(us),
            Ask::Callback => Answer::Callback,
            _ => unreachable!(),
        }
    }

    fn offset(&self, address: u32) -> u32 {
        let offset = address.wrapping_sub(self.base() as usize as u32);
        assert!((offset as usize) < self.len());
        offset
    }

    fn end(&self, result: u32) -> Answer {
        let wakes = seam::take_wakes().into_iter().map(probe::whose).collect();
        Answer::End { result, wakes }
    }

    /// Rows 3, 4 and 5 (and 6, where the Rust panics): calls that are not compared.
    fn outside(&self, call: &Call) -> bool {
        let interrupted = matches!(self.under_way, Some((_, Call::Interrupt)));
        let idle = self.under_way.is_none();
        let has = |ep: u8, dir| (1..=15).contains(&ep) && self.objects.as_ref().unwrap().allocated(ep, dir);
        let running = self.stage == Stage::Running;
        match *call {
            Call::Pending(_) | Call::Overruns(_) | Call::Enabled { .. } => false,
            Call::Continue(_) => idle,
            Call::Allocate { maximum, .. } | Call::Start(maximum) => {
                !idle || self.stage != Stage::StartUp || maximum as u32 > self.size
            }
            Call::Open(ep) | Call::Close(ep) => !running || !(idle || interrupted) || !has(ep, Dir::Out),
            Call::Queue { ep, .. } => !running || !(idle || interrupted) || !has(ep, Dir::In),
            _ if !running || !idle => true,
            Call::Read { ep, .. } | Call::PollRead(ep) => !has(ep, Dir::Out),
            Call::Write { ep, .. } | Call::PollWrite(ep) => !has(ep, Dir::In),
            Call::SetEnabled { ep, dir, .. } => !has(ep, dir),
            Call::SetStalled { ep, dir, .. } | Call::IsStalled { ep, dir } => ep != 0 && !has(ep, dir),
            Call::SetPaced { ep, .. } | Call::Advance(ep) => ep == 0 || ep > 15,
            _ => false,
        }
    }
}

/// Panics of the Rust under test are answers.
fn quiet() {
    static ONCE: Once = Once::new();
    ONCE.call_once(|| {
        let before = std::panic::take_hook();
        std::panic::set_hook(Box::new(move |info| {
            if !seam::stepping() {
                before(info);
            }
        }));
    });
}

impl Driver for Rust {
    fn fresh(&mut self) {
        self.power_on();
        self.stage = Stage::Off;
        (self.size, self.count) = (0, 0);
        // SAFETY: the arena's bytes
        unsafe { core::ptr::write_bytes(self.arena.ptr(), FRONT, ARENA) };
    }

    fn slots(&mut self) -> &mut [u8] {
        // SAFETY: the lent buffer; the Rust runs only within `call`
        unsafe { core::slice::from_raw_parts_mut(self.base(), self.len()) }
    }

    fn call(&mut self, call: &Call) -> Answer {
        if let Call::StartUp { size, count, callback } = *call {
            return self.start_up(size, count, callback);
        }
        if self.outside(call) {
            return Answer::Outside;
        }
        match *call {
            Call::Continue(value) => {
                let (on, call) = self.under_way.take().unwrap();
                let out = match on {
                    On::Main => self.main.resume(value),
                    On::Read(ep) => self.reads[ep as usize].resume(value),
                    On::Write(ep) => self.writes[ep as usize].resume(value),
                    On::Control => self.control.resume(value),
                };
                self.step(on, &call, out)
            }
            Call::Read { ep, .. } => self.begin(On::Read(ep), call),
            Call::PollRead(ep) => self.poll_read(ep),
            Call::Write { ep, .. } => self.begin(On::Write(ep), call),
            Call::PollWrite(ep) => self.poll_write(ep),
            Call::Setup => self.begin_control(Sort::Setup, call),
            Call::DataOut { .. } => self.begin_control(Sort::DataOut, call),
            Call::DataIn { .. } => self.begin_control(Sort::DataIn, call),
            Call::Accept => self.begin_control(Sort::Accept, call),
            Call::AcceptSetAddress(_) => self.begin_control(Sort::AcceptSetAddress, call),
            Call::PollSetup => self.poll_control(Sort::Setup),
            Call::PollDataOut => self.poll_control(Sort::DataOut),
            Call::PollDataIn => self.poll_control(Sort::DataIn),
            Call::PollAccept => self.poll_accept(),
            Call::Open(ep) => self.open(ep),
            Call::Close(ep) => self.close(ep),
            Call::Queue { ep, ref data } => self.queue(ep, data),
            Call::SetPaced { ep, on } => {
                usbhs::iso_in_set_paced(ep as usize, on);
                Answer::End { result: 0, wakes: vec![] }
            }
            Call::Pending(ep) => Answer::Number(usbhs::iso_in_pending(ep as usize) as u32),
            Call::Overruns(ep) => Answer::Number(usbhs::iso_out_overruns(ep as usize)),
            Call::Enabled { ep, dir } => Answer::Number(usbhs::endpoint_enabled(ep as usize, dir) as u32),
            _ => {
                match call {
                    Call::SetEnabled { ep, dir: Dir::Out, .. } => self.takes[*ep as usize].abandon(),
                    Call::Reject => self.control.abandon(),
                    _ => {}
                }
                let errors = seam::errors();
                let out = self.objects.as_mut().unwrap().start(&mut self.main, call);
                if matches!(call, Call::Start(_)) {
                    // the unwrap of a buffer that is not to be had
                    if out == Out::Panicked && seam::errors() > errors {
                        return Answer::Refused(8);
                    }
                    self.stage = Stage::Running;
                }
                self.step(On::Main, call, out)
            }
        }
    }
}
