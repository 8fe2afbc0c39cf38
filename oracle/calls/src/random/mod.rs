//! Random runs over the whole of document 01's domain. The generator sees only calls and answers: it plays the host,
//! the chip and the firmware, and picks every reading.

mod chip;
mod firmware;
mod host;

use crate::replay::Session;
use crate::text::Entry;
use crate::{Answer, Call, Dir, Driver, Kind, Rng};

const OUT: u32 = 0;
const SOF: u32 = 1;
const IN: u32 = 2;
const SETUP: u32 = 3;

/// More than any operation hands out: an interrupt looks at the SIE at most 4,002 times.
const MOST_ACCESSES: u32 = 5000;

#[derive(Clone, Copy)]
struct Endpoint {
    kind: Kind,
    max: u16,
}

/// What the host and the chip do around one interrupt; the readings follow it more often than not.
#[derive(Clone, Copy, Default)]
struct Plan {
    flags: u32,
    token: u32,
    ep: u32,
    tog_ok: bool,
    len: u32,
    /// Looks that find the SIE busy.
    busy: u32,
    /// The bulk toggle moves.
    moved: bool,
}

struct Run<'a> {
    rng: Rng,
    session: Session<'a>,
    entries: Vec<Entry>,
    shape: Shape,
    size: u32,
    count: u32,
    callback: bool,
    ep0_max: u16,
    outs: [Option<Endpoint>; 16],
    ins: [Option<Endpoint>; 16],
    config: u32,
    /// Where the chip may store: the last receive address of each number.
    receive: [Option<u32>; 16],
    rx_ctrl: [u32; 16],
    tx_ctrl: [u32; 16],
    index: u32,
    paced: u32,
    plan: Plan,
    /// The interrupt's first status and last length.
    status: Option<u32>,
    len: u32,
    answer: Answer,
    left: i32,
    /// The reads and the writes that were begun.
    requests: [u32; 2],
    /// The firmware does nothing meanwhile: rings fill.
    flood: bool,
}

/// The shape of a run.
#[derive(Clone, Copy)]
pub struct Shape {
    /// About so many calls.
    pub length: u32,
    /// The buffer size and count, or the size alone, where they are fixed.
    pub buffer: Option<(u32, u32)>,
    pub size: Option<u32>,
    /// EP0's maximum, where it is fixed: mostly buffers of that size or more.
    pub ep0: Option<u16>,
    /// Few endpoints, enough buffers, few resets: rings go round and round.
    pub long: bool,
}

impl Shape {
    pub const fn of_length(length: u32) -> Self {
        Self { length, buffer: None, size: None, ep0: None, long: false }
    }
}

/// A run of about `length` calls.
pub fn run(driver: &mut dyn Driver, seed: u64, length: u32) -> Vec<Entry> {
    run_of(driver, seed, Shape::of_length(length))
}

/// The same with this buffer size and count.
pub fn run_in(driver: &mut dyn Driver, seed: u64, length: u32, buffer: Option<(u32, u32)>) -> Vec<Entry> {
    run_of(driver, seed, Shape { buffer, ..Shape::of_length(length) })
}

pub fn run_of(driver: &mut dyn Driver, seed: u64, shape: Shape) -> Vec<Entry> {
    let length = shape.length;
    let mut r = Run {
        rng: Rng::new(seed),
        session: Session::new(driver),
        entries: vec![],
        shape,
        size: 0,
        count: 0,
        callback: false,
        ep0_max: 0,
        outs: [None; 16],
        ins: [None; 16],
        config: 0,
        receive: [None; 16],
        rx_ctrl: [0; 16],
        tx_ctrl: [0; 16],
        index: 0,
        paced: 0,
        plan: Plan::default(),
        status: None,
        len: 0,
        answer: Answer::NotYet,
        left: length as i32,
        requests: [0; 2],
        flood: false,
    };
    r.start_up();
    while r.left > 0 {
        r.activity();
    }
    // a start-up in the midst of an operation
    if r.rng.chance(30) {
        let call = r.any_operation();
        r.partly(call);
        r.left = length as i32 / 4;
        r.start_up();
        while r.left > 0 {
            r.activity();
        }
    }
    r.entries
}

impl Run<'_> {
    fn call(&mut self, call: Call) -> Answer {
        self.left -= 1;
        let e = self.session.call(&call);
        let answer = e.answer.clone();
        assert!(!matches!(answer, Answer::Panicked), "{call:?} panics");
        if let Answer::Write { reg, ep, value } = answer {
            self.done(reg, ep as usize, value);
        }
        let between = matches!(
            call,
            Call::Open(_)
                | Call::Close(_)
                | Call::Queue { .. }
                | Call::Store { .. }
                | Call::Fill(_)
                | Call::Pending(_)
                | Call::Overruns(_)
                | Call::Enabled { .. }
        );
        if !between {
            self.answer = answer.clone();
        }
        self.entries.push(e);
        answer
    }

    fn ended(&self) -> bool {
        !matches!(self.answer, Answer::Read { .. } | Answer::Write { .. } | Answer::Wait(_) | Answer::Callback)
    }

    /// Begin an operation and continue it to its end.
    fn operate(&mut self, call: Call) -> Answer {
        let interrupt = call == Call::Interrupt;
        self.status = None;
        self.call(call);
        let mut accesses = 0;
        while !self.ended() {
            accesses += 1;
            assert!(accesses < MOST_ACCESSES, "an operation without an end");
            if self.answer == Answer::Callback && !self.flood && self.rng.chance(70) {
                for _ in 0..self.rng.range(1, 3) {
                    self.user();
                }
            }
            if self.rng.chance(8) {
                self.any_store();
            }
            if interrupt && !self.flood && self.rng.chance(10) {
                self.user();
            }
            // the mark over a packet that the check has seen
            if interrupt && matches!(self.answer, Answer::Read { reg: 1, .. }) && self.rng.chance(4) {
                self.store_marks();
            }
            if self.rng.chance(2) {
                self.question();
            }
            let v = self.reading();
            self.call(Call::Continue(v));
        }
        self.answer.clone()
    }

    /// Begin an operation and continue it a little.
    fn partly(&mut self, call: Call) {
        self.plan = Plan { flags: self.rng.below(64), token: self.rng.below(4), ..Plan::default() };
        self.status = None;
        self.call(call);
        let accesses = if self.rng.chance(40) { 0 } else { self.rng.below(8) };
        for _ in 0..accesses {
            if !self.ended() {
                let v = self.reading();
                self.call(Call::Continue(v));
            }
        }
    }

    /// Any call that may hand out an access, and what it takes for that.
    fn any_operation(&mut self) -> Call {
        let (ep, dir) = self.some_endpoint().unwrap_or((0, Dir::Out));
        let on = self.rng.chance(50);
        let max = if dir == Dir::In { self.ins[ep as usize] } else { self.outs[ep as usize] }.map_or(0, |e| e.max);
        let data = self.rng.bytes(self.rng.clone().below(max as u32 + 1) as usize);
        match self.rng.below(18) {
            0 => Call::BusPoll,
            1 => Call::BusEnable,
            2 | 3 => Call::SetEnabled { ep, dir, on },
            4 => Call::SetStalled { ep, dir, on },
            5 => Call::IsStalled { ep, dir },
            6 => {
                let ep = self.one_of(Dir::In, true).unwrap_or(1);
                self.call(Call::SetPaced { ep, on: true });
                Call::Advance(ep)
            }
            7 => Call::Microframe,
            8 => Call::Read { ep, length: max as u32 },
            9 => Call::Write { ep, data },
            10 => Call::DataOut { length: 8, first: on },
            11 => Call::DataIn { data: vec![1, 2, 3], first: on, last: !on },
            12 => Call::Accept,
            13 => Call::AcceptSetAddress(ep),
            14 => Call::Reject,
            15 => {
                self.operate(Call::Setup);
                self.call(Call::PollSetup);
                self.operate(Call::AcceptSetAddress(ep));
                self.token(IN, 0, 0);
                Call::PollAccept
            }
            _ => Call::Interrupt,
        }
    }

    /// A number of the token's direction, mostly one that is allocated.
    fn some_number(&mut self, token: u32) -> u32 {
        if self.rng.chance(8) {
            return self.rng.below(16);
        }
        let of = if token == IN { &self.ins } else { &self.outs };
        let all: Vec<u32> = (0..16).filter(|&e| e == 0 || of[e as usize].is_some()).collect();
        self.rng.pick(&all)
    }

    /// Numbers of the kind asked for.
    fn numbers(&self, dir: Dir, iso: bool) -> Vec<u8> {
        let of = if dir == Dir::In { &self.ins } else { &self.outs };
        (1..16).filter(|&e| of[e as usize].is_some_and(|x| (x.kind == Kind::Isochronous) == iso)).collect()
    }

    fn one_of(&mut self, dir: Dir, iso: bool) -> Option<u8> {
        let all = self.numbers(dir, iso);
        if all.is_empty() {
            None
        } else {
            Some(self.rng.pick(&all))
        }
    }

    fn activity(&mut self) {
        match self.rng.below(1000) {
            0..=159 => {
                self.next_frame();
                let ep = if self.rng.chance(90) { 0 } else { self.rng.below(16) };
                self.token(SOF, ep, 0);
            }
            260..=379 if self.shape.long => self.iso_in(),
            160..=379 => self.iso_out(),
            380..=509 => self.iso_in(),
            510..=579 => self.bulk_out(),
            580..=629 => {
                if let Some(ep) = self.one_of(Dir::In, false) {
                    self.token(IN, ep as u32, 0);
                }
            }
            630..=669 => self.control_transfer(),
            670..=709 => {
                let (token, tog) = (self.rng.below(4), self.rng.chance(50));
                let ep = self.some_number(token);
                let (busy, moved) = (self.busy(), self.rng.chance(50));
                let flags = self.rng.below(64);
                let len = self.rng.below(70);
                self.plan = Plan { flags, token, ep, tog_ok: tog, len, busy, moved };
                self.operate(Call::Interrupt);
            }
            710..=729 => self.any_store(),
            730..=799 => self.user(),
            800..=894 => self.request(),
            895..=929 if self.shape.long && !self.rng.chance(2) => self.question(),
            895..=909 => self.bus(),
            910..=929 => self.enabling(),
            930..=954 => self.stalling(),
            955..=979 => self.pacing(),
            980..=989 => self.control_call(),
            _ => self.question(),
        }
    }

    fn start_up(&mut self) {
        self.outs = [None; 16];
        self.ins = [None; 16];
        self.receive = [None; 16];
        self.config = 0;
        self.paced = 0;
        self.requests = [0; 2];
        self.index = if self.rng.chance(10) { self.rng.pick(&[0, 1, 16382, 16383]) } else { self.rng.below(16384) };
        self.size = match (self.shape.buffer, self.shape.size, self.shape.ep0) {
            (Some(b), ..) => b.0,
            (_, Some(size), _) => size,
            (.., Some(_)) if self.shape.long => self.rng.pick(&[64, 64, 64, 512]),
            (.., Some(_)) => self.rng.pick(&[64, 64, 64, 64, 64, 64, 512, 512, 512, 512, 512, 8, 16, 32]),
            _ => self.rng.pick(&[8, 8, 16, 32, 64, 64, 512]),
        };
        let wanted = self.wanted();
        let need: u32 = wanted.iter().map(|w| buffers(w.0, w.3)).sum::<u32>() + 1;
        let most = 65_536 / self.size;
        self.count = match self.rng.below(20) {
            _ if self.shape.long => need,
            0 => self.rng.range(1, need),
            1 => most,
            2 => self.rng.range(need.min(most), most),
            _ => need + self.rng.below(3),
        }
        .min(most);
        self.count = self.shape.buffer.map_or(self.count, |b| b.1);
        self.callback = self.rng.chance(50);
        let start_up = Call::StartUp { size: self.size, count: self.count, callback: self.callback };
        // start-ups in the midst of start-ups, allocations and EP0's start
        if self.rng.chance(4) {
            self.partly(start_up.clone());
        }
        if self.rng.chance(6) {
            self.operate(start_up.clone());
            let (kind, address, maximum, dir, interval) = self.rng.pick(&wanted);
            let allocate = Call::Allocate { kind, address, maximum, interval, dir };
            let start = Call::Start(self.shape.ep0.unwrap_or(self.size.min(64) as u16));
            let midst = if self.rng.chance(60) { allocate } else { start };
            self.partly(midst);
        }
        self.operate(start_up);
        if self.rng.chance(50) {
            let seed = self.rng.next() as u8;
            self.call(Call::Fill(seed));
        }
        for (kind, address, maximum, dir, interval) in wanted {
            let a = self.operate(Call::Allocate { kind, address, maximum, interval, dir });
            if let Answer::End { result, .. } = a {
                let of = if dir == Dir::In { &mut self.ins } else { &mut self.outs };
                of[result as usize] = Some(Endpoint { kind, max: maximum });
            }
        }
        self.ep0_max = match self.shape.ep0 {
            Some(maximum) => maximum,
            None if self.rng.chance(60) => self.size.min(64) as u16,
            None => self.rng.range(0, self.size) as u16,
        };
        if matches!(self.operate(Call::Start(self.ep0_max)), Answer::Refused(_) | Answer::Outside) {
            self.left = 0;
            return;
        }
        if self.rng.chance(50) {
            self.operate(Call::BusEnable);
        }
        if self.rng.chance(80) {
            self.operate(Call::BusPoll);
        }
        self.enable_most();
    }

    /// The endpoints to allocate.
    fn wanted(&mut self) -> Vec<(Kind, Option<u8>, u16, Dir, u8)> {
        let long = self.shape.long;
        let crowd = !long && self.rng.chance(4);
        let n = match (long, crowd) {
            (true, _) => self.rng.range(2, 4),
            (_, true) => 34,
            _ => self.rng.range(1, 9),
        };
        let mut all = vec![];
        for i in 0..n {
            // long runs have a ring of each direction
            if let (true, 0 | 1) = (long, i) {
                let dir = if i == 0 { Dir::Out } else { Dir::In };
                all.push((Kind::Isochronous, None, self.size as u16, dir, self.rng.pick(&[1, 1, 2])));
                continue;
            }
            let dir = self.rng.pick(&[Dir::Out, Dir::In]);
            let kind = match self.rng.below(10) {
                0..=4 => Kind::Isochronous,
                5..=7 => Kind::Bulk,
                8 => Kind::Interrupt,
                _ if self.rng.chance(20) => Kind::Control,
                _ => Kind::Interrupt,
            };
            let address = match self.rng.below(10) {
                0..=4 => None,
                5 => Some(self.rng.next() as u8),
                _ => Some(self.rng.range(1, 8) as u8 | if dir == Dir::In { 0x80 } else { 0 }),
            };
            let maximum = match self.rng.below(8) {
                0 => self.rng.range(0, 3).min(self.size),
                1 => self.rng.range(0, self.size),
                2 => self.size - self.rng.below(4),
                _ => self.size,
            } as u16;
            let interval = self.rng.pick(&[1, 1, 1, 0, 2, 4]);
            all.push((kind, address, maximum, dir, interval));
        }
        all
    }
}

fn buffers(kind: Kind, dir: Dir) -> u32 {
    match (kind, dir) {
        (Kind::Isochronous, Dir::Out) => 16,
        (Kind::Isochronous, Dir::In) => 2,
        _ => 1,
    }
}
