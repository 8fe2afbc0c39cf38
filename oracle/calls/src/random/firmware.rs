//! What the firmware calls besides the interrupt.

use super::*;

impl Run<'_> {
    /// Open, close or queue: between operations or in an interrupt.
    pub(super) fn user(&mut self) {
        match self.rng.below(12) {
            0..=3 => {
                if let Some(ep) = self.one_of(Dir::Out, true) {
                    self.call(Call::Open(ep));
                    if self.rng.chance(70) {
                        self.call(Call::Close(ep));
                    }
                }
            }
            4 | 5 => {
                if let Some(ep) = self.one_of(Dir::Out, true) {
                    self.call(Call::Close(ep));
                }
            }
            6..=10 => {
                if let Some(ep) = self.one_of(Dir::In, true) {
                    let n = match self.rng.below(20) {
                        0 => self.size + 1,
                        1 => self.size,
                        2 => 0,
                        _ => self.rng.range(0, self.ins[ep as usize].unwrap().max as u32),
                    };
                    let data = self.packet(n as usize);
                    self.call(Call::Queue { ep, data });
                }
            }
            _ => {
                let iso = self.rng.chance(30);
                if let Some(ep) = self.one_of(Dir::Out, iso) {
                    self.call(Call::Open(ep));
                }
                if let Some(ep) = self.one_of(Dir::In, iso) {
                    let data = self.packet(3);
                    self.call(Call::Queue { ep, data });
                }
            }
        }
    }

    pub(super) fn question(&mut self) {
        let (mut ep, mut dir) = (self.rng.below(17) as u8, self.rng.pick(&[Dir::Out, Dir::In]));
        if let (Some(one), true) = (self.some_endpoint(), self.rng.chance(80)) {
            (ep, dir) = one;
        }
        match self.rng.below(3) {
            0 => self.call(Call::Pending(ep)),
            1 => self.call(Call::Overruns(ep)),
            _ => self.call(Call::Enabled { ep, dir }),
        };
    }

    pub(super) fn request(&mut self) {
        let iso = self.rng.chance(40);
        if self.rng.chance(50) {
            let Some(ep) = self.one_of(Dir::Out, iso) else { return };
            if self.rng.chance(50) || !self.begun(ep, Dir::Out) {
                let max = self.outs[ep as usize].unwrap().max as u32;
                let length = match self.rng.below(10) {
                    0 if max > 0 => self.rng.below(max),
                    1 => max + self.rng.below(9),
                    _ => max,
                };
                self.begin(ep, Dir::Out, Call::Read { ep, length });
            }
            if self.rng.chance(75) {
                self.poll(ep, Dir::Out);
            }
        } else {
            let Some(ep) = self.one_of(Dir::In, iso) else { return };
            if self.rng.chance(50) || !self.begun(ep, Dir::In) {
                let max = self.ins[ep as usize].unwrap().max as u32;
                let n = match self.rng.below(10) {
                    0 => max + 1,
                    1 => max,
                    _ => self.rng.range(0, max),
                };
                let data = self.rng.bytes(n as usize);
                self.begin(ep, Dir::In, Call::Write { ep, data });
            }
            if self.rng.chance(75) {
                self.poll(ep, Dir::In);
            }
        }
    }

    fn begun(&self, ep: u8, dir: Dir) -> bool {
        self.requests[dir as usize] >> ep & 1 != 0
    }

    /// The begin of a read or a write.
    fn begin(&mut self, ep: u8, dir: Dir, call: Call) {
        if !matches!(self.operate(call), Answer::Refused(_)) {
            self.requests[dir as usize] |= 1 << ep;
        }
    }

    /// A poll, if a request was begun.
    fn poll(&mut self, ep: u8, dir: Dir) {
        let call = if dir == Dir::Out { Call::PollRead(ep) } else { Call::PollWrite(ep) };
        if self.begun(ep, dir) && self.call(call) != Answer::NotYet {
            self.requests[dir as usize] &= !(1 << ep);
        }
    }

    /// Poll every request that was begun.
    pub(super) fn poll_all(&mut self) {
        for ep in 1..16 {
            self.poll(ep, Dir::Out);
            self.poll(ep, Dir::In);
        }
    }

    pub(super) fn bus(&mut self) {
        self.plan = Plan::default();
        match self.rng.below(12) {
            0 => {
                self.operate(Call::BusEnable);
            }
            1 => {
                self.operate(Call::BusDisable);
            }
            2..=4 => self.reset_on_packets(),
            _ => {
                self.plan.flags = self.rng.pick(&[0, 2, 4, 4, 6, 32, 1, 5]);
                let reset = self.plan.flags & 1 != 0;
                if self.rng.chance(40) {
                    self.operate(Call::Interrupt);
                    self.status = None;
                }
                self.operate(Call::BusPoll);
                if reset && (self.shape.long || self.rng.chance(85)) {
                    self.enable_most();
                }
            }
        }
    }

    /// A bus reset, or endpoints disabled, while packets wait and are open; then the questions and what the reset left.
    fn reset_on_packets(&mut self) {
        let (outs, ins) = (self.numbers(Dir::Out, true), self.numbers(Dir::In, true));
        for &ep in &outs {
            if self.rng.chance(70) {
                self.call(Call::Open(ep));
            }
        }
        for &ep in &ins {
            for _ in 0..self.rng.below(4) {
                let data = self.packet(5);
                self.call(Call::Queue { ep, data });
            }
        }
        if self.rng.chance(70) {
            self.plan.flags = 1;
            self.operate(Call::BusPoll);
            self.operate(Call::BusPoll);
        } else if let Some((ep, dir)) = self.some_endpoint() {
            let on = self.rng.chance(40);
            self.operate(Call::SetEnabled { ep, dir, on });
        }
        for &ep in &outs {
            self.call(Call::Overruns(ep));
            let calls = [Call::Close(ep), Call::Open(ep), Call::Close(ep)];
            for call in calls {
                if self.rng.chance(60) {
                    self.call(call);
                }
            }
        }
        for &ep in &ins {
            self.call(Call::Pending(ep));
        }
        self.poll_all();
        self.enable_most();
    }

    pub(super) fn enable_most(&mut self) {
        for ep in 1..16 {
            for dir in [Dir::Out, Dir::In] {
                let of = if dir == Dir::In { &self.ins } else { &self.outs };
                if of[ep].is_some() && (self.shape.long || self.rng.chance(90)) {
                    self.operate(Call::SetEnabled { ep: ep as u8, dir, on: true });
                }
            }
        }
    }

    pub(super) fn some_endpoint(&mut self) -> Option<(u8, Dir)> {
        let (dir, iso) = (self.rng.pick(&[Dir::Out, Dir::In]), self.rng.chance(50));
        self.one_of(dir, iso).map(|ep| (ep, dir))
    }

    pub(super) fn enabling(&mut self) {
        let Some((ep, dir)) = self.some_endpoint() else { return };
        let on = self.rng.chance(50);
        self.operate(Call::SetEnabled { ep, dir, on });
        if !on && (self.shape.long || self.rng.chance(70)) {
            self.poll_all();
            if self.rng.chance(50) {
                self.request();
            }
            self.operate(Call::SetEnabled { ep, dir, on: true });
        }
    }

    pub(super) fn stalling(&mut self) {
        let Some((mut ep, dir)) = self.some_endpoint() else { return };
        if self.rng.chance(20) {
            ep = 0;
        }
        match self.rng.below(3) {
            0 => self.operate(Call::IsStalled { ep, dir }),
            1 => self.operate(Call::SetStalled { ep, dir, on: true }),
            _ => self.operate(Call::SetStalled { ep, dir, on: false }),
        };
        // requests that wait on it
        if self.rng.chance(30) {
            self.poll_all();
        }
    }

    pub(super) fn pacing(&mut self) {
        let ep = match self.one_of(Dir::In, true) {
            Some(ep) if self.rng.chance(92) => ep,
            _ => self.rng.range(1, 15) as u8,
        };
        if self.rng.chance(12) {
            self.operate(Call::Microframe);
        }
        if self.rng.chance(if self.paced >> ep & 1 != 0 { 15 } else { 50 }) {
            let on = self.rng.chance(70);
            self.paced = self.paced & !(1 << ep) | (on as u32) << ep;
            self.call(Call::SetPaced { ep, on });
        }
        // paced anew: what was advanced before does not count
        if self.paced >> ep & 1 != 0 && self.rng.chance(15) {
            self.operate(Call::Advance(ep));
            (0..3).for_each(|_| self.next_frame());
            self.call(Call::SetPaced { ep, on: true });
        }
        for _ in 0..self.rng.range(1, 3) {
            if self.rng.chance(60) {
                self.next_frame();
            }
            if self.rng.chance(50) {
                self.user();
            }
            self.operate(Call::Advance(ep));
        }
    }
}
