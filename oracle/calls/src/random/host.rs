//! What the host sends: tokens and control transfers.

use super::*;

impl Run<'_> {
    pub(super) fn interrupt(&mut self, plan: Plan) {
        self.plan = plan;
        for (bit, percent) in [(1, 2), (4, 2), (8, 3), (16, 3), (32, 1)] {
            if self.rng.chance(percent) {
                self.plan.flags |= bit;
            }
        }
        self.operate(Call::Interrupt);
    }

    pub(super) fn busy(&mut self) -> u32 {
        match self.rng.below(300) {
            0 => 4100,
            1 => 2001 + self.rng.below(4),
            2..=100 => self.rng.range(1, 5),
            _ => 0,
        }
    }

    pub(super) fn token(&mut self, token: u32, ep: u32, len: u32) {
        let busy = self.busy();
        let tog_ok = self.rng.chance(88);
        let moved = self.rng.chance(75);
        self.interrupt(Plan { flags: 2, token, ep, tog_ok, len, busy, moved });
    }

    pub(super) fn next_frame(&mut self) {
        self.index = match self.rng.below(12) {
            0 => self.index + self.rng.range(2, 5),
            1 if self.rng.chance(30) => self.rng.below(16384),
            _ => self.index + 1,
        } & 16383;
    }

    pub(super) fn iso_out(&mut self) {
        let Some(ep) = self.one_of(Dir::Out, true) else { return };
        let max = self.outs[ep as usize].unwrap().max as u32;
        let n = match self.rng.below(8) {
            0 => 0,
            1 => max,
            _ => self.rng.range(0, max),
        };
        if self.rng.chance(30) {
            self.next_frame();
        }
        // a flood fills the ring
        let times = if self.rng.chance(8) { self.rng.range(14, 20) } else { 1 };
        self.flood = times > 1;
        for _ in 0..times {
            let n = if self.flood { n.max(1).min(max) } else { n };
            self.store(ep as usize, n);
            if self.rng.chance(80) {
                self.token(OUT, ep as u32, n);
            } else if self.rng.chance(50) {
                let token = self.rng.pick(&[IN, OUT]);
                let other = self.some_number(token);
                self.token(token, other, n);
            }
        }
        self.flood = false;
    }

    pub(super) fn iso_in(&mut self) {
        let Some(ep) = self.one_of(Dir::In, true) else { return };
        if self.rng.chance(40) {
            self.next_frame();
        }
        self.token(IN, ep as u32, 0);
    }

    pub(super) fn bulk_out(&mut self) {
        let Some(ep) = self.one_of(Dir::Out, false) else { return };
        let n = self.rng.range(0, self.cap(ep as u32));
        self.store(ep as usize, n);
        self.token(OUT, ep as u32, n);
    }

    /// The host sends a setup packet.
    pub(super) fn setup_packet(&mut self) {
        let data = self.rng.bytes(8);
        if let Some(offset) = self.receive[0] {
            self.call(Call::Store { offset, data });
        }
        let flags = if self.rng.chance(80) { 32 } else { 34 };
        let (busy, moved) = (self.busy(), false);
        self.interrupt(Plan { flags, token: SETUP, ep: 0, tog_ok: true, len: 8, busy, moved });
    }

    pub(super) fn ep0_len(&mut self) -> u32 {
        let max = self.ep0_max as u32;
        match self.rng.below(8) {
            0 => max,
            1 => 0,
            2 if self.rng.chance(40) => max + 1,
            _ => self.rng.range(0, max),
        }
    }

    /// An EP0 transaction that the interrupt mostly sees.
    pub(super) fn ep0_token(&mut self, token: u32, len: u32) {
        if self.rng.chance(88) {
            self.token(token, 0, len);
        }
        if self.rng.chance(5) {
            self.setup_packet();
        }
        if self.rng.chance(10) {
            self.user();
        }
    }

    pub(super) fn control_transfer(&mut self) {
        self.setup_packet();
        if self.rng.chance(92) {
            self.operate(Call::Setup);
            self.call(Call::PollSetup);
        }
        match self.rng.below(8) {
            0..=2 => self.control_in(),
            3..=5 => self.control_out(),
            6 => self.accepting(),
            _ => {
                self.operate(Call::Reject);
            }
        }
    }

    pub(super) fn control_in(&mut self) {
        let n = self.rng.range(1, 3);
        for i in 0..n {
            let len = self.ep0_len() as usize;
            let data = self.rng.bytes(len);
            if matches!(self.operate(Call::DataIn { data, first: i == 0, last: i + 1 == n }), Answer::Refused(_)) {
                return;
            }
            if self.rng.chance(40) {
                self.call(Call::PollDataIn);
            }
            self.ep0_token(IN, 0);
            if i + 1 == n {
                if self.rng.chance(40) {
                    self.call(Call::PollDataIn);
                }
                let closing = if self.rng.chance(90) { 0 } else { self.rng.range(0, self.ep0_max as u32) };
                self.ep0_token(OUT, closing);
            }
            self.call(Call::PollDataIn);
        }
    }

    pub(super) fn control_out(&mut self) {
        for i in 0..self.rng.range(1, 3) {
            let length = self.ep0_len();
            if matches!(self.operate(Call::DataOut { length, first: i == 0 }), Answer::Refused(_)) {
                return;
            }
            let cap = self.ep0_max as u32;
            let n = if self.rng.chance(85) { length.min(cap) } else { self.rng.range(0, cap) };
            if self.rng.chance(90) {
                self.store(0, n);
                self.ep0_token(OUT, n);
            } else {
                self.ep0_token(IN, 0);
            }
            self.call(Call::PollDataOut);
        }
        self.accepting();
    }

    pub(super) fn accepting(&mut self) {
        let a = if self.rng.chance(60) {
            self.operate(Call::Accept)
        } else {
            let address = self.rng.below(256) as u8;
            self.operate(Call::AcceptSetAddress(address))
        };
        if matches!(a, Answer::Refused(_)) {
            return;
        }
        if self.rng.chance(30) {
            self.poll_accept();
        }
        self.ep0_token(IN, 0);
        self.poll_accept();
    }

    pub(super) fn poll_accept(&mut self) {
        self.call(Call::PollAccept);
        while !self.ended() {
            self.call(Call::Continue(0));
        }
    }

    /// A control call on its own: a stage that is abandoned, or one that a setup interrupts.
    pub(super) fn control_call(&mut self) {
        if self.rng.chance(40) {
            self.setup_packet();
        }
        let len = self.ep0_len();
        let (first, last) = (self.rng.chance(50), self.rng.chance(50));
        let data = self.rng.bytes(len as usize);
        match self.rng.below(8) {
            0 => self.operate(Call::DataIn { data, first, last }),
            1 => self.operate(Call::DataOut { length: len, first }),
            2 => self.operate(Call::Accept),
            3 => self.operate(Call::AcceptSetAddress(len as u8)),
            4 => self.operate(Call::Reject),
            5 => self.operate(Call::Setup),
            6 => self.call(Call::PollDataIn),
            _ => self.call(Call::PollDataOut),
        };
        if self.rng.chance(40) {
            self.call(Call::PollDataOut);
            self.call(Call::PollSetup);
            self.call(Call::PollDataIn);
            self.poll_accept();
        }
    }
}
