//! What the chip reads and stores.

use super::*;

impl Run<'_> {
    /// The chip does a write.
    pub(super) fn done(&mut self, reg: u8, ep: usize, value: u32) {
        match reg {
            9 => self.config = value,
            12 => self.receive[0] = Some(value),
            15 => self.receive[ep] = Some(value),
            17 => self.rx_ctrl[ep] = value,
            18 => self.tx_ctrl[ep] = value,
            _ => {}
        }
    }

    pub(super) fn frame(&self) -> u32 {
        self.index >> 3 & 0x7FF | (self.index & 7) << 13
    }

    /// The longest packet that the endpoint may be said to have received.
    pub(super) fn cap(&self, ep: u32) -> u32 {
        match (ep, self.outs[ep as usize]) {
            (0, _) => self.ep0_max as u32,
            (_, Some(e)) => e.max as u32,
            (_, None) => 0xFFFF,
        }
    }

    pub(super) fn reading(&mut self) -> u32 {
        let Answer::Read { reg, ep } = self.answer else {
            // ignored by the driver
            return if self.rng.chance(5) { self.rng.next() as u32 } else { 0 };
        };
        let ep = ep as usize;
        match reg {
            0 => self.read_int_fg(),
            1 => self.read_int_st(),
            2 => self.read_mis_st(),
            3 => self.read_rx_len(),
            4 => self.read_frame_no(),
            5 => self.rng.below(64),
            17 => self.read_word(Dir::Out, ep),
            _ => self.read_word(Dir::In, ep),
        }
    }

    pub(super) fn read_int_fg(&mut self) -> u32 {
        // the second look of an interrupt: whether the transfer flag is up again
        if self.status.is_some() {
            return self.rng.below(64) & if self.rng.chance(60) { !2 } else { !0 };
        }
        self.plan.flags
    }

    pub(super) fn read_int_st(&mut self) -> u32 {
        let p = self.plan;
        let planned = p.ep | p.token << 4 | (p.tog_ok as u32) << 6;
        if self.status.is_none() {
            self.status = Some(planned);
            return planned;
        }
        let again = if self.rng.chance(45) {
            planned
        } else if self.rng.chance(30) {
            self.rng.below(128)
        } else {
            let token = self.rng.pick(&[OUT, IN, IN, SOF]);
            self.some_number(token) | token << 4 | self.rng.below(2) << 6
        };
        // a length that came with another token is not above this endpoint's maximum
        if again >> 4 & 3 == OUT && self.len > self.cap(again & 15) {
            return again | IN << 4;
        }
        again
    }

    pub(super) fn read_mis_st(&mut self) -> u32 {
        let suspend = self.rng.below(2) << 1;
        if self.plan.busy == 0 && self.rng.chance(6) {
            self.plan.busy = self.rng.range(1, 3);
        }
        if self.plan.busy > 0 {
            self.plan.busy -= 1;
            return suspend;
        }
        suspend | 1
    }

    pub(super) fn read_rx_len(&mut self) -> u32 {
        let st = self.status.unwrap_or(0);
        let cap = if st >> 4 & 3 == OUT { self.cap(st & 15) } else { self.size };
        let len = match self.rng.below(10) {
            0 => 0,
            1 => self.rng.range(0, cap),
            _ => self.plan.len,
        };
        self.len = len.min(cap);
        self.len
    }

    pub(super) fn read_frame_no(&mut self) -> u32 {
        match self.rng.below(60) {
            0 => 0x1800,
            1 => self.rng.below(0x10000),
            2 => self.frame() | self.rng.below(4) << 11,
            _ => self.frame(),
        }
    }

    /// The control word of an endpoint; the chip may have flipped its toggle.
    pub(super) fn read_word(&mut self, dir: Dir, ep: usize) -> u32 {
        if self.rng.chance(4) {
            return self.rng.below(256);
        }
        let moves = self.plan.moved && self.rng.chance(70);
        let word = if dir == Dir::In { &mut self.tx_ctrl[ep] } else { &mut self.rx_ctrl[ep] };
        if moves {
            self.plan.moved = false;
            *word ^= 4;
        }
        *word
    }

    pub(super) fn packet(&mut self, n: usize) -> Vec<u8> {
        const MARK: [u8; 4] = [0xC3, 0xA5, 0x3C, 0x5A];
        let mut data = self.rng.bytes(n);
        // words or last bytes that look like the mark
        if self.rng.chance(12) && n > 0 {
            let from = self.rng.below(n as u32) as usize;
            for (i, b) in data.iter_mut().enumerate().skip(from) {
                *b = MARK[i % 4];
            }
            if self.rng.chance(40) {
                data[n - 1] = self.rng.next() as u8;
            }
        }
        data
    }

    /// The chip stores a packet where it receives for `ep`.
    pub(super) fn store(&mut self, ep: usize, n: u32) {
        if let Some(offset) = self.receive[ep] {
            let data = self.packet(n.min(self.size) as usize);
            if !data.is_empty() {
                self.call(Call::Store { offset, data });
            }
        }
    }

    pub(super) fn any_store(&mut self) {
        let all: Vec<usize> = (0..16).filter(|&e| self.receive[e].is_some()).collect();
        if !all.is_empty() {
            let ep = self.rng.pick(&all);
            let n = self.rng.range(0, self.cap(ep as u32).min(self.size));
            self.store(ep, n);
        }
    }

    pub(super) fn store_marks(&mut self) {
        if let Some(ep) = self.one_of(Dir::Out, true) {
            let max = self.outs[ep as usize].unwrap().max as usize;
            if let (Some(offset), 4..) = (self.receive[ep as usize], max) {
                let data = [0xC3, 0xA5, 0x3C, 0x5A].repeat(max / 4);
                self.call(Call::Store { offset, data });
            }
        }
    }
}
