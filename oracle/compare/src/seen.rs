//! What the runs came by: rings that go round, overruns, resets on packets, start-ups in the midst of operations.
//! Counted from the calls and answers alone.

use std::collections::BTreeSet;

use oracle::number::call;
use oracle::text::Entry;
use oracle::{Answer, Call, Dir};

const EP_CONFIG: u8 = 9;
const EP_RX_DMA: u8 = 15;

/// An isochronous OUT's packets since its last reset: how many, how many wait, whether one is open.
#[derive(Clone, Copy, Default)]
struct Ring {
    stretch: usize,
    waiting: usize,
    open: bool,
}

#[derive(Default)]
pub struct Seen {
    outs: [Ring; 16],
    /// An isochronous IN's packets queued since its last reset.
    ins: [usize; 16],
    receive: [u32; 16],
    under_way: Option<Call>,
    /// Packets turned away, and answers of `overruns` above 0.
    pub turned_away: usize,
    pub overruns_told: usize,
    /// The longest stretches without a reset.
    pub most_out: usize,
    pub most_in: usize,
    /// Queues refused with two packets waiting.
    pub two_wait: usize,
    /// Resets of a ring with packets waiting, and with one open.
    pub resets_waiting: usize,
    pub resets_open: usize,
    /// Start-ups in the midst of an operation, and of which calls (FORMAT.md's numbers).
    pub start_ups: usize,
    pub midst: BTreeSet<u8>,
}

impl Seen {
    /// A new list.
    pub fn list(&mut self) {
        self.outs = Default::default();
        self.ins = Default::default();
        self.under_way = None;
    }

    fn reset_out(&mut self, ep: usize) {
        let ring = std::mem::take(&mut self.outs[ep]);
        self.resets_waiting += (ring.waiting > 0) as usize;
        self.resets_open += ring.open as usize;
    }

    fn read(&mut self, ep: u8) {
        let ring = &mut self.outs[ep as usize];
        ring.waiting = ring.waiting.saturating_sub(1);
        ring.open = false;
    }

    /// An interrupt hands out a receive address: of the next slot, or of the same again.
    fn received(&mut self, ep: usize, at: u32) {
        if std::mem::replace(&mut self.receive[ep], at) == at {
            self.turned_away += 1;
        } else {
            let ring = &mut self.outs[ep];
            ring.waiting += 1;
            ring.stretch += 1;
            self.most_out = self.most_out.max(ring.stretch);
        }
    }

    pub fn feed(&mut self, e: &Entry) {
        let accepted = !matches!(e.answer, Answer::Refused(_) | Answer::Outside);
        match (&e.call, &e.answer) {
            (Call::StartUp { .. }, Answer::Write { .. }) => {
                if let Some(under_way) = self.under_way.take() {
                    self.start_ups += 1;
                    self.midst.insert(call(&under_way).0);
                }
                self.list();
            }
            (&Call::SetEnabled { ep, dir: Dir::Out, .. }, Answer::Write { .. }) => self.reset_out(ep as usize),
            (&Call::SetEnabled { ep, .. }, Answer::Write { .. }) => self.ins[ep as usize] = 0,
            (Call::Queue { .. }, Answer::Refused(13)) => self.two_wait += 1,
            (&Call::Queue { ep, .. }, Answer::End { .. }) => {
                self.ins[ep as usize] += 1;
                self.most_in = self.most_in.max(self.ins[ep as usize]);
            }
            (&Call::Open(ep), Answer::Shown { .. }) => self.outs[ep as usize].open = true,
            (&Call::Close(ep), Answer::End { .. }) | (&Call::PollRead(ep), Answer::Done { .. }) => self.read(ep),
            (Call::Overruns(_), Answer::Number(1..)) => self.overruns_told += 1,
            _ => {}
        }
        let between = matches!(e.call, Call::Continue(_) | Call::Open(_) | Call::Close(_) | Call::Queue { .. });
        match e.answer {
            Answer::Read { .. } | Answer::Write { .. } | Answer::Wait(_) | Answer::Callback if !between => {
                self.under_way = Some(e.call.clone());
            }
            Answer::End { .. } if accepted && (matches!(e.call, Call::Continue(_)) || !between) => {
                self.under_way = None
            }
            _ => {}
        }
        match (&self.under_way, &e.answer) {
            (Some(Call::Interrupt), &Answer::Write { reg: EP_RX_DMA, ep, value }) => self.received(ep as usize, value),
            (_, &Answer::Write { reg: EP_RX_DMA, ep, value }) => self.receive[ep as usize] = value,
            (Some(Call::BusPoll), Answer::Write { reg: EP_CONFIG, .. }) => {
                (0..16).for_each(|ep| self.reset_out(ep));
                self.ins = Default::default();
            }
            _ => {}
        }
    }

    /// What a test's runs have to come by and did not.
    pub fn missing(&self) -> Vec<&'static str> {
        let wanted = [
            (self.turned_away > 0, "a packet turned away"),
            (self.overruns_told > 0, "an overrun told"),
            (self.most_out > 256, "an OUT ring whose counters go round"),
            (self.most_in > 256, "an IN ring whose counters go round"),
            (self.two_wait > 0, "two packets waiting"),
            (self.resets_waiting > 0, "a reset on waiting packets"),
            (self.resets_open > 0, "a reset on an open packet"),
            (self.midst.len() >= MIDST, "start-ups in the midst of every operation"),
        ];
        wanted.into_iter().filter(|w| !w.0).map(|w| w.1).collect()
    }
}

/// The calls that hand out an access before their end: start-up, allocation, EP0's start, the interrupt, the bus's
/// poll and enable, enabling, stalls set and asked, advance, microframe, read, write, data_out, data_in, the two
/// accepts, an accept's poll, reject.
const MIDST: usize = 19;
