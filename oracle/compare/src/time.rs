//! The bus time of request Seven, which the Rust does not have: what it must be is worked out from its run.

use oracle::text::Entry;
use oracle::{Answer, Call, Dir, Kind};

const EP_CONFIG: u8 = 9;
const EP_MAX_LEN: u8 = 13;

/// The byte-times of a microframe that periodic transfers may use (USB 2.0, chapter 5).
const PERIODIC: u32 = 6000;

fn bit(ep: u8, dir: Dir) -> usize {
    ep as usize % 16 + if dir == Dir::Out { 16 } else { 0 }
}

/// What each endpoint would be charged, by its bit of ep_config, and which ones are.
#[derive(Default)]
pub struct Time {
    charges: [u32; 32],
    charged: [bool; 32],
}

impl Time {
    pub fn in_use(&self) -> u32 {
        self.charges.iter().zip(self.charged).map(|(c, on)| if on { *c } else { 0 }).sum()
    }

    /// Is it an enabling that the Rust begins and with which the time in use would pass the limit?
    pub fn turns_down(&self, e: &Entry) -> bool {
        match (&e.call, &e.answer) {
            (&Call::SetEnabled { ep, dir, on: true }, Answer::Write { .. }) => {
                let k = bit(ep, dir);
                let own = if self.charged[k] { self.charges[k] } else { 0 };
                self.in_use() - own + self.charges[k] > PERIODIC
            }
            _ => false,
        }
    }

    /// What an entry leaves.
    pub fn feed(&mut self, e: &Entry) {
        match (&e.call, &e.answer) {
            (Call::StartUp { .. }, Answer::Write { .. }) => *self = Self::default(),
            (&Call::Allocate { kind, maximum, dir, .. }, &Answer::Write { reg: EP_MAX_LEN, ep, .. }) => {
                self.charges[bit(ep, dir)] = match kind {
                    Kind::Isochronous => u32::from(maximum) + 38,
                    Kind::Interrupt => u32::from(maximum) + 55,
                    _ => 0,
                };
            }
            (&Call::SetEnabled { ep, dir, on: true }, Answer::Write { .. }) => self.charged[bit(ep, dir)] = true,
            (Call::Continue(_), &Answer::Write { reg: EP_CONFIG, value, .. }) => {
                for (k, on) in self.charged.iter_mut().enumerate() {
                    *on = *on && value >> k & 1 == 1;
                }
            }
            _ => {}
        }
    }
}

/// For each call its place in the run and the time in use after it.
pub fn expected(entries: &[Entry]) -> Vec<(usize, u32)> {
    let mut time = Time::default();
    let mut all = vec![];
    for (i, e) in entries.iter().enumerate() {
        time.feed(e);
        if e.answer != Answer::Stored {
            all.push((i, time.in_use()));
        }
    }
    all
}
