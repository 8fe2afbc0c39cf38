//! Request Eight: what a run of the Rust is by the rule of document 02. Arming marks word 0 and every word up to the endpoint's maximum; a packet whose
//! length did not come with its interrupt is as long as the marks in its slot say. Accesses and wake-ups stay the Rust's; slot bytes of isochronous OUT
//! endpoints, and the lengths and bytes of such packets in the answers of open and of a read's poll, are worked out here.

use std::collections::VecDeque;

use oracle::replay::changes;
use oracle::text::Entry;
use oracle::{Answer, Call, Dir, Kind};

const INT_FG: u8 = 0;
const INT_ST: u8 = 1;
const MIS_ST: u8 = 2;
const RX_LEN: u8 = 3;
const FRAME_NO: u8 = 4;
const EP_CONFIG: u8 = 9;
const EP_RX_DMA: u8 = 15;

const TRANSFER: u32 = 2;

/// 0x5A3CA5C3, lowest byte first.
const MARK: [u8; 4] = [0xC3, 0xA5, 0x3C, 0x5A];

/// "Arming marks word 0 and every word up to the endpoint's maximum, rounded up to whole words."
fn arm(slot: &mut [u8], maximum: usize) {
    for word in slot[..maximum.max(1).div_ceil(4) * 4].chunks_mut(4) {
        word.copy_from_slice(&MARK);
    }
}

/// "The length by marks is one more than the place of the last byte, of those before the maximum, that differs from the mark's byte there, or 0 if
/// none does."
fn marked_len(slot: &[u8], maximum: usize) -> u32 {
    let differs = |k: &usize| slot[*k] != MARK[k % 4];
    (0..maximum).rev().find(differs).map_or(0, |k| k as u32 + 1)
}

/// The transfer of the interrupt under way, as its readings tell it: whose packet's length came with this interrupt (mod.rs 655-792).
#[derive(Default)]
struct Transfer {
    busy: bool,
    status: u32,
    released: bool,
    ok: bool,
    begun: bool,
}

fn is_out(status: u32) -> bool {
    status >> 4 & 3 == 0
}

impl Transfer {
    /// A reading, in the interrupt's order; `iso` are the isochronous OUT endpoints.
    fn read(&mut self, reg: u8, value: u32, iso: impl Fn(usize) -> bool) {
        if self.begun {
            return;
        }
        let own = self.busy && is_out(self.status) && iso(self.status as usize & 15);
        match (reg, self.released) {
            (MIS_ST, false) => self.busy = value & 1 == 0,
            (INT_ST, false) => self.status = value,
            (INT_ST, true) if own => self.ok = is_out(value) && (value ^ self.status) & 15 == 0,
            (RX_LEN, true) if own => self.ok &= value != 0,
            (FRAME_NO, true) => {
                self.ok = if self.busy { own && self.ok } else { true };
                self.begun = true;
            }
            _ => {}
        }
    }

    /// The endpoint whose packet's length came with this interrupt.
    fn entry(&self) -> Option<usize> {
        (self.begun && self.ok && is_out(self.status) && self.status & 0x40 != 0).then_some(self.status as usize & 15)
    }
}

#[derive(Default)]
enum Under {
    #[default]
    Other,
    /// of an isochronous OUT endpoint, with its maximum
    Allocation(u16),
    Enabling,
    BusPoll,
    Interrupt(Transfer),
}

/// A packet that was admitted: its slot, and its length where the marks told it.
struct Packet {
    at: u32,
    late: Option<u32>,
}

#[derive(Default)]
struct Rule {
    /// The bytes of the slots: the Rust's, and by the rule.
    rust: Vec<u8>,
    slots: Vec<u8>,
    geometry: (u32, u32),
    /// This call brings another buffer than the last one left.
    brought: bool,
    under: Under,
    /// The reading that is awaited.
    awaited: Option<u8>,
    /// The maxima of isochronous OUT endpoints, their last receive addresses, their packets.
    iso: [Option<u16>; 16],
    receive: [u32; 16],
    waiting: [VecDeque<Packet>; 16],
    lengths: Lengths,
}

/// How many lengths the marks told, and of how many of these the Rust says another.
#[derive(Default, Clone, Copy)]
pub struct Lengths {
    pub late: usize,
    pub otherwise: usize,
}

impl Rule {
    /// Another size or count brings another buffer, of zeros.
    fn start_up(&mut self, size: u32, count: u32) {
        if self.geometry != (size, count) {
            self.geometry = (size, count);
            self.rust = vec![0; (size * count) as usize];
            if self.slots.len() != self.rust.len() {
                self.slots = self.rust.clone();
            }
            self.brought = true;
        }
        self.under = Under::Other;
        self.iso = [None; 16];
        self.receive = [0; 16];
        self.waiting = Default::default();
    }

    /// What the accepted call begins.
    fn begin(&mut self, call: &Call) {
        self.under = match *call {
            Call::Continue(_) => return,
            Call::Allocate { kind: Kind::Isochronous, dir: Dir::Out, maximum, .. } => Under::Allocation(maximum),
            Call::SetEnabled { ep, dir: Dir::Out, .. } => {
                self.waiting[ep as usize & 15].clear();
                Under::Enabling
            }
            Call::BusPoll => Under::BusPoll,
            Call::Interrupt => Under::Interrupt(Transfer::default()),
            _ => Under::Other,
        };
        self.awaited = None;
    }

    /// The value that a continue brings.
    fn bring(&mut self, value: u32) {
        if let (Some(reg), Under::Interrupt(x)) = (self.awaited.take(), &mut self.under) {
            x.read(reg, value, |e| self.iso[e].is_some());
        }
    }

    /// A receive address is handed out: where a slot is armed by it, its maximum.
    fn receives(&mut self, ep: usize, at: u32) -> Option<usize> {
        let filled = std::mem::replace(&mut self.receive[ep], at);
        match &self.under {
            Under::Allocation(maximum) => {
                self.iso[ep] = Some(*maximum);
                None
            }
            Under::Enabling => self.iso[ep].map(usize::from),
            Under::Interrupt(x) => {
                let maximum = self.iso[ep].expect("an isochronous OUT endpoint") as usize;
                if filled != at {
                    let late = (x.entry() != Some(ep)).then(|| marked_len(&self.slots[filled as usize..], maximum));
                    self.waiting[ep].push_back(Packet { at: filled, late });
                }
                Some(maximum)
            }
            _ => None,
        }
    }

    /// The length by the rule of the packet that the Rust gives.
    fn length(&mut self, p: &Packet, rust: u32) -> u32 {
        let length = p.late.unwrap_or(rust);
        self.lengths.late += p.late.is_some() as usize;
        self.lengths.otherwise += (length != rust) as usize;
        length
    }

    /// The slot bytes that the call changes.
    fn changed(&mut self, e: &Entry) -> Vec<(u32, Vec<u8>)> {
        for (at, bytes) in &e.changed {
            let at = *at as usize;
            self.rust[at..at + bytes.len()].copy_from_slice(bytes);
        }
        let armed = match e.answer {
            Answer::Write { reg: EP_RX_DMA, ep, value } => {
                self.receives(ep as usize, value).map(|maximum| (value as usize, maximum))
            }
            _ => None,
        };
        let brought = std::mem::take(&mut self.brought);
        if armed.is_none() && e.changed.is_empty() && !brought {
            return vec![];
        }
        let mut now = self.slots.clone();
        match armed {
            Some((at, maximum)) => arm(&mut now[at..], maximum),
            None if brought => now.copy_from_slice(&self.rust),
            None => {
                for (at, bytes) in &e.changed {
                    let at = *at as usize;
                    now[at..at + bytes.len()].copy_from_slice(bytes);
                }
            }
        }
        changes(&mut self.slots, &now)
    }

    fn answer(&mut self, e: &Entry) -> Answer {
        match (&e.call, &e.answer) {
            (Call::Open(ep), Answer::Shown { offset, length }) => {
                let p = self.waiting[*ep as usize].pop_front().expect("a packet");
                assert_eq!(p.at, *offset);
                let length = self.length(&p, *length);
                self.waiting[*ep as usize].push_front(p);
                Answer::Shown { offset: *offset, length }
            }
            (Call::PollRead(ep), Answer::Done { length, bytes }) if self.iso[*ep as usize].is_some() => {
                let p = self.waiting[*ep as usize].pop_front().expect("a packet");
                let at = p.at as usize;
                assert_eq!(self.rust[at..at + bytes.len()], bytes[..]);
                let length = self.length(&p, *length);
                Answer::Done { length, bytes: self.slots[at..at + length as usize].to_vec() }
            }
            (Call::Close(ep), Answer::End { .. }) => {
                self.waiting[*ep as usize].pop_front().expect("a packet");
                e.answer.clone()
            }
            (_, answer) => answer.clone(),
        }
    }

    fn store(&mut self, call: &Call) {
        for slots in [&mut self.rust, &mut self.slots] {
            match call {
                Call::Store { offset, data } => slots[*offset as usize..][..data.len()].copy_from_slice(data),
                Call::Fill(seed) => {
                    slots.iter_mut().enumerate().for_each(|(i, b)| *b = (*seed as usize + i * 37) as u8)
                }
                _ => unreachable!(),
            }
        }
    }

    /// The entry by the rule; after a start-up, the Rust's bytes as stores where the last run left others.
    fn entry(&mut self, e: &Entry, all: &mut Vec<Entry>) {
        match (&e.call, &e.answer) {
            (_, Answer::Stored) => self.store(&e.call),
            (Call::StartUp { size, count, .. }, Answer::Write { .. }) => self.start_up(*size, *count),
            (_, Answer::Refused(_) | Answer::Outside | Answer::Panicked) => {
                all.push(e.clone());
                return;
            }
            (Call::Continue(value), _) => self.bring(*value),
            (call, Answer::Read { .. } | Answer::Write { .. } | Answer::Wait(_) | Answer::Callback) => self.begin(call),
            _ => {}
        }
        match (&e.answer, &mut self.under) {
            (Answer::Read { reg, .. }, _) => self.awaited = Some(*reg),
            (Answer::Write { reg: INT_FG, value: TRANSFER, .. }, Under::Interrupt(x)) => x.released = true,
            (Answer::Write { reg: EP_CONFIG, .. }, Under::BusPoll) => self.waiting.iter_mut().for_each(VecDeque::clear),
            _ => {}
        }
        let answer = self.answer(e);
        let changed = self.changed(e);
        all.push(Entry { call: e.call.clone(), answer, changed });
        if matches!(e.call, Call::StartUp { .. }) && self.slots != self.rust {
            self.slots.copy_from_slice(&self.rust);
            let call = Call::Store { offset: 0, data: self.rust.clone() };
            all.push(Entry { call, answer: Answer::Stored, changed: vec![] });
        }
    }
}

/// A run of the Rust, as the rule has it.
pub fn by_rule(entries: &[Entry]) -> (Vec<Entry>, Lengths) {
    let mut rule = Rule::default();
    let mut all = vec![];
    for e in entries {
        rule.entry(e, &mut all);
    }
    (all, rule.lengths)
}
