//! The stamps of request One, which the Rust does not have: what they must be is worked out from its run.

use std::collections::HashMap;

use oracle::text::Entry;
use oracle::{Answer, Call};

const EP_RX_DMA: u8 = 15;

/// What stands in the room for a stamp before an open, and stays there where no packet is shown: no microframe index, these have 14 bits.
pub const NONE: u16 = 0xFFFF;

/// The frame reading with which the n-th interrupt begins: another one for each, bits 11 and 12 included.
pub fn frame(n: u16) -> u16 {
    n.wrapping_mul(0x9E37)
}

fn microframe_index(frame: u16) -> u16 {
    (frame & 0x7FF) * 8 + (frame >> 13)
}

/// For each open its place in the run and what it must leave in the room for the stamp. The interrupt that admits a packet moves its endpoint's
/// receive address on from the packet's slot, in the step that admits it; one that turns it away arms the same slot again.
pub fn expected(entries: &[Entry]) -> Vec<(usize, u16)> {
    let mut interrupts = 0u16;
    let mut under_way = None;
    let mut receive = [0; 16];
    let mut stamps = HashMap::new();
    let mut all = vec![];
    for (i, e) in entries.iter().enumerate() {
        match (&e.call, &e.answer) {
            (Call::Interrupt, Answer::Read { .. }) => {
                interrupts = interrupts.wrapping_add(1);
                under_way = Some(microframe_index(frame(interrupts)));
            }
            (Call::StartUp { .. }, Answer::Write { .. }) | (Call::Continue(_), Answer::End { .. }) => under_way = None,
            (Call::Open(_), Answer::Shown { offset, .. }) => all.push((i, stamps[offset])),
            (Call::Open(_), _) => all.push((i, NONE)),
            _ => {}
        }
        if let Answer::Write { reg: EP_RX_DMA, ep, value } = e.answer {
            let filled = std::mem::replace(&mut receive[ep as usize], value);
            if let (Some(stamp), true) = (under_way, filled != value) {
                stamps.insert(filled, stamp);
            }
        }
    }
    all
}
