//! Answers as the exported calls' 64-bit numbers, and entries as bytes for programs that read numbers.

use crate::text::Entry;
use crate::{Answer, Call, Wake};

/// An answer that no exported call gives.
pub const NOT_COMPARED: u64 = 15;

pub fn encode(a: &Answer) -> u64 {
    match *a {
        Answer::Refused(n) => (n as u64) << 8,
        Answer::Read { reg, ep } => 1 | (reg as u64) << 8 | (ep as u64) << 16,
        Answer::Write { reg, ep, value } => 2 | (reg as u64) << 8 | (ep as u64) << 16 | (value as u64) << 32,
        Answer::Wait(us) => 3 | (us as u64) << 8,
        Answer::Callback => 4,
        Answer::End { result, ref wakes } => 5 | (result as u64) << 8 | (wakes.len() as u64) << 24,
        Answer::NotYet => 6,
        Answer::Done { length, .. } => 7 | (length as u64) << 8,
        Answer::Shown { offset, length } => 8 | (length as u64) << 8 | (offset as u64) << 32,
        Answer::Number(n) => n as u64,
        Answer::Stored | Answer::Outside | Answer::Panicked => NOT_COMPARED,
    }
}

/// Not of a question's answer. `woken`: an end's wake-ups, of which the number says how many.
pub fn decode(a: u64, woken: impl FnOnce(usize) -> Vec<Wake>) -> Answer {
    let byte = |at: u32| (a >> at) as u8;
    let short = |at: u32| (a >> at & 0xFFFF) as u32;
    match a & 15 {
        0 => Answer::Refused(byte(8)),
        1 => Answer::Read { reg: byte(8), ep: byte(16) },
        2 => Answer::Write { reg: byte(8), ep: byte(16), value: (a >> 32) as u32 },
        3 => Answer::Wait(byte(8) as u32),
        4 => Answer::Callback,
        5 => Answer::End { result: short(8), wakes: woken(byte(24) as usize) },
        6 => Answer::NotYet,
        7 => Answer::Done { length: short(8), bytes: vec![] },
        8 => Answer::Shown { offset: (a >> 32) as u32, length: short(8) },
        k => panic!("an answer of kind {k}"),
    }
}

fn wake_code(w: &Wake) -> u8 {
    match *w {
        Wake::In(e) => e,
        Wake::Out(e) => 16 + e,
        Wake::Bus => 32,
    }
}

/// Whose task a wake-up's code is: 0 to 15 IN, 16 to 31 OUT, 32 the bus.
pub fn wake(code: u8) -> Wake {
    match code {
        0..16 => Wake::In(code),
        16..32 => Wake::Out(code - 16),
        32 => Wake::Bus,
        _ => panic!("a wake-up of code {code}"),
    }
}

/// The call's number in `FORMAT.md`, its numbers and its bytes.
pub fn call(c: &Call) -> (u8, [u32; 5], &[u8]) {
    let none: &[u8] = &[];
    let plain = |code: u8| (code, [0; 5], none);
    let ep = |code: u8, ep: u8| (code, [ep as u32, 0, 0, 0, 0], none);
    match *c {
        Call::StartUp { size, count, callback } => (0, [size, count, callback as u32, 0, 0], none),
        Call::Continue(value) => (1, [value, 0, 0, 0, 0], none),
        Call::Allocate { kind, address, maximum, interval, dir } => {
            let address = address.map_or(256, u32::from);
            (2, [kind as u32, address, maximum as u32, interval as u32, dir as u32], none)
        }
        Call::Start(maximum) => (3, [maximum as u32, 0, 0, 0, 0], none),
        Call::Interrupt => plain(4),
        Call::BusPoll => plain(5),
        Call::BusEnable => plain(6),
        Call::BusDisable => plain(7),
        Call::SetEnabled { ep, dir, on } => (8, [ep as u32, dir as u32, on as u32, 0, 0], none),
        Call::SetStalled { ep, dir, on } => (9, [ep as u32, dir as u32, on as u32, 0, 0], none),
        Call::IsStalled { ep, dir } => (10, [ep as u32, dir as u32, 0, 0, 0], none),
        Call::SetPaced { ep, on } => (11, [ep as u32, on as u32, 0, 0, 0], none),
        Call::Advance(e) => ep(12, e),
        Call::Microframe => plain(13),
        Call::Read { ep, length } => (14, [ep as u32, length, 0, 0, 0], none),
        Call::PollRead(e) => ep(15, e),
        Call::Write { ep, ref data } => (16, [ep as u32, 0, 0, 0, 0], data),
        Call::PollWrite(e) => ep(17, e),
        Call::Setup => plain(18),
        Call::PollSetup => plain(19),
        Call::DataOut { length, first } => (20, [length, first as u32, 0, 0, 0], none),
        Call::PollDataOut => plain(21),
        Call::DataIn { ref data, first, last } => (22, [first as u32, last as u32, 0, 0, 0], data),
        Call::PollDataIn => plain(23),
        Call::Accept => plain(24),
        Call::AcceptSetAddress(address) => (25, [address as u32, 0, 0, 0, 0], none),
        Call::PollAccept => plain(26),
        Call::Reject => plain(27),
        Call::Open(e) => ep(28, e),
        Call::Close(e) => ep(29, e),
        Call::Queue { ep, ref data } => (30, [ep as u32, 0, 0, 0, 0], data),
        Call::Pending(e) => ep(31, e),
        Call::Overruns(e) => ep(32, e),
        Call::Enabled { ep, dir } => (33, [ep as u32, dir as u32, 0, 0, 0], none),
        Call::Store { offset, ref data } => (34, [offset, 0, 0, 0, 0], data),
        Call::Fill(seed) => (35, [seed as u32, 0, 0, 0, 0], none),
    }
}

/// A list begins.
pub const LIST: u8 = 36;

/// A list as bytes: its beginning, then its entries, those in a row that are equal as one with a count.
pub fn bytes(entries: &[Entry]) -> Vec<u8> {
    let mut out = vec![0; 40];
    out[0] = LIST;
    out[1] = 1;
    out[24] = NOT_COMPARED as u8;
    let mut i = 0;
    while i < entries.len() {
        let e = &entries[i];
        let mut times = 1;
        while entries.get(i + times) == Some(e) {
            times += 1;
        }
        i += times;
        let (code, numbers, data) = call(&e.call);
        let received: Vec<u8> = match &e.answer {
            Answer::Done { bytes, .. } => bytes.clone(),
            Answer::End { wakes, .. } => wakes.iter().map(wake_code).collect(),
            _ => vec![],
        };
        out.push(code);
        out.extend((times as u16).to_le_bytes());
        out.push(e.changed.len() as u8);
        numbers.iter().for_each(|n| out.extend(n.to_le_bytes()));
        out.extend(encode(&e.answer).to_le_bytes());
        for part in [data, &received] {
            out.extend((part.len() as u32).to_le_bytes());
        }
        out.extend(data);
        out.extend(&received);
        for (offset, bytes) in &e.changed {
            out.extend(offset.to_le_bytes());
            out.extend((bytes.len() as u32).to_le_bytes());
            out.extend(bytes);
        }
    }
    out
}
