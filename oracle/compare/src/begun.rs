//! Runs without the interrupt.

use oracle::replay::Session;
use oracle::text::Entry;
use oracle::{Answer, Call, Driver};

/// Of a run's calls all but the interrupt and its continues.
fn begun(entries: &[Entry]) -> Vec<Call> {
    let mut kept = true;
    let mut calls = vec![];
    for e in entries {
        match e.call {
            Call::StartUp { .. }
            | Call::Allocate { .. }
            | Call::Start(_)
            | Call::BusPoll
            | Call::BusEnable
            | Call::BusDisable => kept = true,
            Call::SetEnabled { .. } | Call::SetStalled { .. } | Call::IsStalled { .. } | Call::Microframe => {
                kept = true
            }
            Call::Setup
            | Call::DataOut { .. }
            | Call::DataIn { .. }
            | Call::Accept
            | Call::AcceptSetAddress(_)
            | Call::Reject => kept = true,
            Call::PollSetup | Call::PollDataOut | Call::PollDataIn | Call::PollAccept => kept = true,
            Call::Advance(_) | Call::Read { .. } | Call::PollRead(_) | Call::Write { .. } | Call::PollWrite(_) => {
                kept = true
            }
            Call::SetPaced { .. }
            | Call::Open(_)
            | Call::Close(_)
            | Call::Queue { .. }
            | Call::Pending(_)
            | Call::Overruns(_)
            | Call::Enabled { .. }
            | Call::Store { .. }
            | Call::Fill(_) => {
                calls.push(e.call.clone());
                continue;
            }
            Call::Continue(_) => {}
            _ => kept = false,
        }
        if kept {
            calls.push(e.call.clone());
        }
    }
    calls
}

/// The bits that the next continue may bring, where the answer is of the operation under way: a continue may follow
/// another access than it did in the whole run, and the Rust has no counterpart of a reading with bits above its
/// register's width.
fn width(answer: &Answer) -> Option<u32> {
    match answer {
        Answer::Read { reg, .. } => Some(match reg {
            0 | 5 => 6,
            1 => 7,
            2 => 2,
            3 | 4 => 16,
            _ => 8,
        }),
        Answer::Write { .. } | Answer::Wait(_) | Answer::Callback | Answer::End { .. } => Some(32),
        _ => None,
    }
}

fn within(call: Call, bits: u32) -> Call {
    match call {
        Call::Continue(value) => Call::Continue((u64::from(value) & ((1 << bits) - 1)) as u32),
        call => call,
    }
}

/// The run without the interrupt and its continues, made on the Rust.
pub fn made(rust: &mut dyn Driver, entries: &[Entry]) -> Vec<Entry> {
    let mut session = Session::new(rust);
    let mut awaited = 32;
    let mut all = vec![];
    for call in begun(entries) {
        let entry = session.call(&within(call, awaited));
        awaited = width(&entry.answer).unwrap_or(awaited);
        all.push(entry);
    }
    all
}
