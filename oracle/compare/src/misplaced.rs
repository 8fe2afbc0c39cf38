//! Calls that are to be refused, between the calls of a run: the Rust has none of them. The table says by which row.

use oracle::{Call, Dir, Kind, Rng};

use crate::port::{Port, ANY};
use crate::table::{brings_slots, Lent, Table};

/// How often each row refused one, by its number.
pub type Rows = [usize; 32];

fn any_dir(rng: &mut Rng) -> Dir {
    rng.pick(&[Dir::Out, Dir::In])
}

/// Any call at all; the endpoints mostly such that may be allocated.
fn any_call(rng: &mut Rng, table: &Table) -> Call {
    let ep = if rng.chance(80) { rng.range(1, 8) } else { rng.range(0, 20) } as u8;
    let (dir, on) = (any_dir(rng), rng.chance(50));
    let length = rng.below(80);
    let data = vec![0x55; rng.below(80) as usize];
    match rng.below(38) {
        0 => {
            let size = rng.pick(&[0, 1, 7, 8, 24, 64, 65, 128, 512, 1024, 1025, 2048, 1 << 31]);
            let count = rng.pick(&[0, 0, 1, 2, 9, 64, 65, 1025]);
            Call::StartUp { size, count, callback: on }
        }
        1..=3 => {
            let wide = table.awaited().map_or(0, |bits| 1 << rng.range(bits, 31));
            Call::Continue(wide | rng.below(2))
        }
        4 => {
            let kind = rng.pick(&[Kind::Control, Kind::Isochronous, Kind::Bulk, Kind::Interrupt]);
            let maximum = rng.pick(&[8, 64, 65, 513, 1025, 0xFFFF]);
            Call::Allocate { kind, address: None, maximum, interval: 1, dir }
        }
        5 => Call::Start(rng.pick(&[0, 8, 63, 64, 64, 65, 512, 0xFFFF])),
        6 => Call::Interrupt,
        7 => Call::BusPoll,
        8 => Call::BusEnable,
        9 => Call::BusDisable,
        10 => Call::SetEnabled { ep, dir, on },
        11 => Call::SetStalled { ep, dir, on },
        12 => Call::IsStalled { ep, dir },
        13 => Call::SetPaced { ep: rng.pick(&[0, 16, 255, ep]), on },
        14 => Call::Advance(rng.pick(&[0, 16, 255, ep])),
        15 => Call::Microframe,
        16 => Call::Read { ep, length },
        17..=19 => Call::PollRead(ep),
        20 => Call::Write { ep, data },
        21..=23 => Call::PollWrite(ep),
        24 => Call::Setup,
        25 => Call::PollSetup,
        26 => Call::DataOut { length, first: on },
        27 | 28 => Call::PollDataOut,
        29 => Call::DataIn { data, first: on, last: on },
        30 => Call::PollDataIn,
        31 if on => Call::Accept,
        31 => Call::AcceptSetAddress(ep),
        32 => Call::PollAccept,
        33 => Call::Reject,
        34 => Call::Open(ep),
        35 => Call::Close(ep),
        _ => Call::Queue { ep, data },
    }
}

/// A slot buffer of another length, or the one that is due.
fn any_slots(rng: &mut Rng, due: usize) -> usize {
    let other = match rng.below(6) {
        0 => due + 1,
        1 => due.wrapping_sub(1),
        2 => 0,
        3 => due + 64,
        4 => rng.below(ANY as u32) as usize,
        _ => due,
    };
    if other > ANY {
        due
    } else {
        other
    }
}

/// Makes one such call on the port, if the table refuses what was picked. Answers what is wrong with it.
pub fn one(rng: &mut Rng, table: &Table, port: &mut Port, rows: &mut Rows) -> Result<(), String> {
    let mut call = any_call(rng, table);
    let polls = table.polls_with_slices();
    if !polls.is_empty() && rng.chance(10) {
        call = polls[rng.below(polls.len() as u32) as usize].clone();
    }
    let due = table.due(&call);
    let slots = if brings_slots(&call) && rng.chance(25) { any_slots(rng, due.slots) } else { due.slots };
    let poll = if rng.chance(50) { due.poll } else { rng.below(100) as usize };
    let lent = Lent { slots, poll };
    let Some(row) = table.row(&call, lent).filter(|_| slots <= ANY) else { return Ok(()) };
    let did = port.misplaced(&call, slots, poll, due.poll);
    rows[row as usize] += 1;
    // "9 or 10 from a poll ends the request that was begun": no such request is begun any more
    let (kept, then) = if row == 10 { (true, 15) } else { (did.kept, row) };
    if did.answer != oracle::Answer::Refused(row) {
        return Err(format!(
            "{call:?} with {slots} bytes of slots, a slice of {poll}: {:?}, not row {row}",
            did.answer
        ));
    }
    if !kept {
        return Err(format!("{call:?}, refused by row {row}, changed something"));
    }
    if row != 10 && poll != due.poll {
        return Ok(());
    }
    if did.then != oracle::Answer::Refused(then) {
        return Err(format!("{call:?} after its refusal by row {row}: {:?}, not row {then}", did.then));
    }
    Ok(())
}
