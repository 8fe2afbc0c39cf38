//! When old samples are shown: the cases of docs/INCIDENT.md.

use oracle::replay::replay_entries;
use pictures::incident::{run, Incident};

const SLOT: usize = 64;

/// How a packet's interrupt is entered.
#[derive(Clone, Copy, PartialEq)]
enum Entry {
    /// The status shows the packet's own OUT, and its length is there.
    InTime,
    /// Behind the host's poll of endpoint 2: its IN is the token that the status shows, and the length is gone.
    Late,
    /// While the packet was on the bus; when that is free, the status shows the poll of endpoint 2, and the length
    /// is gone.
    Busy,
}

/// The incident's samples once more, these packets short and the others whole, their interrupts entered as is said.
fn case(short: &[usize], entry: fn(usize) -> Entry) -> Incident {
    let recorded =
        std::fs::read_to_string(concat!(env!("CARGO_MANIFEST_DIR"), "/../../oracle/runs/incident.txt")).unwrap();
    let bytes = run(&recorded).unwrap().sent.concat();
    let (mut list, mut at, mut k) = (String::new(), 0, 0);
    for call in [
        "start_up 64 18 < 0x3",
        "allocate iso 0x01 64 1 out <",
        "allocate bulk 0x82 64 0 in <",
        "start 64 <",
        "bus_enable < 0x1c",
        "set_enabled 1 out on <",
        "set_enabled 2 in on <",
    ] {
        list += &format!("{call}\n");
    }
    while at < bytes.len() {
        let end = (at + if short.contains(&k) { SLOT / 2 } else { SLOT }).min(bytes.len());
        let hex: String = bytes[at..end].iter().map(|b| format!("{b:02x}")).collect();
        list += &format!("store {:#x} {hex}\n", k % 16 * SLOT);
        list += &match entry(k) {
            Entry::InTime => format!("interrupt < 0x2 0x1 0x41 {} 0x1f4\n", end - at),
            Entry::Late => "interrupt < 0x2 0x1 0x22 0x0 0x12 0x1f4 0x1 0x12 0x22\n".into(),
            Entry::Busy => "interrupt < 0x2 0x0 0x41 0x0 0x1 0x22 0x0 0x1f4 0x22\n".into(),
        };
        list += "open 1\nclose 1\n";
        (at, k) = (end, k + 1);
    }
    // one Rust at a time
    let text = replay_entries(&mut original::Rust::new(), &list).unwrap().text;
    run(&text).unwrap()
}

#[test]
fn old_samples() {
    use Entry::{Busy, InTime, Late};
    type Case = (&'static [usize], fn(usize) -> Entry, usize);
    let all: [Case; 6] = [
        (&[58], |k| if k == 58 { Late } else { InTime }, 16),
        (&[58], |k| if k == 58 { Busy } else { InTime }, 16),
        (&[58], |_| InTime, 0),
        (&[], |k| if k == 58 { Late } else { InTime }, 0),
        (&[20, 58], |k| if k == 58 { Late } else { InTime }, 0),
        (&[58, 80], |k| if k == 58 || k == 80 { Late } else { InTime }, 32),
    ];
    for (i, (short, entry, rust)) in all.into_iter().enumerate() {
        let run = case(short, entry);
        let samples = |packets: &[Vec<u8>]| packets.concat().len() / 2;
        let sent = samples(&run.sent);
        assert_eq!(samples(&run.rust.packets) - sent, rust, "case {i}, the Rust");
        assert!(run.port.packets == run.sent, "case {i}, the port");
    }
}
