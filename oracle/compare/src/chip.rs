//! Lists for the replay on the chip's instruction set (tests/chip/replay.c): what was compared, as bytes (FORMAT.md),
//! with the x86-64 library's own answers also where the Rust has none, and for each list a line with a digest of the
//! lent bytes after each call.

use std::fmt::Write;

use oracle::replay::Session;
use oracle::text::Entry;
use oracle::{After, Call};

use crate::port::Port;

/// The state's bytes in whole words; the last byte is none of its own and stays 0.
const STATE: usize = 3000;

#[derive(Default)]
pub struct Lists {
    bytes: Vec<u8>,
    pub lines: String,
    count: u32,
}

impl Lists {
    pub fn add(&mut self, port: &mut Port, entries: &[Entry]) {
        let mut digest = Digest::default();
        let then = |port: &mut Port, call: &Call, answer| {
            digest.after(port, call);
            answer
        };
        let mut digested = After { driver: port, then };
        let mut session = Session::new(&mut digested);
        let own: Vec<Entry> = entries.iter().map(|e| session.call(&e.call)).collect();
        assert!(own.iter().all(|e| e.changed.len() < 256));
        self.bytes.extend(oracle::number::bytes(&own));
        self.count += 1;
        let Digest { digest, calls } = digest;
        writeln!(self.lines, "list {}: {calls} calls, digest {digest:08X}", self.count).unwrap();
    }

    /// With their length in front.
    pub fn bytes(&self) -> Vec<u8> {
        let mut all = (self.bytes.len() as u32).to_le_bytes().to_vec();
        all.extend(&self.bytes);
        all
    }
}

/// A digest of what the port leaves.
#[derive(Default)]
struct Digest {
    digest: u32,
    calls: u32,
}

impl Digest {
    fn mix(&mut self, number: u32) {
        self.digest = (self.digest.rotate_left(5) ^ number).wrapping_mul(0x9E37_79B1);
    }

    fn after(&mut self, port: &Port, call: &Call) {
        self.calls += 1;
        if let Call::Open(_) = call {
            self.mix((*port.stamps.last().unwrap()).into());
        }
        for word in port.lent.state[..STATE].chunks_exact(4) {
            self.mix(u32::from_le_bytes(word.try_into().unwrap()));
        }
        for two in port.lent.time.chunks_exact(2) {
            self.mix(u32::from(two[0]) | u32::from(two[1]) << 16);
        }
        self.mix(*port.times.last().unwrap());
    }
}
