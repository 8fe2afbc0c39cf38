// SPDX-License-Identifier: MIT OR Apache-2.0
//! `usbhs coding BITS`: whether a channel's samples can be mistaken for the marks of an armed slot.
//!
//! A late packet's length is found by its last byte that is not the mark's at its place. So a packet of whole samples is
//! short where its last byte is the mark's there, and it is not seen at all where its first word is the mark
//! (docs/DIFFERENCES.md, 3). Both are counted here over every value of the coding; `samples-whole`
//! (crates/proof_stale/proofs/SamplesLaws.antt) is the theorem about the codings that cannot be hit.

use crate::args::{number, Args};
use crate::json::Json;
use crate::output::{thousands, Output};
use crate::{bad, Done};

/// The mark's bytes, repeated over the slot.
const MARK: [u8; 4] = [0xC3, 0xA5, 0x3C, 0x5A];

struct Coding {
    bits: u32,
    signed: bool,
    left: bool,
    offset: bool,
    big: bool,
}

impl Coding {
    /// The two bytes of each sample, as they lie in the packet.
    fn samples(&self) -> impl Iterator<Item = [u8; 2]> + '_ {
        (0..1u32 << self.bits).map(|value| {
            let word = match () {
                () if self.left => value << (16 - self.bits),
                () if self.offset => 0x8000 + value,
                () if self.signed && value >> (self.bits - 1) != 0 => value | 0xFFFF << self.bits,
                () => value,
            };
            let word = word as u16;
            if self.big {
                word.to_be_bytes()
            } else {
                word.to_le_bytes()
            }
        })
    }

    /// How many of the samples end a packet of 4n + 2 bytes, and one of 4n, with the mark's byte there.
    fn short(&self) -> [u32; 2] {
        [1, 3].map(|place| self.samples().filter(|bytes| bytes[1] == MARK[place]).count() as u32)
    }

    /// Whether a packet can begin as the mark does: one sample alone, or two.
    fn lost(&self) -> bool {
        self.samples().any(|bytes| bytes == MARK[..2])
    }

    fn words(&self) -> String {
        let kind = match () {
            () if self.left => ", left-justified in 16",
            () if self.offset => ", counted from 0x8000",
            () if self.signed => ", signed, in 16",
            () if self.bits < 16 => " in 16",
            () => "",
        };
        let order = if self.big { "highest" } else { "lowest" };
        format!("samples of {} bits{kind}, {order} byte first", self.bits)
    }
}

pub fn run(mut args: Args, json: bool, out: &mut Output) -> Done<bool> {
    let (signed, left, offset) = (args.flag("--signed"), args.flag("--left"), args.flag("--offset"));
    let big = args.flag("--big-endian");
    let bits = args.word("BITS").and_then(|w| number("BITS", &w))?;
    args.end()?;
    if !(1..=16).contains(&bits) {
        return bad(format!("{bits} is no number of bits from 1 to 16"));
    }
    if u32::from(signed) + u32::from(left) + u32::from(offset) > 1 {
        return bad("--signed, --left and --offset exclude each other");
    }
    if offset && bits > 15 {
        return bad("--offset leaves at most 15 bits");
    }
    let coding = Coding { bits, signed, left, offset, big };
    let (all, short, lost) = (1u32 << bits, coding.short(), coding.lost());
    let never = short == [0, 0] && !lost;
    if json {
        let object = Json::Object(vec![
            ("samples", all.into()),
            ("short_at_2", short[0].into()),
            ("short_at_4", short[1].into()),
            ("lost", lost.into()),
            ("never", never.into()),
        ]);
        out.write(format!("{object}\n").as_bytes())?;
        return Ok(never);
    }
    let mut text = format!("{}\n", coding.words());
    if never {
        text += "no packet of whole samples is short or lost to the mark, late or not\n";
    }
    for (n, length, byte) in [(short[0], "4n + 2", MARK[1]), (short[1], "4n", MARK[3])] {
        if n > 0 {
            let (n, all) = (thousands(n.into()), thousands(all.into()));
            text +=
                &format!("a late packet of {length} bytes loses its last byte, {byte:02X}, for {n} of {all} samples\n");
        }
    }
    if lost {
        text += "a packet that begins with C3 A5 3C 5A, or is C3 A5 alone, is not seen\n";
    }
    if !never {
        text += "end each packet with a byte that is never C3, A5, 3C or 5A, and begin it with one: 00, say\n";
    }
    out.write(text.as_bytes())?;
    Ok(never)
}
