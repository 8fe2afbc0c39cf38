//! The frame reading with which the port's next interrupt begins. Recorded lists do not have it (oracle/README.md,
//! "One"): the replay brings it.

use std::cell::Cell;

thread_local! {
    static NEXT: Cell<u16> = const { Cell::new(0) };
}

/// What stands in the room for a stamp before an open: no microframe index, these have 14 bits.
pub const NONE: u16 = 0xFFFF;

/// The reading of the interrupts from now on.
pub fn bring(frame: u16) {
    NEXT.set(frame);
}

/// For every interrupt the reading that was brought last.
pub fn frame(_: u16) -> u16 {
    NEXT.get()
}

/// Frame times 8 plus microframe.
pub fn microframe_index(frame: u16) -> u16 {
    (frame & 0x7FF) * 8 + (frame >> 13)
}
