//! The line format of `FORMAT.md`: print and parse.

mod parse;
mod print;

use crate::call::{Answer, Call};

pub use parse::parse;
pub use print::{print, Printer};

/// One call with its answer, and the bytes of the buffer that it changed: offset and new bytes.
#[derive(Clone, PartialEq, Eq, Debug)]
pub struct Entry {
    pub call: Call,
    pub answer: Answer,
    pub changed: Vec<(u32, Vec<u8>)>,
}

/// A line of a list of calls.
#[derive(Clone, PartialEq, Eq, Debug)]
pub enum Line {
    Comment(String),
    /// A call, and the answer it is said to have.
    Call {
        call: Call,
        answer: Option<Answer>,
    },
    /// A call to be continued to its end, with these readings in order.
    Whole {
        call: Call,
        readings: Vec<u32>,
    },
    /// The call before changed these bytes.
    Slots {
        offset: u32,
        bytes: Vec<u8>,
    },
}
