//! The driver as a list of calls: what is called, what a call answers, and the trait that the Rust (and later the
//! port) is driven through. Nothing here knows an implementation.

mod call;
pub mod edits;
pub mod number;
pub mod random;
pub mod replay;
mod rng;
pub mod text;
pub mod wrong;

pub use call::{Answer, Call, Dir, Kind, Wake, REGISTERS};
pub use rng::Rng;

/// Something that takes the calls.
pub trait Driver {
    /// A state as before the first start-up, with an empty buffer.
    fn fresh(&mut self);

    /// Every call but the buffer's own: see [`Call`].
    fn call(&mut self, call: &Call) -> Answer;

    /// The slot buffer: `count * size` bytes of the last accepted start-up.
    fn slots(&mut self) -> &mut [u8];
}

/// A driver, and what is done with it and its answer after each call.
pub struct After<'a, D, F> {
    pub driver: &'a mut D,
    pub then: F,
}

impl<D: Driver, F: FnMut(&mut D, &Call, Answer) -> Answer> Driver for After<'_, D, F> {
    fn fresh(&mut self) {
        self.driver.fresh();
    }

    fn call(&mut self, call: &Call) -> Answer {
        let answer = self.driver.call(call);
        (self.then)(self.driver, call, answer)
    }

    fn slots(&mut self) -> &mut [u8] {
        self.driver.slots()
    }
}
