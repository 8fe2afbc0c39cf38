//! An operation from its begin to its end.

use crate::{Answer, Port, Register, Task, Woken};

/// The chip, and what is around the driver. Words are packed as `usbhs.h` says.
pub trait Access {
    /// Reads a register. Bits above its width make the next continue refuse with 16.
    fn read(&mut self, register: Register, endpoint: u8) -> u32;
    /// Writes a register. The value of a buffer's register is an offset into the slots.
    fn write(&mut self, register: Register, endpoint: u8, value: u32);
    /// Waits.
    fn wait(&mut self, microseconds: u8);
    /// The start-of-frame callback, where start-up was told that there is one.
    fn callback(&mut self);
    /// Wakes a task, at the operation's end.
    fn wake(&mut self, task: Task);
}

/// Who lends the port for one call at a time: the port itself, or a lock around it.
pub trait Lend {
    /// Lends the port to `f`; no two calls at once.
    fn lend<R>(&mut self, f: impl FnOnce(&mut Port<'_>) -> R) -> R;
}

impl Lend for Port<'_> {
    #[inline]
    fn lend<R>(&mut self, f: impl FnOnce(&mut Port<'_>) -> R) -> R {
        f(self)
    }
}

/// Makes `call` and, while it or a continue answers with an access, the access and the continue after it. Answers the
/// first answer that is no access: the end, after its tasks are woken in their order; of a poll also not yet and done.
///
/// The port is lent for each call anew, and is free while an access is made. The tasks to wake are asked for in the
/// same lending as the end.
#[inline]
pub fn run(lend: &mut impl Lend, access: &mut impl Access, call: impl FnOnce(&mut Port<'_>) -> Answer) -> Answer {
    let mut woken = Woken::nobody();
    let first = lend.lend(|p| {
        let answer = call(p);
        p.ask_woken(answer, &mut woken);
        answer
    });
    let mut word = first.word();
    while let Some(reading) = made(access, word) {
        word = lend.lend(|p| {
            let word = p.go_on_word(reading);
            if word & KIND == END {
                p.ask_woken(Answer::of(word), &mut woken);
            }
            word
        });
    }
    woken.tasks().for_each(|task| access.wake(task));
    Answer::of(word)
}

/// An answer's kind, and that of an end, in its word (`usbhs.h`).
const KIND: u64 = 15;
const END: u64 = 5;

/// Makes the access that a word is: the reading, 0 where there is none; `None` where it is no access. That is what
/// [`Answer::of`] says of a word, without the enum in between, which would be most of the loop's time.
#[inline]
fn made(access: &mut impl Access, word: u64) -> Option<u32> {
    let (byte, endpoint) = ((word >> 8) as u8, (word >> 16) as u8);
    match word & KIND {
        1 => Some(access.read(Register::of(byte)?, endpoint)),
        2 => {
            access.write(Register::of(byte)?, endpoint, (word >> 32) as u32);
            Some(0)
        }
        3 => {
            access.wait(byte);
            Some(0)
        }
        4 => {
            access.callback();
            Some(0)
        }
        _ => None,
    }
}

impl Port<'_> {
    /// [`run()`] on this port.
    #[inline]
    pub fn run(&mut self, access: &mut impl Access, call: impl FnOnce(&mut Port<'_>) -> Answer) -> Answer {
        run(self, access, call)
    }
}
