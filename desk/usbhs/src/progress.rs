//! How far long work is, on standard error: on a terminal a line that is written over, else a line now and then.

use std::io::{stderr, IsTerminal, Write};
use std::time::{Duration, Instant};

use crate::output::thousands;

pub struct Progress {
    what: &'static str,
    all: Option<u64>,
    began: Instant,
    next: Duration,
    terminal: bool,
    quiet: bool,
    shown: bool,
}

impl Progress {
    /// Of so many bytes, where that is known.
    pub fn new(what: &'static str, all: Option<u64>, quiet: bool) -> Self {
        let terminal = stderr().is_terminal();
        let next = Duration::from_millis(if terminal { 500 } else { 5_000 });
        Self { what, all, began: Instant::now(), next, terminal, quiet, shown: false }
    }

    pub fn at(&mut self, bytes: u64) {
        let passed = self.began.elapsed();
        if self.quiet || passed < self.next {
            return;
        }
        self.next = passed + Duration::from_millis(if self.terminal { 200 } else { 10_000 });
        let megabytes = |n: u64| thousands(n / 1_000_000);
        let speed = (bytes as f64 / passed.as_secs_f64() / 1e6) as u64;
        let (what, done) = (self.what, megabytes(bytes));
        let done = match self.all {
            Some(all) => format!("{} %, {done} of {} MB", bytes * 100 / all.max(1), megabytes(all)),
            None => format!("{done} MB"),
        };
        let (front, end) = if self.terminal { ("\r", "  ") } else { ("", "\n") };
        let _ = write!(stderr(), "{front}{what}: {done}, {} MB/s{end}", thousands(speed));
        self.shown = true;
    }
}

impl Drop for Progress {
    fn drop(&mut self) {
        if self.shown && self.terminal {
            let _ = write!(stderr(), "\r{:60}\r", "");
        }
    }
}
