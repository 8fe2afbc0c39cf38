//! The drop-in against the unchanged Rust, call by call.

use compare::runs::Runs;
use compare::{domain, late};
use oracle::replay::Session;
use oracle::text::{print, Entry};
use oracle::{After, Answer, Call, Driver};

use crate::{usbhs, DropIn};

const FRAME_NO: u8 = 4;

/// Runs that are made on the Rust before the drop-in makes them: the shims are shared.
pub const BATCH: u64 = 500;

/// After an interrupt's begin: its first reading, the frame of request One, is brought here, as the Rust has not got it.
fn framed() -> impl FnMut(&mut DropIn, &Call, Answer) -> Answer {
    let mut interrupts = 0u16;
    move |dropin, call, answer| {
        if *call != Call::Interrupt || answer == Answer::Outside {
            return answer;
        }
        assert_eq!(answer, Answer::Read { reg: FRAME_NO, ep: 0 });
        interrupts = interrupts.wrapping_add(1);
        dropin.call(&Call::Continue(interrupts.wrapping_mul(0x9E37).into()))
    }
}

/// What was compared.
#[derive(Default)]
pub struct Compared {
    lists: usize,
    reads: usize,
    writes: usize,
    waits: usize,
    callbacks: usize,
    answers: usize,
    wakes: usize,
    bytes: usize,
    turned_down: usize,
    late: usize,
    otherwise: usize,
}

impl Compared {
    fn count(&mut self, e: &Entry) {
        match &e.answer {
            Answer::Read { .. } => self.reads += 1,
            Answer::Write { .. } => self.writes += 1,
            Answer::Wait(_) => self.waits += 1,
            Answer::Callback => self.callbacks += 1,
            Answer::End { wakes, .. } => self.wakes += wakes.len(),
            Answer::Refused(19) => self.turned_down += 1,
            _ => {}
        }
        self.answers += !matches!(e.answer, Answer::Outside | Answer::Stored) as usize;
        self.bytes += e.changed.iter().map(|c| c.1.len()).sum::<usize>();
    }

    /// The first entry of a run of the Rust in which the drop-in differs, if one does.
    fn check<F>(&mut self, dropin: &mut After<'_, DropIn, F>, name: &str, entries: &[Entry]) -> Result<(), String>
    where
        F: FnMut(&mut DropIn, &Call, Answer) -> Answer,
    {
        let (expected, lengths) = late::by_rule(&domain::within_domain(entries));
        self.late += lengths.late;
        self.otherwise += lengths.otherwise;
        let mut session = Session::new(dropin);
        for (i, e) in expected.iter().enumerate() {
            let refused = usbhs::enablings_turned_down();
            let own = session.call(&e.call);
            let same = match e.answer {
                // the trait's call says nothing: it is told by a count
                Answer::Refused(19) => {
                    own.answer == Answer::End { result: 0, wakes: vec![] }
                        && usbhs::enablings_turned_down() == refused + 1
                }
                _ => own.answer == e.answer && usbhs::enablings_turned_down() == refused,
            };
            // a start-up begins the count anew
            let same = same || matches!(e.call, Call::StartUp { .. }) && own.answer == e.answer;
            if !same || own.changed != e.changed {
                return Err(format!("# {name}\n{}# the drop-in answers\n{}", print(&expected[..=i]), print(&[own])));
            }
            self.count(e);
        }
        self.lists += 1;
        if dropin.driver.front_untouched() {
            Ok(())
        } else {
            Err(format!("{name}: a byte in front of the buffer was written"))
        }
    }

    /// Makes some runs on the Rust, then on the drop-in.
    pub fn batch(&mut self, runs: &Runs) -> Result<(), String> {
        let mut made: Vec<(String, Vec<Entry>)> = vec![];
        runs.each(&mut original::Rust::new(), |name, entries| {
            made.push((name.into(), entries.to_vec()));
            Ok(())
        })?;
        let mut dropin = After { driver: &mut DropIn::new(), then: framed() };
        made.iter().try_for_each(|(name, entries)| self.check(&mut dropin, name, entries))
    }

    /// Prints what was compared.
    pub fn table(&self) {
        println!("the drop-in against the Rust, over the same registers: no difference in");
        let rows = [
            (self.lists, "runs"),
            (self.reads, "readings of the PAC's registers"),
            (self.writes, "writes"),
            (self.waits, "waits"),
            (self.callbacks, "start-of-frame callbacks"),
            (self.answers, "answers, the accesses among them"),
            (self.wakes, "wake-ups, in their order"),
            (self.bytes, "changed bytes of the buffers"),
            (self.turned_down, "enablings turned down for want of bus time"),
            (self.late, "lengths told by the marks"),
            (self.otherwise, "of them not the Rust's (request Eight)"),
        ];
        for (n, what) in rows {
            println!("{n:>12}  {what}");
        }
    }
}
