//! A list of calls made on the port: every call with its answer, and what the list says that it answered.

use oracle::text::{parse, Line};
use oracle::{Answer, Call, Driver};

use crate::port::Port;
use crate::stamps;

pub const FRAME_NO: u8 = 4;

/// A call that was made.
#[derive(Clone, Debug)]
pub struct Step {
    pub line: usize,
    pub call: Call,
    pub answer: Answer,
    /// The answer that the list has.
    pub recorded: Option<Answer>,
    /// The frame reading with which an interrupt begins, where it is known.
    pub frame: Option<u16>,
    /// An open that found no packet, in a device's trace: its reader looks until there is none.
    pub looks: bool,
    /// An open's stamp.
    pub stamp: Option<u16>,
    /// Packets turned away on OUT 1 to 15, and queued on IN 1 to 15, after the call.
    pub overruns: [u32; 16],
    pub pending: [u32; 16],
}

/// Which register's reading the operation under way waits for.
#[derive(Default)]
pub struct Awaited(pub Option<u8>);

impl Awaited {
    /// The reading that this step brought, with its register.
    pub fn feed(&mut self, step: &Step) -> Option<(u8, u32)> {
        let brought = match (self.0, &step.call) {
            (Some(reg), Call::Continue(value)) if !matches!(step.answer, Answer::Refused(_)) => Some((reg, *value)),
            _ => None,
        };
        match &step.answer {
            Answer::Read { reg, .. } => self.0 = Some(*reg),
            Answer::Write { .. } | Answer::Wait(_) | Answer::Callback => self.0 = None,
            Answer::End { .. } if matches!(step.call, Call::Continue(_)) => self.0 = None,
            _ => {}
        }
        brought
    }
}

pub struct Drive<'a> {
    port: Port,
    pub steps: Vec<Step>,
    /// For each interrupt the frame reading with which it begins; none: it is brought before each.
    frames: Option<&'a [u16]>,
    brought: Option<u16>,
    interrupts: usize,
}

impl Drive<'_> {
    /// One whose interrupts' frame readings are brought.
    pub fn live() -> Self {
        Self { port: Port::new(), steps: vec![], frames: None, brought: None, interrupts: 0 }
    }

    /// The frame reading with which the next interrupt begins.
    pub fn bring(&mut self, frame: u16) {
        self.brought = Some(frame);
    }

    pub fn call(&mut self, line: usize, call: &Call, recorded: Option<&Answer>) -> Result<Answer, String> {
        let answer = match call {
            Call::Store { offset, data } => {
                let (at, all) = (*offset as usize, self.port.slots().len());
                let room = at.checked_add(data.len()).and_then(|end| self.port.slots().get_mut(at..end));
                let Some(room) = room else {
                    return Err(format!("line {line}: a store of {} bytes at {at} of {all}", data.len()));
                };
                room.copy_from_slice(data);
                Answer::Stored
            }
            Call::Fill(seed) => {
                let bytes = self.port.slots().iter_mut().enumerate();
                bytes.for_each(|(i, b)| *b = (*seed as usize + i * 37) as u8);
                Answer::Stored
            }
            Call::StartUp { size, count, .. } if u64::from(*size) * u64::from(*count) > 65_536 => {
                // no such buffer is lent: row 2 whatever it holds
                Answer::Refused(2)
            }
            _ => {
                if *call == Call::Interrupt {
                    let listed = self.frames.and_then(|f| f.get(self.interrupts));
                    stamps::bring(self.brought.or(listed.copied()).unwrap_or(0));
                    self.interrupts += 1;
                }
                self.port.call(call)
            }
        };
        let stamp = match (call, &answer) {
            (Call::Open(_), Answer::Shown { .. }) => self.port.stamps.last().copied(),
            _ => None,
        };
        let (mut overruns, mut pending) = ([0; 16], [0; 16]);
        for e in 1..16 {
            let mut ask = |call: Call| match self.port.call(&call) {
                Answer::Number(n) => n,
                _ => 0,
            };
            overruns[e as usize] = ask(Call::Overruns(e));
            pending[e as usize] = ask(Call::Pending(e));
        }
        let recorded = recorded.cloned();
        let frame = self.brought.take().filter(|_| *call == Call::Interrupt);
        let looks = self.frames.is_none() && matches!((call, &answer), (Call::Open(_), Answer::Refused(12)));
        let (call, answered) = (call.clone(), answer.clone());
        self.steps.push(Step { line, call, answer: answered, recorded, frame, looks, stamp, overruns, pending });
        Ok(answer)
    }

    fn line(&mut self, number: usize, line: &Line) -> Result<(), String> {
        match line {
            Line::Comment(_) | Line::Slots { .. } => {}
            Line::Call { call, answer } => {
                self.call(number, call, answer.as_ref())?;
            }
            Line::Whole { call, readings } => {
                let mut readings = readings.iter();
                let mut answer = self.call(number, call, None)?;
                loop {
                    let value = match answer {
                        Answer::Read { .. } => {
                            *readings.next().ok_or(format!("line {number}: a reading is missing"))?
                        }
                        Answer::Write { .. } | Answer::Wait(_) | Answer::Callback => 0,
                        _ => break,
                    };
                    answer = self.call(number, &Call::Continue(value), None)?;
                }
                if readings.next().is_some() {
                    return Err(format!("line {number}: a reading is left"));
                }
            }
        }
        Ok(())
    }
}

fn made(lines: &[(usize, Line)], frames: &[u16]) -> Result<Vec<Step>, String> {
    let mut drive = Drive { frames: Some(frames), ..Drive::live() };
    for (number, line) in lines {
        drive.line(*number, line)?;
    }
    Ok(drive.steps)
}

/// For each interrupt the frame reading in its midst, or the last one before it.
fn frames(steps: &[Step]) -> Vec<u16> {
    let (mut all, mut last, mut awaited) = (vec![], 0, Awaited::default());
    let mut found = true;
    for step in steps {
        if step.call == Call::Interrupt {
            all.push(last);
            found = matches!(step.answer, Answer::Refused(_));
        }
        if let Some((FRAME_NO, value)) = awaited.feed(step) {
            last = value as u16;
            if !std::mem::replace(&mut found, true) {
                *all.last_mut().unwrap() = last;
            }
        }
    }
    all
}

/// Makes the calls of a list on the port. The reading with which its interrupts begin is not in the list: the first
/// time they bring 0, and then what the interrupt itself read in its midst, as the two fall into one microframe;
/// nothing but stamps depends on it.
pub fn drive(list: &str) -> Result<Vec<Step>, String> {
    let lines = parse(list)?;
    let first = made(&lines, &[])?;
    made(&lines, &frames(&first))
}
