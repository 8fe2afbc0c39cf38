//! Makes calls and keeps what they answer; replays lists.

use crate::text::{self, Entry, Line, Printer};
use crate::{Answer, Call, Driver};

/// A driver with a copy of its buffer, to see what each call changes.
pub struct Session<'a, D: Driver + ?Sized = dyn Driver + 'a> {
    pub driver: &'a mut D,
    before: Vec<u8>,
}

impl<'a, D: Driver + ?Sized> Session<'a, D> {
    /// From before the first start-up.
    pub fn new(driver: &'a mut D) -> Self {
        driver.fresh();
        Self { driver, before: vec![] }
    }

    pub fn call(&mut self, call: &Call) -> Entry {
        let answer = match call {
            Call::Store { offset, data } => {
                let at = *offset as usize;
                self.driver.slots()[at..at + data.len()].copy_from_slice(data);
                self.before[at..at + data.len()].copy_from_slice(data);
                return Entry { call: call.clone(), answer: Answer::Stored, changed: vec![] };
            }
            Call::Fill(seed) => {
                for (i, b) in self.driver.slots().iter_mut().enumerate() {
                    *b = (*seed as usize + i * 37) as u8;
                }
                Answer::Stored
            }
            _ => self.driver.call(call),
        };
        let now = self.driver.slots();
        let moved = now.len() != self.before.len();
        if moved || matches!(call, Call::Fill(_)) {
            self.before = now.to_vec();
        }
        let changed = changes(&mut self.before, now);
        Entry { call: call.clone(), answer, changed }
    }
}

/// The parts in which `now` differs, at most 3 equal bytes between two bytes of a part; `before` becomes `now`.
pub fn changes(before: &mut [u8], now: &[u8]) -> Vec<(u32, Vec<u8>)> {
    let mut all = vec![];
    if before == now {
        return all;
    }
    let mut i = 0;
    while i < now.len() {
        if before[i] == now[i] {
            i += 1;
            continue;
        }
        let (from, mut end) = (i, i + 1);
        while i < now.len() && i < end + 4 {
            if before[i] != now[i] {
                end = i + 1;
            }
            i += 1;
        }
        // whole marks read as marks
        let (from, end) = (from & !3, ((end + 3) & !3).min(now.len()));
        all.push((from as u32, now[from..end].to_vec()));
        before[from..end].copy_from_slice(&now[from..end]);
        i = end;
    }
    all
}

/// Replays a list; answers it with the driver's answers, and the first line where they are not the list's.
pub fn replay(driver: &mut dyn Driver, list: &str) -> Result<(String, Option<String>), String> {
    replay_entries(driver, list).map(|r| (r.text, r.wrong))
}

pub struct Replayed {
    pub text: String,
    pub entries: Vec<Entry>,
    pub wrong: Option<String>,
}

pub fn replay_entries(driver: &mut dyn Driver, list: &str) -> Result<Replayed, String> {
    let lines = text::parse(list)?;
    let mut session = Session::new(driver);
    let mut printer = Printer::default();
    let mut entries = vec![];
    let mut wrong = None;
    let mut i = 0;
    while i < lines.len() {
        let (number, line) = &lines[i];
        i += 1;
        match line {
            Line::Comment(c) => printer.comment(c),
            Line::Whole { call, readings } => {
                let mut readings = readings.iter();
                let mut entry = session.call(call);
                loop {
                    printer.entry(&entry);
                    entries.push(entry.clone());
                    let value = match entry.answer {
                        Answer::Read { .. } => {
                            *readings.next().ok_or(format!("line {number}: a reading is missing"))?
                        }
                        Answer::Write { .. } | Answer::Wait(_) | Answer::Callback => 0,
                        _ => break,
                    };
                    entry = session.call(&Call::Continue(value));
                }
                if readings.next().is_some() {
                    return Err(format!("line {number}: a reading is left"));
                }
            }
            Line::Slots { .. } => return Err(format!("line {number}: no call before")),
            Line::Call { call, answer } => {
                let mut said = vec![];
                while let Some((_, Line::Slots { offset, bytes })) = lines.get(i) {
                    said.push((*offset, bytes.clone()));
                    i += 1;
                }
                let entry = session.call(call);
                let same = match answer {
                    Some(a) => *a == entry.answer && said == entry.changed,
                    None => entry.answer == Answer::Stored || said.is_empty(),
                };
                if !same && wrong.is_none() && (answer.is_some() || entry.answer == Answer::Stored) {
                    let is = text::print(std::slice::from_ref(&entry));
                    wrong = Some(format!("line {number}: the driver answers {}", is.trim_end()));
                }
                printer.entry(&entry);
                entries.push(entry);
            }
        }
    }
    printer.flush();
    Ok(Replayed { text: printer.out, entries, wrong })
}
