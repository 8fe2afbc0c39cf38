//! The port against the Rust: the calls of a run of the Rust are made on the port too, and the answers compared.

pub mod begun;
pub mod chip;
pub mod clock;
pub mod domain;
#[path = "../../../rust/port/src/exported.rs"]
pub mod exported;
pub mod late;
pub mod lent;
mod misplaced;
mod port;
pub mod runs;
mod seen;
mod stamps;
pub mod table;
mod time;
mod together;

use oracle::replay::Session;
use oracle::text::{print, Entry};
use oracle::{Answer, Rng};

pub use port::Port;
use table::Table;

/// In so many of a hundred places of a run a misplaced call is made.
const MISPLACED: u32 = 8;

/// What was compared.
#[derive(Default)]
pub struct Compared {
    pub lists: usize,
    pub entries: usize,
    pub answers: usize,
    pub stamps: usize,
    pub late: usize,
    pub otherwise: usize,
    pub turned_down: usize,
    /// Readings that were also brought by one call.
    pub together: usize,
    /// Calls that the Rust does not have, by the row that refused them.
    pub rows: misplaced::Rows,
    pub seen: seen::Seen,
    /// The runs for the chip, where they are asked for.
    pub chip: Option<chip::Lists>,
}

/// The run up to a difference, and what the port says there.
fn differs(name: &str, entries: &[Entry], own: &str) -> String {
    format!("# {name}\n{}# the port answers\n{}\n", print(entries), own.trim_end())
}

impl Compared {
    /// The first entry that the port answers otherwise, an end with its wake-ups in their order. Where the Rust has
    /// no such call, the table of refusals says by which row the port refuses it; such calls are also made between
    /// those of the run.
    fn calls(&mut self, port: &mut Port, name: &str, entries: &[Entry]) -> Result<(), String> {
        let mut rng = Rng::new(entries.len() as u64);
        let mut table = Table::default();
        let mut session = Session::new(port);
        for (i, e) in entries.iter().enumerate() {
            if rng.chance(MISPLACED) {
                misplaced::one(&mut rng, &table, session.driver, &mut self.rows)
                    .map_err(|own| differs(name, &entries[..i], &own))?;
            }
            let own = session.call(&e.call);
            let expected = match e.answer {
                Answer::Outside => {
                    let row = table.row(&e.call, table.due(&e.call));
                    let row = row.ok_or_else(|| differs(name, &entries[..=i], "and no row of the table refuses it"))?;
                    self.rows[row as usize] += 1;
                    Answer::Refused(row)
                }
                ref answer => answer.clone(),
            };
            if own.answer != expected || own.changed != e.changed {
                return Err(differs(name, &entries[..=i], &print(&[own])));
            }
            table.feed(e);
        }
        Ok(())
    }

    /// Makes the calls of a run of the Rust on the port: what is different, if something is.
    pub fn check(&mut self, port: &mut Port, name: &str, entries: &[Entry]) -> Result<(), String> {
        let (entries, lengths) = late::by_rule(&domain::within_domain(entries));
        self.calls(port, name, &entries)?;
        let stamps = stamps::expected(&entries);
        assert_eq!(stamps.len(), port.stamps.len());
        for (&(i, stamp), &own) in stamps.iter().zip(&port.stamps) {
            if own != stamp {
                return Err(differs(name, &entries[..=i], &format!("with the stamp {own}, not {stamp}")));
            }
        }
        let times = time::expected(&entries);
        assert_eq!(times.len(), port.times.len());
        for (&(i, time), &own) in times.iter().zip(&port.times) {
            if own != time {
                let own = format!("with the bus time {own} in use, not {time}");
                return Err(differs(name, &entries[..=i], &own));
            }
        }
        self.lists += 1;
        self.seen.list();
        entries.iter().for_each(|e| self.seen.feed(e));
        self.entries += entries.len();
        self.answers += entries.iter().filter(|e| e.answer != Answer::Stored).count();
        self.stamps += stamps.iter().filter(|s| s.1 != stamps::NONE).count();
        self.late += lengths.late;
        self.otherwise += lengths.otherwise;
        self.together += std::mem::take(&mut port.together.compared);
        self.turned_down += entries.iter().filter(|e| e.answer == Answer::Refused(19)).count();
        if let Some(lists) = &mut self.chip {
            lists.add(port, &entries);
        }
        Ok(())
    }
}
