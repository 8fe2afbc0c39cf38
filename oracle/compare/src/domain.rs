//! What of a run of the Rust is compared.

use oracle::text::Entry;
use oracle::{Answer, Call};

use crate::time;

/// Of each run of a list, which an accepted start-up begins, the entries that are compared: those up to an allocation
/// that was refused for want of buffers, of which the Rust keeps the number and the buffers that were left, up to an
/// enabling that the port turns down for want of bus time (19), and before a start of EP0 with another maximum than
/// 64, which the port refuses. Of the run's rest, only what it left in the slots: the next run may begin with these.
pub fn within_domain(entries: &[Entry]) -> Vec<Entry> {
    let mut within = true;
    let mut time = time::Time::default();
    let mut all = vec![];
    for e in entries {
        if within && time.turns_down(e) {
            all.push(Entry { call: e.call.clone(), answer: Answer::Refused(19), changed: vec![] });
            all.extend(stored(e));
            within = false;
            continue;
        }
        let (starts_up, other, eight) = match (&e.call, &e.answer) {
            (Call::StartUp { .. }, Answer::Write { .. }) => (true, false, false),
            (Call::Start(maximum), answer) => (false, *maximum != 64 && *answer != Answer::Outside, false),
            (Call::Allocate { .. }, Answer::Refused(8)) => (false, false, true),
            _ => (false, false, false),
        };
        within = starts_up || within && !other;
        if within {
            time.feed(e);
            all.push(e.clone());
        } else {
            all.extend(stored(e));
        }
        within = within && !eight;
    }
    all
}

/// What an entry left in the slots, as stores.
fn stored(e: &Entry) -> Vec<Entry> {
    if e.answer == Answer::Stored {
        return vec![e.clone()];
    }
    let store = |(offset, data): &(u32, Vec<u8>)| Entry {
        call: Call::Store { offset: *offset, data: data.clone() },
        answer: Answer::Stored,
        changed: vec![],
    };
    e.changed.iter().map(store).collect()
}
