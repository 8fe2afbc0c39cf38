//! Document 01's table of refusals, as far as the Rust has no such call: rows 1 to 6, 15 and 16, the 10 of a poll of
//! another length, and row 22 of document 02. Written from the papers, over calls and answers alone; it knows nothing
//! of the port.

use oracle::text::Entry;
use oracle::{Answer, Call, Dir};

/// "Size not 8, 16, 32, 64 or 512; count 0; product above 65,536"; 1,024 by request Six.
fn good_buffer(size: u32, count: u32) -> bool {
    [8, 16, 32, 64, 512, 1024].contains(&size) && count > 0 && u64::from(size) * u64::from(count) <= 65_536
}

/// The bits of a reading: "int_fg 0 to 5, int_st 0 to 6, mis_st 0 and 1; rx_len, frame_no: 16 bits; control word, 8
/// bits"; ctrl has six fields.
fn width(register: u8) -> u32 {
    match register {
        0 | 5 => 6,
        1 => 7,
        2 => 2,
        3 | 4 => 16,
        _ => 8,
    }
}

/// Where a driver stands between start-ups and EP0's start.
#[derive(Clone, Copy, Default, PartialEq, Eq)]
enum Stage {
    #[default]
    Off,
    StartedUp,
    Running,
}

/// The control pipe's one request; a data_out with its slice's length.
#[derive(Clone, Copy, PartialEq, Eq)]
enum Control {
    Setup,
    DataOut(usize),
    DataIn,
    Accept,
}

/// What a call is lent beside its numbers: the slot buffer's length, and the length of the slice or the data that a
/// poll brings.
#[derive(Clone, Copy)]
pub struct Lent {
    pub slots: usize,
    pub poll: usize,
}

#[derive(Clone, Default)]
pub struct Table {
    stage: Stage,
    size: u32,
    count: u32,
    /// The call whose operation is under way, and the register whose reading is awaited.
    under_way: Option<Call>,
    awaited: Option<u8>,
    outs: u32,
    ins: u32,
    reads: [Option<usize>; 16],
    writes: [Option<usize>; 16],
    control: Option<Control>,
}

/// Does the call bring the slot buffer? Those that read or write a slot; start-up, which makes it known; continue.
pub fn brings_slots(call: &Call) -> bool {
    matches!(
        call,
        Call::StartUp { .. }
            | Call::Continue(_)
            | Call::SetEnabled { .. }
            | Call::PollRead(_)
            | Call::Write { .. }
            | Call::PollWrite(_)
            | Call::DataIn { .. }
            | Call::PollDataOut
            | Call::Open(_)
            | Call::Queue { .. }
    )
}

/// Does the poll bring a slice, or its data again?
pub fn brings_slice(call: &Call) -> bool {
    matches!(call, Call::PollRead(_) | Call::PollWrite(_) | Call::PollDataOut)
}

impl Table {
    /// What the papers have a call bring: a buffer of count × size bytes, and to a poll its begin's length.
    pub fn due(&self, call: &Call) -> Lent {
        let slots = match *call {
            Call::StartUp { size, count, .. } => size as usize * count as usize,
            _ => self.size as usize * self.count as usize,
        };
        let poll = match *call {
            Call::PollRead(ep) => self.reads[ep as usize & 15].unwrap_or(0),
            Call::PollWrite(ep) => self.writes[ep as usize & 15].unwrap_or(0),
            Call::PollDataOut => match self.control {
                Some(Control::DataOut(length)) => length,
                _ => 0,
            },
            _ => 0,
        };
        Lent { slots, poll }
    }

    /// The polls of requests that were begun and bring a slice or data.
    pub fn polls_with_slices(&self) -> Vec<Call> {
        let reads = (1..16).filter(|&ep| self.reads[ep].is_some()).map(|ep| Call::PollRead(ep as u8));
        let writes = (1..16).filter(|&ep| self.writes[ep].is_some()).map(|ep| Call::PollWrite(ep as u8));
        let control = matches!(self.control, Some(Control::DataOut(_))).then_some(Call::PollDataOut);
        reads.chain(writes).chain(control).collect()
    }

    /// The reading that is awaited: its bits.
    pub fn awaited(&self) -> Option<u32> {
        self.awaited.map(width)
    }

    /// The first of these rows that refuses the call, if one does. "Rows are in order of checking within a call."
    pub fn row(&self, call: &Call, lent: Lent) -> Option<u8> {
        // "The questions answer always and at every stage."
        if matches!(call, Call::Pending(_) | Call::Overruns(_) | Call::Enabled { .. }) {
            return None;
        }
        let rows = [
            (1, brings_slots(call) && lent.slots != self.due(call).slots),
            (2, matches!(*call, Call::StartUp { size, count, .. } if !good_buffer(size, count))),
            (3, self.busy_for(call)),
            (4, !self.at_its_stage(call)),
            (5, !self.endpoint_of(call)),
            (22, matches!(*call, Call::Start(maximum) if maximum != 64)),
            (6, self.above_the_size(call)),
            (15, self.nothing_begun(call)),
            (10, brings_slice(call) && lent.poll != self.due(call).poll),
            (16, self.too_wide(call)),
        ];
        rows.into_iter().find(|r| r.1).map(|r| r.0)
    }

    /// 3: "any but start-up and continue; an operation is under way; open, close and queue pass during an interrupt".
    fn busy_for(&self, call: &Call) -> bool {
        let Some(under_way) = &self.under_way else { return false };
        match call {
            Call::StartUp { .. } | Call::Continue(_) => false,
            Call::Open(_) | Call::Close(_) | Call::Queue { .. } => *under_way != Call::Interrupt,
            _ => true,
        }
    }

    /// 4: "allocation or EP0's start after EP0's start; before it, every call but these two, start-up and continue;
    /// before the first start-up, these two as well".
    fn at_its_stage(&self, call: &Call) -> bool {
        match call {
            Call::StartUp { .. } | Call::Continue(_) => true,
            Call::Allocate { .. } | Call::Start(_) => self.stage == Stage::StartedUp,
            _ => self.stage == Stage::Running,
        }
    }

    /// 5: "0 or above 15, or not allocated, for read, open and close as OUT, for write and queue as IN (pacing: only
    /// the first two; stall takes 0)".
    fn endpoint_of(&self, call: &Call) -> bool {
        let has = |ep: u8, dir: Dir| {
            let of = if dir == Dir::In { self.ins } else { self.outs };
            (1..=15).contains(&ep) && of >> ep & 1 == 1
        };
        match *call {
            Call::Read { ep, .. } | Call::PollRead(ep) | Call::Open(ep) | Call::Close(ep) => has(ep, Dir::Out),
            Call::Write { ep, .. } | Call::PollWrite(ep) | Call::Queue { ep, .. } => has(ep, Dir::In),
            Call::SetEnabled { ep, dir, .. } => has(ep, dir),
            Call::SetStalled { ep, dir, .. } | Call::IsStalled { ep, dir } => ep == 0 || has(ep, dir),
            Call::SetPaced { ep, .. } | Call::Advance(ep) => (1..=15).contains(&ep),
            _ => true,
        }
    }

    /// 6: "allocation, EP0 start: maximum above the buffer size".
    fn above_the_size(&self, call: &Call) -> bool {
        match *call {
            Call::Allocate { maximum, .. } | Call::Start(maximum) => u32::from(maximum) > self.size,
            _ => false,
        }
    }

    /// 15: "nothing under way; no such request begun".
    fn nothing_begun(&self, call: &Call) -> bool {
        match call {
            Call::Continue(_) => self.under_way.is_none(),
            call => self.polls(call) == Some(false),
        }
    }

    /// Of a poll, whether its request was begun.
    fn polls(&self, call: &Call) -> Option<bool> {
        Some(match (call, self.control) {
            (Call::PollRead(ep), _) => self.reads[*ep as usize & 15].is_some(),
            (Call::PollWrite(ep), _) => self.writes[*ep as usize & 15].is_some(),
            (Call::PollSetup, c) => c == Some(Control::Setup),
            (Call::PollDataOut, c) => matches!(c, Some(Control::DataOut(_))),
            (Call::PollDataIn, c) => c == Some(Control::DataIn),
            (Call::PollAccept, c) => c == Some(Control::Accept),
            _ => return None,
        })
    }

    /// 16: "a reading has bits above its width".
    fn too_wide(&self, call: &Call) -> bool {
        match (call, self.awaited()) {
            (Call::Continue(value), Some(bits)) => u64::from(*value) >> bits != 0,
            _ => false,
        }
    }

    /// A call that these rows let pass, with what it answered.
    pub fn feed(&mut self, e: &Entry) {
        let refused = matches!(e.answer, Answer::Refused(_));
        if matches!(e.answer, Answer::Stored | Answer::Outside | Answer::Panicked | Answer::Number(_)) {
            return;
        }
        if !refused {
            self.begun(&e.call);
        }
        self.polled(&e.call, &e.answer);
        let of_the_operation = !matches!(e.call, Call::Open(_) | Call::Close(_) | Call::Queue { .. });
        match e.answer {
            Answer::Read { reg, .. } => self.awaited = Some(reg),
            Answer::Write { .. } | Answer::Wait(_) | Answer::Callback => self.awaited = None,
            Answer::End { result, .. } if of_the_operation => {
                self.awaited = None;
                self.ended(result);
            }
            _ => {}
        }
    }

    /// An accepted call: "an accepted begin replaces" the request of its direction, of control the one.
    fn begun(&mut self, call: &Call) {
        match *call {
            Call::StartUp { size, count, .. } => {
                *self = Self { stage: Stage::StartedUp, size, count, ..Self::default() };
            }
            Call::Start(_) => self.stage = Stage::Running,
            Call::Read { ep, length } => self.reads[ep as usize] = Some(length as usize),
            Call::Write { ep, ref data } => self.writes[ep as usize] = Some(data.len()),
            Call::Setup => self.control = Some(Control::Setup),
            Call::DataOut { length, .. } => self.control = Some(Control::DataOut(length as usize)),
            Call::DataIn { .. } => self.control = Some(Control::DataIn),
            Call::Accept | Call::AcceptSetAddress(_) => self.control = Some(Control::Accept),
            Call::Reject => self.control = None,
            _ => {}
        }
        if !matches!(call, Call::Continue(_) | Call::Open(_) | Call::Close(_) | Call::Queue { .. }) {
            self.under_way = Some(call.clone());
        }
    }

    /// Of a poll: done, 9 and 10 end the request; a poll that is over is no operation.
    fn polled(&mut self, call: &Call, answer: &Answer) {
        let over = matches!(answer, Answer::Done { .. } | Answer::Refused(9 | 10));
        match *call {
            Call::PollRead(ep) if over => self.reads[ep as usize] = None,
            Call::PollWrite(ep) if over => self.writes[ep as usize] = None,
            Call::PollSetup | Call::PollDataOut | Call::PollDataIn | Call::PollAccept if over => self.control = None,
            _ => {}
        }
        if matches!(answer, Answer::Done { .. } | Answer::NotYet) {
            self.under_way = None;
        }
    }

    /// The operation under way is at its end.
    fn ended(&mut self, result: u32) {
        match self.under_way.take() {
            Some(Call::Allocate { dir: Dir::Out, .. }) => self.outs |= 1 << result,
            Some(Call::Allocate { dir: Dir::In, .. }) => self.ins |= 1 << result,
            // an address that was written
            Some(Call::PollAccept) => self.control = None,
            _ => {}
        }
    }
}
