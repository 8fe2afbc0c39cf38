//! What happens in a run, endpoint by endpoint and microframe by microframe.

use oracle::{Answer, Call, Dir, Kind, Wake};

use super::drive::{Awaited, Step, FRAME_NO};
use crate::rows;
use crate::stamps::microframe_index;

const EP_RX_DMA: u8 = 15;

/// Where an event stands.
#[derive(Clone, Copy, PartialEq, Eq, PartialOrd, Ord, Debug)]
pub enum Place {
    Device,
    Ep0,
    Out(u8),
    In(u8),
}

impl Place {
    pub fn name(self) -> String {
        match self {
            Place::Device => "device".into(),
            Place::Ep0 => "EP0".into(),
            Place::Out(e) => format!("OUT {e}"),
            Place::In(e) => format!("IN {e}"),
        }
    }
}

#[derive(Clone, Copy, PartialEq, Eq, Debug)]
pub enum What {
    /// A packet is admitted, or turned away.
    Arrival,
    Overrun,
    Queued,
    /// A transfer that is not isochronous went through.
    Transfer,
    Opened,
    Sent,
    /// A call, its outcome or the bus changed something.
    Change,
    Reset,
    Refused,
    /// The list has another answer.
    Differs,
}

impl What {
    /// Told in words without being asked.
    pub fn notable(self) -> bool {
        matches!(self, What::Overrun | What::Change | What::Reset | What::Refused | What::Differs)
    }

    pub fn name(self) -> &'static str {
        match self {
            What::Arrival => "arrival",
            What::Overrun => "overrun",
            What::Queued => "queued",
            What::Transfer => "transfer",
            What::Opened => "opened",
            What::Sent => "sent",
            What::Change => "change",
            What::Reset => "reset",
            What::Refused => "refused",
            What::Differs => "differs",
        }
    }
}

#[derive(Clone, Debug)]
pub struct Event {
    pub column: usize,
    pub line: usize,
    pub place: Place,
    pub what: What,
    pub words: String,
}

/// An endpoint, and how many packets it holds in each microframe, at most.
#[derive(Clone, Debug)]
pub struct Lane {
    pub place: Place,
    pub words: String,
    pub isochronous: bool,
    pub levels: Vec<u32>,
}

#[derive(Clone, Debug)]
pub struct Timeline {
    pub calls: usize,
    /// The microframe of each column; the first one is before any frame reading.
    pub columns: Vec<Option<u16>>,
    pub lanes: Vec<Lane>,
    pub events: Vec<Event>,
    pub recorded: usize,
    pub differing: usize,
}

struct Builder {
    t: Timeline,
    levels: Vec<u32>,
    receive: [Option<u32>; 16],
    overruns: [u32; 16],
    pending: [u32; 16],
    line: usize,
}

fn side(ep: u8, dir: Dir) -> Place {
    match (ep, dir) {
        (0, _) => Place::Ep0,
        (e, Dir::Out) => Place::Out(e),
        (e, Dir::In) => Place::In(e),
    }
}

/// Whose call it is, and what it is called.
fn named(call: &Call) -> (Place, &'static str) {
    match call {
        Call::StartUp { .. } => (Place::Device, "start-up"),
        Call::Continue(_) => (Place::Device, "continue"),
        Call::Allocate { .. } => (Place::Device, "allocate"),
        Call::Start(_) => (Place::Ep0, "start"),
        Call::Interrupt => (Place::Device, "interrupt"),
        Call::BusPoll => (Place::Device, "bus poll"),
        Call::BusEnable => (Place::Device, "bus enable"),
        Call::BusDisable => (Place::Device, "bus disable"),
        Call::Microframe => (Place::Device, "microframe"),
        Call::SetEnabled { ep, dir, on: true } => (side(*ep, *dir), "enable"),
        Call::SetEnabled { ep, dir, .. } => (side(*ep, *dir), "disable"),
        Call::SetStalled { ep, dir, on: true } => (side(*ep, *dir), "stall"),
        Call::SetStalled { ep, dir, .. } => (side(*ep, *dir), "clear stall"),
        Call::IsStalled { ep, dir } => (side(*ep, *dir), "is stalled"),
        Call::SetPaced { ep, .. } => (Place::In(*ep), "set paced"),
        Call::Advance(ep) => (Place::In(*ep), "advance"),
        Call::Read { ep, .. } => (Place::Out(*ep), "read"),
        Call::PollRead(ep) => (Place::Out(*ep), "poll of a read"),
        Call::Write { ep, .. } => (Place::In(*ep), "write"),
        Call::PollWrite(ep) => (Place::In(*ep), "poll of a write"),
        Call::Setup => (Place::Ep0, "setup"),
        Call::PollSetup => (Place::Ep0, "poll of setup"),
        Call::DataOut { .. } => (Place::Ep0, "data out"),
        Call::PollDataOut => (Place::Ep0, "poll of data out"),
        Call::DataIn { .. } => (Place::Ep0, "data in"),
        Call::PollDataIn => (Place::Ep0, "poll of data in"),
        Call::Accept => (Place::Ep0, "accept"),
        Call::AcceptSetAddress(_) => (Place::Ep0, "accept of an address"),
        Call::PollAccept => (Place::Ep0, "poll of accept"),
        Call::Reject => (Place::Ep0, "reject"),
        Call::Open(ep) => (Place::Out(*ep), "open"),
        Call::Close(ep) => (Place::Out(*ep), "close"),
        Call::Queue { ep, .. } => (Place::In(*ep), "queue"),
        Call::Pending(ep) => (Place::In(*ep), "pending"),
        Call::Overruns(ep) => (Place::Out(*ep), "overruns"),
        Call::Enabled { ep, dir } => (side(*ep, *dir), "enabled"),
        Call::Store { .. } | Call::Fill(_) => (Place::Device, "store"),
    }
}

fn kind_words(kind: Kind) -> &'static str {
    match kind {
        Kind::Control => "control",
        Kind::Isochronous => "isochronous",
        Kind::Bulk => "bulk",
        Kind::Interrupt => "interrupt",
    }
}

/// A call's answer in a few words.
fn told(answer: &Answer) -> String {
    match answer {
        Answer::Shown { length, .. } => format!("{length} bytes shown"),
        Answer::Done { length, .. } => format!("done, {length} bytes"),
        Answer::Refused(row) => rows::refused(*row),
        Answer::Number(n) => format!("{n}"),
        Answer::End { result, wakes } => format!("end with {result}, {} woken", wakes.len()),
        Answer::Read { .. } => "a reading".into(),
        Answer::Write { .. } => "a write".into(),
        Answer::NotYet => "not yet".into(),
        _ => "another step".into(),
    }
}

impl Builder {
    fn column(&self) -> usize {
        self.t.columns.len() - 1
    }

    fn event(&mut self, place: Place, what: What, words: impl Into<String>) {
        let column = self.column();
        self.t.events.push(Event { column, line: self.line, place, what, words: words.into() });
    }

    fn lane(&mut self, place: Place) -> usize {
        match self.t.lanes.iter().position(|l| l.place == place) {
            Some(i) => i,
            None => {
                let levels = vec![0; self.t.columns.len()];
                self.t.lanes.push(Lane { place, words: String::new(), isochronous: false, levels });
                self.levels.push(0);
                self.t.lanes.len() - 1
            }
        }
    }

    fn level(&mut self, place: Place, change: impl Fn(u32) -> u32) {
        let i = self.lane(place);
        self.levels[i] = change(self.levels[i]);
        let column = self.column();
        let most = &mut self.t.lanes[i].levels[column];
        *most = self.levels[i].max(*most);
    }

    fn empty_all(&mut self) {
        let places: Vec<Place> = self.t.lanes.iter().map(|l| l.place).collect();
        places.into_iter().for_each(|p| self.level(p, |_| 0));
    }

    fn isochronous(&self, place: Place) -> bool {
        self.t.lanes.iter().any(|l| l.place == place && l.isochronous)
    }

    /// A frame reading: the next column, where it is another microframe.
    fn frame(&mut self, value: u32) {
        let microframe = Some(microframe_index(value as u16));
        if self.t.columns.last() != Some(&microframe) {
            self.t.columns.push(microframe);
            for (lane, level) in self.t.lanes.iter_mut().zip(&self.levels) {
                lane.levels.push(*level);
            }
        }
    }

    /// Overruns and packets that are gone, as the questions tell them; those are sent only by an interrupt or an
    /// advance.
    fn questions(&mut self, step: &Step, sends: bool) {
        for e in 1..16u8 {
            let i = e as usize;
            let more = step.overruns[i].wrapping_sub(self.overruns[i]);
            if more != 0 && step.overruns[i] != 0 {
                self.event(
                    Place::Out(e),
                    What::Overrun,
                    format!("a packet is turned away, {} so far", step.overruns[i]),
                );
            }
            if step.pending[i] < self.pending[i] {
                if sends && self.isochronous(Place::In(e)) {
                    (step.pending[i]..self.pending[i])
                        .for_each(|_| self.event(Place::In(e), What::Sent, "a packet is gone"));
                }
                self.level(Place::In(e), |_| step.pending[i]);
            }
        }
        self.overruns = step.overruns;
        self.pending = step.pending;
    }

    /// A receive address that moves on in an interrupt: the packet in the slot before is admitted.
    fn receive(&mut self, ep: u8, value: u32, interrupt: bool) {
        let before = self.receive[ep as usize].replace(value);
        if interrupt && self.isochronous(Place::Out(ep)) && before.is_some_and(|b| b != value) {
            self.level(Place::Out(ep), |n| n + 1);
            let words = format!("a packet arrives at slot byte {}", before.unwrap_or(0));
            self.event(Place::Out(ep), What::Arrival, words);
        }
    }

    /// The end of an operation that this call began.
    fn ended(&mut self, call: &Call, result: u32, wakes: &[Wake]) {
        match call {
            Call::StartUp { size, count, .. } => {
                self.event(Place::Device, What::Change, format!("start-up: {count} buffers of {size} bytes"))
            }
            Call::Allocate { kind, maximum, dir, .. } => {
                let place = side(result as u8, *dir);
                let i = self.lane(place);
                let words = format!("{}, maximum {maximum}", kind_words(*kind));
                self.t.lanes[i].isochronous = *kind == Kind::Isochronous;
                self.t.lanes[i].words = words.clone();
                self.event(place, What::Change, format!("allocated: {words}"));
            }
            Call::Start(maximum) => {
                let i = self.lane(Place::Ep0);
                self.t.lanes[i].words = format!("control, maximum {maximum}");
                self.event(Place::Ep0, What::Change, "EP0 starts");
            }
            Call::BusEnable => self.event(Place::Device, What::Change, "the bus is pulled up"),
            Call::BusDisable => self.event(Place::Device, What::Change, "the bus is let go"),
            Call::BusPoll => match result {
                1 => self.event(Place::Device, What::Change, "bus poll: power"),
                2 => {
                    self.empty_all();
                    self.event(Place::Device, What::Reset, "bus poll: reset, every endpoint is disabled and empty")
                }
                3 => self.event(Place::Device, What::Change, "bus poll: suspend"),
                4 => self.event(Place::Device, What::Change, "bus poll: resume"),
                _ => {}
            },
            Call::SetEnabled { ep, dir, on } => {
                let place = side(*ep, *dir);
                self.level(place, |_| 0);
                self.event(place, What::Change, if *on { "enabled" } else { "disabled" })
            }
            Call::SetStalled { ep, dir, on } => {
                self.event(side(*ep, *dir), What::Change, if *on { "stalled" } else { "the stall is cleared" })
            }
            Call::Reject => self.event(Place::Ep0, What::Change, "the request is rejected"),
            Call::Interrupt => {
                for wake in wakes {
                    let place = match wake {
                        Wake::Bus => Place::Device,
                        Wake::Out(0) | Wake::In(0) => Place::Ep0,
                        Wake::Out(e) => Place::Out(*e),
                        Wake::In(e) => Place::In(*e),
                    };
                    match place {
                        Place::Device => self.event(place, What::Change, "the bus task is woken"),
                        place if !self.isochronous(place) => {
                            self.event(place, What::Transfer, "a transfer went through")
                        }
                        _ => {}
                    }
                }
            }
            _ => {}
        }
    }

    /// A call that is over at once.
    fn at_once(&mut self, step: &Step) {
        match (&step.call, &step.answer) {
            (Call::Open(ep), Answer::Shown { length, .. }) => {
                let stamp = step.stamp.unwrap_or(0);
                self.event(Place::Out(*ep), What::Opened, format!("opened: {length} bytes, of microframe {stamp}"));
            }
            (Call::Close(ep), Answer::End { .. }) => self.level(Place::Out(*ep), |n| n.saturating_sub(1)),
            (Call::Queue { ep, data }, Answer::End { .. }) => {
                let now = step.pending[*ep as usize & 15];
                self.level(Place::In(*ep), |_| now);
                self.event(Place::In(*ep), What::Queued, format!("queued: {} bytes", data.len()));
            }
            (Call::PollRead(ep), Answer::Done { length, .. }) => {
                self.event(Place::Out(*ep), What::Opened, format!("read: {length} bytes"));
                if self.isochronous(Place::Out(*ep)) {
                    self.level(Place::Out(*ep), |n| n.saturating_sub(1));
                }
            }
            (Call::PollWrite(ep), Answer::Done { .. }) => self.event(Place::In(*ep), What::Sent, "the write is done"),
            (Call::PollSetup, Answer::Done { bytes, .. }) => {
                let hex: Vec<String> = bytes.iter().map(|b| format!("{b:02x}")).collect();
                self.event(Place::Ep0, What::Change, format!("setup {}", hex.join(" ")));
            }
            (Call::PollDataOut, Answer::Done { length, .. }) => {
                self.event(Place::Ep0, What::Transfer, format!("data out: {length} bytes"))
            }
            (Call::PollDataIn, Answer::Done { .. }) => self.event(Place::Ep0, What::Transfer, "data in is done"),
            (Call::PollAccept, Answer::Done { .. }) => {
                self.event(Place::Ep0, What::Transfer, "the status stage is done")
            }
            _ => {}
        }
    }

    fn differs(&mut self, step: &Step) {
        let Some(recorded) = &step.recorded else { return };
        // what the Rust has no counterpart of is not compared
        if *recorded == Answer::Outside {
            return;
        }
        self.t.recorded += 1;
        if *recorded != step.answer {
            self.t.differing += 1;
            let (place, name) = named(&step.call);
            let words = format!("{name}: {}, and the list has {}", told(&step.answer), told(recorded));
            self.event(place, What::Differs, words);
        }
    }
}

/// The events of a run, in their order.
pub fn timeline(steps: &[Step]) -> Timeline {
    timeline_of(steps, &[])
}

/// The same of a run whose allocations are not in it; these are isochronous.
pub fn timeline_of(steps: &[Step], isochronous: &[Place]) -> Timeline {
    let t = Timeline {
        calls: steps.iter().filter(|s| s.answer != Answer::Stored).count(),
        columns: vec![None],
        lanes: vec![],
        events: vec![],
        recorded: 0,
        differing: 0,
    };
    let mut b = Builder { t, levels: vec![], receive: [None; 16], overruns: [0; 16], pending: [0; 16], line: 0 };
    b.lane(Place::Device);
    for place in isochronous {
        let i = b.lane(*place);
        b.t.lanes[i].isochronous = true;
        b.t.lanes[i].words = "isochronous".into();
    }
    let mut awaited = Awaited::default();
    let mut begun: Option<Call> = None;
    for step in steps {
        b.line = step.line;
        if let Some(frame) = step.frame {
            b.frame(frame.into());
        }
        if let Some((FRAME_NO, value)) = awaited.feed(step) {
            b.frame(value);
        }
        let begins = !matches!(step.call, Call::Continue(_) | Call::Open(_) | Call::Close(_) | Call::Queue { .. });
        match &step.answer {
            Answer::Refused(_) if step.looks => {}
            Answer::Refused(row) => {
                let (place, name) = named(&step.call);
                b.event(place, What::Refused, format!("{name}: {}", rows::refused(*row)));
            }
            Answer::Read { .. } | Answer::Write { .. } | Answer::Wait(_) | Answer::Callback if begins => {
                if matches!(step.call, Call::StartUp { .. }) {
                    b.empty_all();
                    b.receive = [None; 16];
                }
                begun = Some(step.call.clone());
            }
            Answer::End { result, wakes } if begins => {
                let call = step.call.clone();
                b.ended(&call, *result, wakes);
            }
            _ => {}
        }
        if let Answer::Write { reg: EP_RX_DMA, ep, value } = step.answer {
            b.receive(ep, value, begun == Some(Call::Interrupt));
        }
        b.questions(step, matches!(begun, Some(Call::Interrupt | Call::Advance(_))));
        b.at_once(step);
        if let (Call::Continue(_), Answer::End { result, wakes }) = (&step.call, &step.answer) {
            if let Some(call) = begun.take() {
                b.ended(&call, *result, wakes);
            }
        }
        b.differs(step);
    }
    b.t.lanes.sort_by_key(|l| l.place);
    b.t
}
