//! A trace from a device (firmware/trace.h): what the driver was asked, what it answered, what the registers read.
//! From its last start-up on it is made again on the port.

use oracle::number::decode;
use oracle::{Answer, Call, Dir, Kind};

use super::drive::{Drive, Step, FRAME_NO};
use super::events::Place;
use crate::image::Image;
use crate::recorder::{self, Listener, Record, Sampled, Survey, ENTRY};
use crate::stream::{go_through, Dropped, Extent, Packet, Sink};
use crate::{bad, descriptor, survey, Done};

/// "USTR": a ring read by a debugger. Its length and how many entries were ever made follow.
const MAGIC: &[u8; 4] = b"USTR";
/// A ring that is longer is none.
const MOST: usize = 64 << 20;

/// The calls that lists do not have.
const ALLOCATE_ALL: u8 = 40;
const INTERRUPT: u8 = 41;
const CONTINUE_TRANSFER: u8 = 42;

#[derive(Clone, PartialEq, Eq, Debug)]
pub enum Entry {
    Answer {
        word: u64,
        reading: u32,
    },
    Call {
        number: u8,
        a: u32,
        b: u32,
        c: u32,
    },
    Bytes(Vec<u8>),
    /// Here entries are missing: so many, or 0 where that is not known.
    Lost(u32),
}

impl Entry {
    fn of(bytes: &[u8]) -> Option<Self> {
        let word = u64::from_le_bytes(bytes[..8].try_into().ok()?);
        let reading = u32::from_le_bytes(bytes[8..].try_into().ok()?);
        let n = (word >> 4 & 15) as usize;
        match word & 15 {
            0..=8 => Some(Entry::Answer { word, reading }),
            13 => Some(Entry::Lost((word >> 32) as u32)),
            14 if n <= 11 => Some(Entry::Bytes(bytes[1..1 + n].to_vec())),
            15 => {
                let (number, a, b) = ((word >> 8) as u8, (word >> 16 & 0xFFFF) as u32, (word >> 32) as u32);
                Some(Entry::Call { number, a, b, c: reading })
            }
            _ => None,
        }
    }
}

fn entries(bytes: &[u8]) -> Result<Vec<Entry>, String> {
    let all = bytes.chunks_exact(ENTRY).enumerate();
    all.map(|(i, b)| Entry::of(b).ok_or(format!("entry {i} of the trace is none"))).collect()
}

/// The entries of a ring as a debugger reads it.
pub fn of_ring(bytes: &[u8]) -> Result<Vec<Entry>, String> {
    let number = |at: usize| bytes.get(at..at + 4).map(|b| u32::from_le_bytes(b.try_into().unwrap()) as usize);
    let (Some(size), Some(count)) = (number(4), number(8)) else { return Err("the ring's front is cut".into()) };
    let ring = &bytes[12..];
    if size == 0 || size > MOST / ENTRY {
        return Err(format!("a ring of {size} entries is none"));
    }
    if ring.len() < size.min(count) * ENTRY {
        return Err(format!("the ring has {size} entries, and only {} are here", ring.len() / ENTRY));
    }
    if count <= size {
        return entries(&ring[..count * ENTRY]);
    }
    // the oldest stands behind the newest
    let at = count % size * ENTRY;
    entries(&[&ring[at..size * ENTRY], &ring[..at]].concat())
}

/// The trace records of a card.
#[derive(Default)]
struct Traces(Vec<u8>);

impl Traces {
    /// Blocks were dropped: what they had of the trace is missing.
    fn damaged(&mut self) {
        self.0.extend(13u64.to_le_bytes());
        self.0.extend(0u32.to_le_bytes());
    }
}

impl Listener for Traces {
    fn packet(&mut self, _: &Sampled, _: &[u8]) -> Done<()> {
        Ok(())
    }

    fn record(&mut self, record: &Record, _: u64, bytes: &[u8]) -> Done<()> {
        if record.kind == recorder::Kind::Trace {
            self.0.extend_from_slice(&bytes[6..]);
        }
        Ok(())
    }
}

struct Through<'a>(&'a mut Survey<Traces>);

impl Sink for Through<'_> {
    fn packet(&mut self, p: &Packet) -> Done<bool> {
        if p.behind_damage {
            self.0.listener.damaged();
        }
        self.0.next(p.endpoint, p.begin, p.behind_damage, p.bytes)
    }

    fn block(&mut self, _: u64, _: Option<Dropped>) {}

    fn behind(&mut self, _: Option<Dropped>) -> bool {
        false
    }
}

/// The entries of a card's trace records, or of a ring.
pub fn read(image: Image, endpoint: u8) -> Done<Vec<Entry>> {
    let name = crate::image::name(&image.path);
    let named = |e: String| bad(format!("{name}: {e}"));
    let bytes = image.small(MOST)?;
    if bytes.starts_with(MAGIC) {
        return of_ring(&bytes).or_else(named);
    }
    let mut survey = Survey::new(Traces::default(), endpoint);
    go_through(&mut Image::of_bytes(&name, bytes), Extent::default(), &mut Through(&mut survey))?;
    survey.finish()?;
    if survey.listener.0.chunks_exact(ENTRY).all(|e| e[0] & 15 == 13) {
        return named("neither a ring of a trace nor a card that has one".into());
    }
    entries(&survey.listener.0).or_else(named)
}

fn dir(n: u32) -> Dir {
    if n == 0 {
        Dir::Out
    } else {
        Dir::In
    }
}

fn kind(n: u32) -> Kind {
    [Kind::Control, Kind::Isochronous, Kind::Bulk, Kind::Interrupt][n as usize & 3]
}

/// The call of a list that this one is.
fn call(number: u8, a: u32, b: u32, c: u32) -> Option<Call> {
    let ep = a as u8;
    let data = || vec![0; b.min(65_535) as usize];
    Some(match number {
        0 => Call::StartUp { size: a, count: b, callback: c != 0 },
        2 => Call::Allocate {
            kind: kind(a),
            address: u8::try_from(a >> 3).ok(),
            maximum: b as u16,
            interval: c as u8,
            dir: dir(a & 4),
        },
        3 => Call::Start(a as u16),
        4 | INTERRUPT => Call::Interrupt,
        5 => Call::BusPoll,
        6 => Call::BusEnable,
        7 => Call::BusDisable,
        8 => Call::SetEnabled { ep, dir: dir(b), on: c != 0 },
        9 => Call::SetStalled { ep, dir: dir(b), on: c != 0 },
        10 => Call::IsStalled { ep, dir: dir(b) },
        11 => Call::SetPaced { ep, on: b != 0 },
        12 => Call::Advance(ep),
        13 => Call::Microframe,
        14 => Call::Read { ep, length: b },
        15 => Call::PollRead(ep),
        16 => Call::Write { ep, data: data() },
        17 => Call::PollWrite(ep),
        18 => Call::Setup,
        19 => Call::PollSetup,
        20 => Call::DataOut { length: b, first: a != 0 },
        21 => Call::PollDataOut,
        22 => Call::DataIn { data: data(), first: a != 0, last: c != 0 },
        23 => Call::PollDataIn,
        24 => Call::Accept,
        25 => Call::AcceptSetAddress(ep),
        26 => Call::PollAccept,
        27 => Call::Reject,
        28 => Call::Open(ep),
        29 => Call::Close(ep),
        30 => Call::Queue { ep, data: data() },
        _ => return None,
    })
}

/// What the interrupt's int_fg says of a setup packet, and where EP0's packets lie.
const SETUP_FLAG: u32 = 32;
const INT_FG: u8 = 0;
const INT_ST: u64 = 1;
const RX_LEN: u64 = 3;
const EP0_DMA: u8 = 12;
const EP_RX_DMA: u64 = 15;

/// For each entry at which an interrupt begins that brings a setup packet: its bytes, as the poll gave them.
pub fn setups(all: &[Entry]) -> Vec<Option<Vec<u8>>> {
    let mut found = vec![None; all.len()];
    let (mut begun, mut last, mut polled) = (None, None, false);
    for (i, entry) in all.iter().enumerate() {
        match entry {
            Entry::Call { number: 4 | INTERRUPT, b, .. } => {
                begun = Some(i);
                if b & SETUP_FLAG != 0 {
                    last = Some(i);
                }
            }
            Entry::Answer { word, reading } if *word == 1 | u64::from(INT_FG) << 8 && reading & SETUP_FLAG != 0 => {
                last = begun
            }
            Entry::Bytes(bytes) if polled && bytes.len() == 8 => {
                if let Some(at) = last {
                    found[at] = Some(bytes.clone());
                }
            }
            _ => {}
        }
        polled = matches!(entry, Entry::Call { number: 19, .. }) || polled && matches!(entry, Entry::Answer { .. });
    }
    found
}

/// A packet that the chip put into its slot before an interrupt: where, and how long it is.
struct Arrival {
    offset: u32,
    length: u32,
}

/// What came before the interrupt that begins at this entry. The bytes are not in the trace; that a packet came shows
/// in the interrupt's token, or in the receive address that it moves on, and its length when it is opened.
fn arrivals(all: &[Entry], from: usize, receive: &[Option<u32>; 16]) -> Vec<Arrival> {
    let mut receive = *receive;
    let (mut found, mut token) = (vec![], None);
    let mut came = |receive: &mut [Option<u32>; 16], e: usize, next: Option<u32>, told: u32| {
        let Some(offset) = receive[e] else { return };
        let opened = all[from..].iter().find_map(|entry| match entry {
            Entry::Answer { word, .. } if word & 15 == 8 && (word >> 32) as u32 == offset => Some(word >> 8 & 0xFFFF),
            _ => None,
        });
        found.push(Arrival { offset, length: opened.map_or(told, |n| n as u32) });
        receive[e] = next;
    };
    let mut status = 0;
    for entry in &all[from + 1..] {
        match *entry {
            Entry::Call { number: CONTINUE_TRANSFER, b, c, .. } => token = Some((b, c)),
            Entry::Answer { word, reading } if word & 0xFFFF == 1 | INT_ST << 8 => status = reading,
            Entry::Answer { word, reading } if word & 0xFFFF == 1 | RX_LEN << 8 => token = Some((status, reading)),
            Entry::Answer { word, .. } if word & 0xFFFF == 2 | EP_RX_DMA << 8 => {
                let (e, value) = ((word >> 16) as usize & 15, (word >> 32) as u32);
                if receive[e].is_some_and(|r| r != value) {
                    let told = token.filter(|(s, _)| s & 15 == e as u32).map_or(1, |(_, n)| n);
                    came(&mut receive, e, Some(value), told);
                    token = token.filter(|(s, _)| s & 15 != e as u32);
                }
            }
            Entry::Answer { word, .. } if matches!(word & 15, 0 | 5) => break,
            _ => {}
        }
    }
    // an OUT that moves nothing on: it is turned away, or no isochronous one
    if let Some((status, length)) = token.filter(|(s, _)| s >> 4 & 3 == 0 && s & 15 != 0) {
        let e = status as usize & 15;
        if let Some(offset) = receive[e] {
            found.push(Arrival { offset, length });
        }
    }
    found
}

struct Replay<'a> {
    drive: Drive<'a>,
    answer: Answer,
    /// Where the chip puts an endpoint's next packet.
    receive: [Option<u32>; 16],
    /// The reading with which the operation under way goes on.
    pending: Option<u32>,
    ep0: u32,
    /// An allocation of all is made one by one: those that are still to come.
    rest: Vec<Call>,
}

fn is_access(answer: &Answer) -> bool {
    matches!(answer, Answer::Read { .. } | Answer::Write { .. } | Answer::Wait(_) | Answer::Callback)
}

impl Replay<'_> {
    fn make(&mut self, line: usize, call: &Call) -> Result<(), String> {
        self.answer = self.drive.call(line, call, None)?;
        match self.answer {
            Answer::Write { reg: EP0_DMA, value, .. } => self.ep0 = value,
            Answer::Write { reg, ep, value } if u64::from(reg) == EP_RX_DMA => {
                self.receive[ep as usize & 15] = Some(value);
            }
            _ => {}
        }
        Ok(())
    }

    /// Bytes that the chip stores. They are not in the trace; zeros are no marks of a slot.
    fn store(&mut self, line: usize, offset: u32, data: Vec<u8>) -> Result<(), String> {
        self.drive.call(line, &Call::Store { offset, data }, None).map(drop)
    }

    /// Goes on with what the access before brought.
    fn go_on(&mut self, line: usize) -> Result<(), String> {
        if let Some(reading) = self.pending.take() {
            self.make(line, &Call::Continue(reading))?;
        }
        // the end of one allocation is the begin of the next
        while matches!(self.answer, Answer::End { .. }) && !self.rest.is_empty() {
            let next = self.rest.remove(0);
            self.make(line, &next)?;
        }
        Ok(())
    }

    /// The answer that the device got.
    fn answered(&mut self, line: usize, word: u64, reading: u32, all: bool) -> Result<(), String> {
        self.go_on(line)?;
        let mut recorded = decode(word, |_| vec![]);
        let wakes = (word >> 24 & 0xFF) as usize;
        match (&mut recorded, &self.answer) {
            // the trace has how many are woken, and how many bytes came
            (Answer::End { wakes: list, .. }, Answer::End { wakes: own, .. }) if own.len() == wakes => {
                *list = own.clone()
            }
            (Answer::Done { length, bytes }, Answer::Done { length: n, bytes: own }) if length == n => {
                *bytes = own.clone()
            }
            _ => {}
        }
        // all allocations end with their number
        if all && matches!((&recorded, &self.answer), (Answer::End { .. }, Answer::End { .. })) {
            recorded = self.answer.clone();
        }
        if is_access(&recorded) && is_access(&self.answer) {
            self.pending = Some(reading);
        }
        if let Some(step) = self.drive.steps.last_mut() {
            step.recorded = Some(recorded);
        }
        Ok(())
    }

    /// One reading more, if this register is asked for.
    fn reading(&mut self, line: usize, reg: u8, value: u32) -> Result<(), String> {
        match self.answer {
            Answer::Read { reg: asked, .. } if asked == reg => self.make(line, &Call::Continue(value)),
            _ => Ok(()),
        }
    }
}

/// The endpoints of a descriptor as allocations.
fn allocations(bytes: &[u8]) -> Result<Vec<Call>, String> {
    let written = survey::write_descriptor(bytes).map_err(|row| descriptor::why(row, bytes))?;
    let one = |e: &descriptor::Endpoint| Call::Allocate {
        kind: kind(e.kind.into()),
        address: Some(e.address),
        maximum: e.maximum,
        interval: e.interval,
        dir: dir((e.address & 0x80).into()),
    };
    Ok(descriptor::listed(&written).iter().map(one).collect())
}

/// A trace without a start-up, as it was noted: nothing is made again, and nothing compared. The isochronous OUTs are
/// those whose packets are opened, the isochronous INs those that are queued to.
pub fn as_noted(all: &[Entry]) -> (Vec<Step>, Vec<Place>) {
    let (mut steps, mut places): (Vec<Step>, Vec<Place>) = (vec![], vec![]);
    let mut asked: Option<(Call, Option<u16>)> = None;
    let (mut reading, mut received) = (0, vec![]);
    let mut note = |line: usize, call: Call, frame: Option<u16>, answer: Answer| {
        let looks = matches!((&call, &answer), (Call::Open(_), Answer::Refused(12)));
        let (overruns, pending) = ([0; 16], [0; 16]);
        steps.push(Step { line, call, answer, recorded: None, frame, looks, stamp: None, overruns, pending });
    };
    for (line, entry) in all.iter().enumerate() {
        match entry {
            Entry::Bytes(bytes) => received = bytes.clone(),
            Entry::Call { number: CONTINUE_TRANSFER, .. } => {}
            // what was asked before is not answered behind it
            Entry::Lost(_) => (asked, reading, received) = (None, 0, vec![]),
            Entry::Answer { word, reading: read } => {
                let mut answer = decode(*word, |_| vec![]);
                if let Answer::Done { bytes, .. } = &mut answer {
                    *bytes = std::mem::take(&mut received);
                }
                let (call, frame) = asked.take().unwrap_or((Call::Continue(reading), None));
                note(line, call, frame, answer);
                reading = *read;
            }
            Entry::Call { number, a, b, c } => {
                let Some(call) = call(*number, *a, *b, *c) else { continue };
                match call {
                    Call::Open(e) => places.push(Place::Out(e & 15)),
                    Call::Queue { ep, .. } => places.push(Place::In(ep & 15)),
                    _ => {}
                }
                if matches!(call, Call::Queue { .. }) {
                    // in the callback: its answer is not noted
                    note(line, call, None, Answer::NotYet);
                    continue;
                }
                let frame = (*number == INTERRUPT).then_some(*a as u16);
                asked = Some((call, frame));
            }
        }
    }
    places.sort();
    places.dedup();
    (steps, places)
}

/// Where the last start-up is: the trace up to the first missing entry behind it. The number of that entry, and how many
/// are missing, where there is one.
pub fn unbroken(all: &[Entry]) -> (&[Entry], Option<(usize, u32)>) {
    let start = all.iter().rposition(|e| matches!(e, Entry::Call { number: 0, .. })).unwrap_or(0);
    let lost = |(i, e): (usize, &Entry)| match e {
        Entry::Lost(n) => Some((start + i, *n)),
        _ => None,
    };
    match all[start..].iter().enumerate().find_map(lost) {
        Some((at, n)) if has_start_up(all) => (&all[..at], Some((at, n))),
        lost => (all, lost),
    }
}

/// Is there a start-up, from which on it can be made again?
pub fn has_start_up(all: &[Entry]) -> bool {
    all.iter().any(|e| matches!(e, Entry::Call { number: 0, .. }))
}

/// Makes a trace again on the port, from its last start-up on; lines are the trace's entries.
pub fn drive(all: &[Entry]) -> Result<Vec<Step>, String> {
    let start = all.iter().rposition(|e| matches!(e, Entry::Call { number: 0, .. }));
    let Some(start) = start else {
        return Err("the trace has no start-up".into());
    };
    let setups = setups(all);
    let answer = Answer::Stored;
    let mut r = Replay { drive: Drive::live(), answer, receive: [None; 16], pending: None, ep0: 0, rest: vec![] };
    let mut all_at_once = false;
    let mut i = start;
    while i < all.len() {
        let line = i;
        i += 1;
        match &all[line] {
            Entry::Bytes(_) | Entry::Lost(_) => {}
            Entry::Answer { word, reading } => r.answered(line, *word, *reading, all_at_once)?,
            Entry::Call { number: CONTINUE_TRANSFER, a, b, c } => {
                for (reg, value) in [(2, a), (1, b), (3, c)] {
                    r.reading(line, reg, *value)?;
                }
            }
            Entry::Call { number: ALLOCATE_ALL, b, .. } => {
                r.go_on(line)?;
                let mut bytes = vec![];
                while let Some(Entry::Bytes(more)) = all.get(i) {
                    bytes.extend(more);
                    i += 1;
                }
                if bytes.len() != *b as usize {
                    return Err(format!("entry {line}: {} of {b} bytes of a descriptor", bytes.len()));
                }
                r.rest = allocations(&bytes).map_err(|e| format!("entry {line}: {e}"))?;
                all_at_once = true;
                if !r.rest.is_empty() {
                    let first = r.rest.remove(0);
                    r.make(line, &first)?;
                }
                continue;
            }
            Entry::Call { number, a, b, c } => {
                let Some(call) = call(*number, *a, *b, *c) else {
                    return Err(format!("entry {line}: no call has the number {number}"));
                };
                // in the callback packets are opened, closed and queued, and the interrupt waits
                if !matches!(call, Call::Open(_) | Call::Close(_) | Call::Queue { .. }) {
                    r.go_on(line)?;
                    all_at_once = false;
                }
                let under_way = r.answer.clone();
                if let Some(bytes) = &setups[line] {
                    r.store(line, r.ep0, bytes.clone())?;
                }
                if *number == 4 || *number == INTERRUPT {
                    for arrival in arrivals(all, line, &r.receive) {
                        r.store(line, arrival.offset, vec![0; arrival.length.min(65_535) as usize])?;
                    }
                    // its first reading is brought at its begin
                    let frame = match (number, all.get(i)) {
                        (&INTERRUPT, _) => *a,
                        (_, Some(Entry::Answer { word, reading })) if *word == 1 | u64::from(FRAME_NO) << 8 => {
                            i += 1;
                            *reading
                        }
                        _ => 0,
                    };
                    r.drive.bring(frame as u16);
                }
                r.make(line, &call)?;
                if *number == INTERRUPT {
                    r.reading(line, INT_FG, *b)?;
                }
                if matches!(under_way, Answer::Callback) && r.pending.is_some() {
                    // the callback goes on where it was
                    r.answer = under_way;
                }
            }
        }
    }
    Ok(r.drive.steps)
}
