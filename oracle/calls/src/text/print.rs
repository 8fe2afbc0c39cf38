use std::fmt::Write;

use super::Entry;
use crate::call::{indexed, Answer, Call, Dir, Kind, Wake, REGISTERS};

const MARK: [u8; 4] = [0xC3, 0xA5, 0x3C, 0x5A];

fn hex(data: &[u8]) -> String {
    if data.is_empty() {
        return "-".into();
    }
    if data.len() > 4 && data.len() % 4 == 0 && data.chunks(4).all(|c| c == MARK) {
        return format!("c3a53c5a*{}", data.len() / 4);
    }
    data.iter().fold(String::new(), |mut s, b| {
        let _ = write!(s, "{b:02x}");
        s
    })
}

fn dir(d: Dir) -> &'static str {
    match d {
        Dir::Out => "out",
        Dir::In => "in",
    }
}

fn kind(k: Kind) -> &'static str {
    match k {
        Kind::Control => "control",
        Kind::Isochronous => "iso",
        Kind::Bulk => "bulk",
        Kind::Interrupt => "interrupt",
    }
}

fn on(b: bool) -> &'static str {
    if b {
        "on"
    } else {
        "off"
    }
}

fn register(reg: u8, ep: u8) -> String {
    let name = REGISTERS[reg as usize];
    if indexed(reg) {
        format!("{name} {ep}")
    } else {
        name.into()
    }
}

/// `awaited`: a continue brings a reading.
pub fn call(c: &Call, awaited: bool) -> String {
    match c {
        Call::StartUp { size, count, callback } => {
            format!("start_up {size} {count}{}", if *callback { " callback" } else { "" })
        }
        Call::Continue(v) if awaited => format!("continue {v:#x}"),
        Call::Continue(_) => "continue".into(),
        Call::Allocate { kind: k, address, maximum, interval, dir: d } => {
            let a = address.map_or("any".into(), |a| format!("{a:#04x}"));
            format!("allocate {} {a} {maximum} {interval} {}", kind(*k), dir(*d))
        }
        Call::Start(m) => format!("start {m}"),
        Call::Interrupt => "interrupt".into(),
        Call::BusPoll => "bus_poll".into(),
        Call::BusEnable => "bus_enable".into(),
        Call::BusDisable => "bus_disable".into(),
        Call::SetEnabled { ep, dir: d, on: o } => format!("set_enabled {ep} {} {}", dir(*d), on(*o)),
        Call::SetStalled { ep, dir: d, on: o } => format!("set_stalled {ep} {} {}", dir(*d), on(*o)),
        Call::IsStalled { ep, dir: d } => format!("is_stalled {ep} {}", dir(*d)),
        Call::SetPaced { ep, on: o } => format!("set_paced {ep} {}", on(*o)),
        Call::Advance(ep) => format!("advance {ep}"),
        Call::Microframe => "microframe".into(),
        Call::Read { ep, length } => format!("read {ep} {length}"),
        Call::PollRead(ep) => format!("poll_read {ep}"),
        Call::Write { ep, data } => format!("write {ep} {}", hex(data)),
        Call::PollWrite(ep) => format!("poll_write {ep}"),
        Call::Setup => "setup".into(),
        Call::PollSetup => "poll_setup".into(),
        Call::DataOut { length, first } => format!("data_out {length}{}", if *first { " first" } else { "" }),
        Call::PollDataOut => "poll_data_out".into(),
        Call::DataIn { data, first, last } => {
            let (f, l) = (if *first { " first" } else { "" }, if *last { " last" } else { "" });
            format!("data_in {}{f}{l}", hex(data))
        }
        Call::PollDataIn => "poll_data_in".into(),
        Call::Accept => "accept".into(),
        Call::AcceptSetAddress(a) => format!("accept_set_address {a}"),
        Call::PollAccept => "poll_accept".into(),
        Call::Reject => "reject".into(),
        Call::Open(ep) => format!("open {ep}"),
        Call::Close(ep) => format!("close {ep}"),
        Call::Queue { ep, data } => format!("queue {ep} {}", hex(data)),
        Call::Pending(ep) => format!("pending {ep}"),
        Call::Overruns(ep) => format!("overruns {ep}"),
        Call::Enabled { ep, dir: d } => format!("enabled {ep} {}", dir(*d)),
        Call::Store { offset, data } => format!("store {offset:#x} {}", hex(data)),
        Call::Fill(seed) => format!("fill {seed}"),
    }
}

pub fn answer(a: &Answer) -> String {
    match a {
        Answer::Read { reg, ep } => format!("R {}", register(*reg, *ep)),
        Answer::Write { reg, ep, value } => format!("W {} {value:#x}", register(*reg, *ep)),
        Answer::Wait(us) => format!("wait {us}"),
        Answer::Callback => "callback".into(),
        Answer::End { result, wakes } => wakes.iter().fold(format!("end {result}"), |s, w| match w {
            Wake::Bus => s + " bus",
            Wake::Out(e) => s + &format!(" out{e}"),
            Wake::In(e) => s + &format!(" in{e}"),
        }),
        Answer::NotYet => "not_yet".into(),
        Answer::Done { length, bytes } if bytes.is_empty() => format!("done {length}"),
        Answer::Done { length, bytes } => format!("done {length} {}", hex(bytes)),
        Answer::Shown { offset, length } => format!("shown {offset:#x} {length}"),
        Answer::Number(n) => format!("{n}"),
        Answer::Refused(n) => format!("refused {n}"),
        Answer::Stored => String::new(),
        Answer::Outside => "outside".into(),
        Answer::Panicked => "panicked".into(),
    }
}

/// Prints entries line by line, equal lines in a row as one with a count.
#[derive(Default)]
pub struct Printer {
    awaited: bool,
    last: String,
    times: u32,
    pub out: String,
}

impl Printer {
    pub fn comment(&mut self, text: &str) {
        self.flush();
        let _ = writeln!(self.out, "# {text}");
    }

    pub fn entry(&mut self, e: &Entry) {
        let c = call(&e.call, self.awaited);
        let line = match e.answer {
            Answer::Stored => c,
            _ => format!("{c} -> {}", answer(&e.answer)),
        };
        // what does not run the operation under way on leaves it waiting for its reading
        match e.call {
            Call::Open(_) | Call::Close(_) | Call::Queue { .. } | Call::Store { .. } | Call::Fill(_) => {}
            Call::Pending(_) | Call::Overruns(_) | Call::Enabled { .. } => {}
            _ => self.awaited = matches!(e.answer, Answer::Read { .. }),
        }
        self.line(line);
        for (offset, bytes) in &e.changed {
            self.line(format!("  slots {offset:#x} {}", hex(bytes)));
        }
    }

    fn line(&mut self, line: String) {
        if line == self.last {
            self.times += 1;
            return;
        }
        self.flush();
        self.last = line;
        self.times = 1;
    }

    pub fn flush(&mut self) {
        match self.times {
            0 => {}
            1 => {
                let _ = writeln!(self.out, "{}", self.last);
            }
            n => {
                let _ = writeln!(self.out, "{} x{n}", self.last);
            }
        }
        self.times = 0;
        self.last.clear();
    }
}

pub fn print(entries: &[Entry]) -> String {
    let mut p = Printer::default();
    for e in entries {
        p.entry(e);
    }
    p.flush();
    p.out
}
