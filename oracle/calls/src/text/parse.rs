use super::Line;
use crate::call::{indexed, Answer, Call, Dir, Kind, Wake, REGISTERS};

struct Words<'a>(std::str::SplitWhitespace<'a>);

type Parsed<T> = Result<T, String>;

impl<'a> Words<'a> {
    fn word(&mut self) -> Parsed<&'a str> {
        self.0.next().ok_or_else(|| "word missing".into())
    }

    fn number(&mut self) -> Parsed<u32> {
        number(self.word()?)
    }

    fn byte(&mut self) -> Parsed<u8> {
        self.number()?.try_into().map_err(|_| "above 255".into())
    }

    fn short(&mut self) -> Parsed<u16> {
        self.number()?.try_into().map_err(|_| "above 65,535".into())
    }

    fn bytes(&mut self) -> Parsed<Vec<u8>> {
        let w = self.word()?;
        if w == "-" {
            return Ok(vec![]);
        }
        let (digits, times) = match w.split_once('*') {
            Some((d, n)) => (d, n.parse::<usize>().map_err(|e| e.to_string())?),
            None => (w, 1),
        };
        if digits.len() % 2 != 0 {
            return Err(format!("odd digits: {w}"));
        }
        let one = (0..digits.len() / 2)
            .map(|i| u8::from_str_radix(&digits[2 * i..2 * i + 2], 16).map_err(|e| e.to_string()))
            .collect::<Parsed<Vec<u8>>>()?;
        Ok(one.repeat(times))
    }

    fn dir(&mut self) -> Parsed<Dir> {
        match self.word()? {
            "out" => Ok(Dir::Out),
            "in" => Ok(Dir::In),
            w => Err(format!("direction {w}")),
        }
    }

    fn on(&mut self) -> Parsed<bool> {
        match self.word()? {
            "on" => Ok(true),
            "off" => Ok(false),
            w => Err(format!("on or off: {w}")),
        }
    }

    fn flag(&mut self, name: &str) -> bool {
        let mut ahead = self.0.clone();
        if ahead.next() == Some(name) {
            self.0 = ahead;
            true
        } else {
            false
        }
    }

    fn register(&mut self) -> Parsed<(u8, u8)> {
        let w = self.word()?;
        let reg = REGISTERS.iter().position(|r| *r == w).ok_or(format!("register {w}"))? as u8;
        Ok((reg, if indexed(reg) { self.byte()? } else { 0 }))
    }
}

fn number(w: &str) -> Parsed<u32> {
    let r = match w.strip_prefix("0x") {
        Some(h) => u32::from_str_radix(h, 16),
        None => w.parse(),
    };
    r.map_err(|e| format!("{w}: {e}"))
}

fn parse_call(text: &str) -> Parsed<Call> {
    let mut w = Words(text.split_whitespace());
    let c = match w.word()? {
        "start_up" => Call::StartUp { size: w.number()?, count: w.number()?, callback: w.flag("callback") },
        "continue" => Call::Continue(w.number().unwrap_or(0)),
        "allocate" => {
            let kind = match w.word()? {
                "control" => Kind::Control,
                "iso" => Kind::Isochronous,
                "bulk" => Kind::Bulk,
                "interrupt" => Kind::Interrupt,
                k => return Err(format!("kind {k}")),
            };
            let address = if w.flag("any") { None } else { Some(w.byte()?) };
            Call::Allocate { kind, address, maximum: w.short()?, interval: w.byte()?, dir: w.dir()? }
        }
        "start" => Call::Start(w.short()?),
        "interrupt" => Call::Interrupt,
        "bus_poll" => Call::BusPoll,
        "bus_enable" => Call::BusEnable,
        "bus_disable" => Call::BusDisable,
        "set_enabled" => Call::SetEnabled { ep: w.byte()?, dir: w.dir()?, on: w.on()? },
        "set_stalled" => Call::SetStalled { ep: w.byte()?, dir: w.dir()?, on: w.on()? },
        "is_stalled" => Call::IsStalled { ep: w.byte()?, dir: w.dir()? },
        "set_paced" => Call::SetPaced { ep: w.byte()?, on: w.on()? },
        "advance" => Call::Advance(w.byte()?),
        "microframe" => Call::Microframe,
        "read" => Call::Read { ep: w.byte()?, length: w.number()? },
        "poll_read" => Call::PollRead(w.byte()?),
        "write" => Call::Write { ep: w.byte()?, data: w.bytes()? },
        "poll_write" => Call::PollWrite(w.byte()?),
        "setup" => Call::Setup,
        "poll_setup" => Call::PollSetup,
        "data_out" => Call::DataOut { length: w.number()?, first: w.flag("first") },
        "poll_data_out" => Call::PollDataOut,
        "data_in" => Call::DataIn { data: w.bytes()?, first: w.flag("first"), last: w.flag("last") },
        "poll_data_in" => Call::PollDataIn,
        "accept" => Call::Accept,
        "accept_set_address" => Call::AcceptSetAddress(w.byte()?),
        "poll_accept" => Call::PollAccept,
        "reject" => Call::Reject,
        "open" => Call::Open(w.byte()?),
        "close" => Call::Close(w.byte()?),
        "queue" => Call::Queue { ep: w.byte()?, data: w.bytes()? },
        "pending" => Call::Pending(w.byte()?),
        "overruns" => Call::Overruns(w.byte()?),
        "enabled" => Call::Enabled { ep: w.byte()?, dir: w.dir()? },
        "store" => Call::Store { offset: w.number()?, data: w.bytes()? },
        "fill" => Call::Fill(w.byte()?),
        c => return Err(format!("call {c}")),
    };
    match w.0.next() {
        None => Ok(c),
        Some(x) => Err(format!("unread: {x}")),
    }
}

fn parse_wake(w: &str) -> Parsed<Wake> {
    if w == "bus" {
        return Ok(Wake::Bus);
    }
    let ep = |n: &str| n.parse::<u8>().map_err(|e| e.to_string());
    if let Some(n) = w.strip_prefix("out") {
        return Ok(Wake::Out(ep(n)?));
    }
    Ok(Wake::In(ep(w.strip_prefix("in").ok_or(format!("wake {w}"))?)?))
}

fn parse_answer(text: &str) -> Parsed<Answer> {
    let mut w = Words(text.split_whitespace());
    let a = match w.word()? {
        "R" => {
            let (reg, ep) = w.register()?;
            Answer::Read { reg, ep }
        }
        "W" => {
            let (reg, ep) = w.register()?;
            Answer::Write { reg, ep, value: w.number()? }
        }
        "wait" => Answer::Wait(w.number()?),
        "callback" => Answer::Callback,
        "end" => {
            let result = w.number()?;
            let wakes = w.0.by_ref().map(parse_wake).collect::<Parsed<_>>()?;
            Answer::End { result, wakes }
        }
        "not_yet" => Answer::NotYet,
        "done" => Answer::Done { length: w.number()?, bytes: w.bytes().unwrap_or_default() },
        "shown" => Answer::Shown { offset: w.number()?, length: w.number()? },
        "refused" => Answer::Refused(w.byte()?),
        "outside" => Answer::Outside,
        "panicked" => Answer::Panicked,
        n => Answer::Number(number(n)?),
    };
    match w.0.next() {
        None => Ok(a),
        Some(x) => Err(format!("unread: {x}")),
    }
}

/// Lines with their numbers; a count `xN` at a line's end stands for N equal lines.
pub fn parse(text: &str) -> Parsed<Vec<(usize, Line)>> {
    let mut all = vec![];
    for (i, raw) in text.lines().enumerate() {
        let at = |e: String| format!("line {}: {e}: {raw}", i + 1);
        let line = raw.trim();
        if line.is_empty() {
            continue;
        }
        if let Some(c) = line.strip_prefix('#') {
            all.push((i + 1, Line::Comment(c.trim().into())));
            continue;
        }
        if let Some(rest) = line.strip_prefix("slots ") {
            let mut w = Words(rest.split_whitespace());
            let offset = w.number().map_err(at)?;
            all.push((i + 1, Line::Slots { offset, bytes: w.bytes().map_err(at)? }));
            continue;
        }
        let (line, times) = match line.rsplit_once(" x") {
            Some((l, n)) if !n.is_empty() && n.bytes().all(|b| b.is_ascii_digit()) => {
                (l, n.parse().map_err(|_| at("count".into()))?)
            }
            _ => (line, 1),
        };
        if let Some((c, r)) = line.split_once('<') {
            let call = parse_call(c).map_err(at)?;
            let mut readings = vec![];
            for w in r.split_whitespace() {
                let (v, n) = w.split_once('*').unwrap_or((w, "1"));
                let (v, n) = (number(v).map_err(at)?, number(n).map_err(at)?);
                readings.extend((0..n).map(|_| v));
            }
            all.push((i + 1, Line::Whole { call, readings }));
            continue;
        }
        let one = match line.split_once("->") {
            None => Line::Call { call: parse_call(line).map_err(at)?, answer: None },
            Some((c, a)) => Line::Call { call: parse_call(c).map_err(at)?, answer: Some(parse_answer(a).map_err(at)?) },
        };
        for _ in 0..times {
            all.push((i + 1, one.clone()));
        }
    }
    Ok(all)
}
