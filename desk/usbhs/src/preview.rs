//! `usbhs descriptor preview FILE --size S --count N`: what allocating a descriptor's endpoints on a board would
//! give, buffer by buffer.

use oracle::{Answer, Call, Dir, Driver, Kind};

use crate::args::Args;
use crate::descriptor::{self, Endpoint};
use crate::json::Json;
use crate::output::{count, thousands, Output};
use crate::port::Port;
use crate::{bad, image, rows, survey, Done};

const EP0_DMA: u8 = 12;
const EP_RX_DMA: u8 = 15;
const EP_TX_DMA: u8 = 16;

/// A call continued to its end; the chip reads 0. The writes that were handed out, or the row of a refusal.
fn whole(port: &mut Port, call: Call) -> Result<Vec<(u8, u32)>, u8> {
    let mut writes = vec![];
    let mut answer = port.call(&call);
    loop {
        match answer {
            Answer::Refused(row) => return Err(row),
            Answer::Write { reg, value, .. } => writes.push((reg, value)),
            Answer::Read { .. } | Answer::Wait(_) | Answer::Callback => {}
            _ => return Ok(writes),
        }
        answer = port.call(&Call::Continue(0));
    }
}

/// Where the write of this register says that the buffers begin.
fn offset(writes: &[(u8, u32)], reg: u8) -> u32 {
    writes.iter().find(|w| w.0 == reg).map_or(0, |w| w.1)
}

/// An endpoint on the board: its first buffer and how many it has, or why it is refused.
pub struct Given {
    pub endpoint: Endpoint,
    pub outcome: Result<(u32, u32), u8>,
}

pub struct Board {
    pub size: u32,
    pub count: u32,
    pub given: Vec<Given>,
    /// Endpoints behind a refused one, which are not tried.
    pub left: Vec<Endpoint>,
    /// EP0's buffer, where all endpoints are given.
    pub ep0: Option<Result<u32, u8>>,
    /// The bus time with all enabled, in the list's order, or the endpoint whose enabling is refused.
    pub time: Option<Result<u32, (String, u8)>>,
}

fn buffers(e: &Endpoint) -> u32 {
    match (e.kind, e.is_in()) {
        (1, false) => 16,
        (1, true) => 2,
        _ => 1,
    }
}

fn kind(e: &Endpoint) -> Kind {
    [Kind::Control, Kind::Isochronous, Kind::Bulk, Kind::Interrupt][e.kind as usize & 3]
}

/// The endpoints allocated one by one on a driver that has just started up, up to the first refusal.
pub fn board(all: &[Endpoint], size: u32, count: u32) -> Result<Board, u8> {
    let mut port = Port::new();
    whole(&mut port, Call::StartUp { size, count, callback: false })?;
    let mut board = Board { size, count, given: vec![], left: vec![], ep0: None, time: None };
    for (i, e) in all.iter().enumerate() {
        let dir = if e.is_in() { Dir::In } else { Dir::Out };
        let call =
            Call::Allocate { kind: kind(e), address: Some(e.address), maximum: e.maximum, interval: e.interval, dir };
        let reg = if e.is_in() { EP_TX_DMA } else { EP_RX_DMA };
        let outcome = whole(&mut port, call).map(|writes| (offset(&writes, reg) / size, buffers(e)));
        let refused = outcome.is_err();
        board.given.push(Given { endpoint: e.clone(), outcome });
        if refused {
            board.left = all[i + 1..].to_vec();
            return Ok(board);
        }
    }
    let ep0 = whole(&mut port, Call::Start(64)).map(|writes| offset(&writes, EP0_DMA) / size);
    if ep0.is_ok() {
        board.time = Some((|| {
            for e in all {
                let dir = if e.is_in() { Dir::In } else { Dir::Out };
                whole(&mut port, Call::SetEnabled { ep: e.address & 15, dir, on: true })
                    .map_err(|row| (e.name(), row))?;
            }
            Ok(port.times.last().copied().unwrap_or(0))
        })());
    }
    board.ep0 = Some(ep0);
    Ok(board)
}

impl Board {
    pub fn works(&self) -> bool {
        matches!((&self.ep0, &self.time), (Some(Ok(_)), Some(Ok(_))))
    }

    /// The least count with which all endpoints and EP0 have their buffers.
    pub fn needed(&self) -> u32 {
        1 + self.given.iter().map(|g| buffers(&g.endpoint)).sum::<u32>() + self.left.iter().map(buffers).sum::<u32>()
    }

    fn text(&self, name: &str) -> String {
        let mut t = format!(
            "{name} on {} of {} bytes\n\n  buffers   bytes            endpoint\n",
            count(self.count.into(), "buffer"),
            thousands(self.size.into())
        );
        let line = |(first, n): (u32, u32), who: &str| {
            let last = first + n - 1;
            let buffers = if n == 1 { format!("{first}") } else { format!("{first} to {last}") };
            let bytes = format!("{} to {}", first * self.size, (first + n) * self.size - 1);
            format!("  {buffers:8}  {bytes:15}  {who}\n")
        };
        let none = |who: &str, why: &str| format!("  -         -                {who}: {why}\n");
        for g in &self.given {
            let e = &g.endpoint;
            let who = format!("{} {}, maximum {}", e.name(), e.kind_name(), e.maximum);
            t += &match g.outcome {
                Ok(given) => line(given, &who),
                Err(row) => none(&who, &rows::refused(row)),
            };
        }
        for e in &self.left {
            t += &none(&format!("{} {}", e.name(), e.kind_name()), "not tried");
        }
        t += &match &self.ep0 {
            Some(Ok(first)) => line((*first, 1), "EP0, maximum 64"),
            Some(Err(row)) => none("EP0, maximum 64", &rows::refused(*row)),
            None => String::new(),
        };
        t += "\n";
        t += &match (&self.time, self.works()) {
            (Some(Ok(time)), _) => {
                format!("it works: {} in use, {time} of 6,000 byte-times with all enabled\n", self.used())
            }
            (Some(Err((who, row))), _) => format!("it does not work: enabling {who} is {}\n", rows::refused(*row)),
            _ if self.refusal() == Some(8) => {
                format!("it does not work: {} are needed\n", count(self.needed().into(), "buffer"))
            }
            _ => format!("it does not work: {}\n", self.refusal().map_or("refused", rows::words)),
        };
        t
    }

    /// The first refusal of an allocation or of EP0's start.
    fn refusal(&self) -> Option<u8> {
        let given = self.given.iter().find_map(|g| g.outcome.err());
        given.or(self.ep0.as_ref().and_then(|e| e.as_ref().err().copied()))
    }

    fn used(&self) -> String {
        format!("{} of {}", self.needed(), count(self.count.into(), "buffer"))
    }

    fn json(&self) -> Json {
        let row = |r: u8| Json::Object(vec![("row", r.into()), ("words", rows::words(r).into())]);
        let one = |g: &Given| {
            let mut all = g.endpoint.json();
            match g.outcome {
                Ok((first, n)) => all.extend([("first_buffer", first.into()), ("buffers", n.into())]),
                Err(r) => all.push(("refused", row(r))),
            }
            Json::Object(all)
        };
        let ep0 = match &self.ep0 {
            Some(Ok(first)) => Json::Object(vec![("first_buffer", (*first).into()), ("buffers", 1u32.into())]),
            Some(Err(r)) => Json::Object(vec![("refused", row(*r))]),
            None => Json::Null,
        };
        let time = match &self.time {
            Some(Ok(time)) => (*time).into(),
            Some(Err((who, r))) => Json::Object(vec![("endpoint", who.as_str().into()), ("refused", row(*r))]),
            None => Json::Null,
        };
        Json::Object(vec![
            ("size", self.size.into()),
            ("count", self.count.into()),
            ("needed", self.needed().into()),
            ("works", self.works().into()),
            ("endpoints", self.given.iter().map(one).collect::<Vec<_>>().into()),
            ("not_tried", self.left.iter().map(|e| Json::Object(e.json())).collect::<Vec<_>>().into()),
            ("ep0", ep0),
            ("time_in_use", time),
        ])
    }
}

/// `false` where something is refused.
pub fn run(mut args: Args, as_json: bool, out: &mut Output) -> Done<bool> {
    let size = args.number("--size")?.unwrap_or(64);
    let count = args.number("--count")?.unwrap_or(24);
    let path = args.path("FILE")?;
    args.end()?;
    // row 2 bounds the board; nothing above it is lent
    if u64::from(size) * u64::from(count) > 65_536 {
        return bad(format!("{count} buffers of {size} bytes: {}", rows::refused(2)));
    }
    let (bytes, list) = descriptor::read(&path)?;
    let all = descriptor::listed(&list);
    let outcome = board(&all, size, count).and_then(|b| survey::preview(&bytes, size, count).map(|p| (b, p)));
    let (board, previewed) = match outcome {
        Ok(both) => both,
        Err(row) => return bad(format!("{count} buffers of {size} bytes: {}", rows::refused(row))),
    };
    // one by one or by the preview: the same (request Four)
    let given: Vec<u8> = board.given.iter().filter(|g| g.outcome.is_ok()).map(|g| g.endpoint.address & 15).collect();
    let refusal = board.given.last().and_then(|g| g.outcome.err());
    if (given, refusal) != (previewed.numbers, previewed.refusal) {
        return bad("the preview and the allocations differ");
    }
    let answer = if as_json { format!("{}\n", board.json()) } else { board.text(&image::name(&path)) };
    out.write(answer.as_bytes())?;
    Ok(board.works())
}
