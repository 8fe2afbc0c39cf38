//! The stream of an image, read once from front to end.
//!
//! The archive's reader goes over a stream that lies in memory. Here it goes over windows of one that may be longer
//! than memory: in a window each good block gets the number of its place there, with its check, and every other block
//! is spoilt for certain. So the reader drops the same blocks, and which packets are given is the reader's to say
//! alone. A window is moved on to the packet that its end cuts. The tests hold this against the reader over whole
//! streams.

use std::sync::mpsc::{sync_channel, Receiver};

use crate::image::{name, Image};
use crate::output::{count, thousands, words};
use crate::survey::{data_crc, first_begin, read_batch, BLOCK, DATA};
use crate::{bad, Done};

/// Blocks that are read at once, and blocks of a window: more than the longest packet has.
const CHUNK: usize = 1_024;
pub const WINDOW: usize = 2_048;
/// What a packet has in front of its bytes: two of length, one of the endpoint.
const HEAD: usize = 3;
/// Room for some packets, and for the longest: a length has 16 bits.
const ROOM: usize = 1 << 18;

/// Why a block is dropped.
#[derive(Clone, Copy, PartialEq, Eq, Debug)]
pub enum Dropped {
    Check,
    Number(u32),
}

/// A block of the stream at its place.
pub fn block(bytes: &[u8], place: u64) -> Result<(), Dropped> {
    if data_crc(&bytes[..BLOCK - 2]) != u16::from_le_bytes([bytes[BLOCK - 2], bytes[BLOCK - 1]]) {
        return Err(Dropped::Check);
    }
    let number = u32::from_le_bytes([bytes[0], bytes[1], bytes[2], bytes[3]]);
    if u64::from(number) == place {
        Ok(())
    } else {
        Err(Dropped::Number(number))
    }
}

/// Why the reader gives no more packet.
#[derive(Clone, Copy, PartialEq, Eq, Debug)]
pub enum Stop {
    /// There is filler, endpoint 0.
    Filler,
    /// The image ends behind a packet, or with fewer bytes than a packet's header has.
    RunsOut,
    /// A packet runs past the image's end.
    Cut,
    /// Behind a dropped block no good block names a packet's begin.
    Lost,
    /// Whoever is given the packets wants no more.
    Asked,
}

/// Where the reader stops: a place of packet data, 504 to a block.
#[derive(Clone, Copy, PartialEq, Eq, Debug)]
pub struct End {
    pub place: u64,
    pub why: Stop,
}

/// A packet of the stream.
pub struct Packet<'a> {
    pub endpoint: u8,
    /// Where it begins, counted in packet data: block times 504 plus its place there.
    pub begin: u64,
    /// Between it and the packet before there is a dropped block.
    pub behind_damage: bool,
    pub bytes: &'a [u8],
}

/// What becomes of the stream's blocks and packets.
pub trait Sink {
    /// The next packet; `false`: no more is wanted, and the stream ends before this one.
    fn packet(&mut self, packet: &Packet) -> Done<bool>;
    /// The next block, up to the one in which the stream ends.
    fn block(&mut self, place: u64, dropped: Option<Dropped>);
    /// A block behind the stream's end; `false`: no more is wanted.
    fn behind(&mut self, dropped: Option<Dropped>) -> bool;
    /// So many bytes of the image are read.
    fn progress(&mut self, _bytes: u64) {}
}

/// A CRC is linear: what a change of a block's number changes of its check.
struct Checks([[u16; 256]; 4]);

impl Checks {
    fn new() -> Self {
        let of = |bytes: &[u8]| data_crc(bytes);
        let zero = of(&[0; BLOCK - 2]);
        let table = |at: usize| {
            std::array::from_fn(|value| {
                let mut bytes = [0; BLOCK - 2];
                bytes[at] = value as u8;
                of(&bytes) ^ zero
            })
        };
        Self([table(0), table(1), table(2), table(3)])
    }

    /// Gives a good block another number, and its check.
    fn renumber(&self, block: &mut [u8], number: u32) {
        let check = &mut u16::from_le_bytes([block[BLOCK - 2], block[BLOCK - 1]]);
        for ((old, new), table) in block.iter_mut().zip(number.to_le_bytes()).zip(&self.0) {
            *check ^= table[(*old ^ new) as usize];
            *old = new;
        }
        block[BLOCK - 2..].copy_from_slice(&check.to_le_bytes());
    }
}

struct Chunk {
    bytes: Vec<u8>,
    dropped: Vec<Option<Dropped>>,
}

/// Which part of an image is its stream.
#[derive(Clone, Copy, Default)]
pub struct Extent {
    /// So many blocks.
    pub blocks: Option<u64>,
    /// Bytes behind the last whole block are left out.
    pub cut: bool,
}

fn not_whole(bytes: u64) -> String {
    format!(
        "{} bytes are not whole blocks of 512: {} and {} more (21); --cut leaves these out",
        thousands(bytes),
        count(bytes / BLOCK as u64, "block"),
        count(bytes % BLOCK as u64, "byte")
    )
}

fn few(blocks: u64) -> String {
    format!("--blocks: the image has {}", count(blocks, "block"))
}

/// Reads and checks the blocks of an image.
struct Blocks<'a> {
    image: &'a mut Image,
    extent: Extent,
    read: u64,
}

impl Blocks<'_> {
    /// How many bytes are to be read, where that is known.
    fn all(&self) -> Option<u64> {
        let asked = self.extent.blocks.map(|n| n.saturating_mul(BLOCK as u64));
        match (asked, self.image.length) {
            (Some(n), Some(length)) => Some(n.min(length)),
            (n, length) => n.or(length),
        }
    }

    /// What can be said before anything is read.
    fn look(&self) -> Result<(), String> {
        match (self.extent.blocks, self.image.length) {
            (_, Some(0)) => Err("the image is empty".into()),
            (Some(n), Some(length)) if n > length / BLOCK as u64 => Err(few(length / BLOCK as u64)),
            (None, Some(length)) if length % BLOCK as u64 != 0 && !self.extent.cut => Err(not_whole(length)),
            _ => Ok(()),
        }
    }

    /// The next blocks; none at the end.
    fn next(&mut self) -> Result<Option<Chunk>, String> {
        let read = self.read_on();
        read.map_err(|words| format!("{}: {words}", name(&self.image.path)))
    }

    fn read_on(&mut self) -> Result<Option<Chunk>, String> {
        let left = self.all().map_or(u64::MAX, |all| all.saturating_sub(self.read));
        let asked = left.min((CHUNK * BLOCK) as u64) as usize;
        let mut bytes = vec![0; asked];
        let at = self.read;
        let n = self.image.fill(&mut bytes).map_err(|e| format!("cannot be read at byte {at}: {}", words(&e)))?;
        bytes.truncate(n);
        self.read += n as u64;
        if self.image.length.is_some() && n < asked {
            return Err(format!(
                "cannot be read at byte {}: it was cut short meanwhile, or its device fails",
                self.read
            ));
        }
        if self.read == 0 {
            return Err("the image is empty".into());
        }
        match self.extent.blocks {
            Some(_) if n < asked => return Err(few(self.read / BLOCK as u64)),
            None if n % BLOCK != 0 && !self.extent.cut => return Err(not_whole(self.read)),
            _ => bytes.truncate(n - n % BLOCK),
        }
        if bytes.is_empty() {
            return Ok(None);
        }
        let places = at / BLOCK as u64..;
        let dropped = places.zip(bytes.chunks_exact(BLOCK)).map(|(place, b)| block(b, place).err()).collect();
        Ok(Some(Chunk { bytes, dropped }))
    }
}

/// What is found at a packet's begin; places are the window's own.
enum Step {
    Gives,
    Goes(usize),
    Filler,
    /// The window ends in the midst of the packet, or of its header.
    Ends,
    /// No block of the window that is still to be looked at names a begin.
    Seeks,
}

struct Window {
    /// The place of its first block.
    first: u64,
    bytes: Vec<u8>,
    dropped: Vec<Option<Dropped>>,
    checks: Checks,
}

impl Window {
    fn blocks(&self) -> usize {
        self.dropped.len()
    }

    fn total(&self) -> usize {
        self.blocks() * DATA
    }

    fn append(&mut self, chunk: Chunk) {
        let from = self.blocks();
        self.bytes.extend_from_slice(&chunk.bytes);
        self.dropped.extend_from_slice(&chunk.dropped);
        for i in from..self.blocks() {
            let block = &mut self.bytes[i * BLOCK..(i + 1) * BLOCK];
            match self.dropped[i] {
                None => self.checks.renumber(block, i as u32),
                // its check holds: no longer
                Some(Dropped::Number(_)) => block[BLOCK - 1] ^= 1,
                Some(Dropped::Check) => {}
            }
        }
    }

    /// Leaves out so many blocks at its front.
    fn move_on(&mut self, n: usize) {
        self.first += n as u64;
        self.bytes.drain(..n * BLOCK);
        self.dropped.drain(..n);
        for (i, dropped) in self.dropped.iter().enumerate() {
            if dropped.is_none() {
                self.checks.renumber(&mut self.bytes[i * BLOCK..(i + 1) * BLOCK], i as u32);
            }
        }
    }

    fn byte(&self, place: usize) -> usize {
        self.bytes[place / DATA * BLOCK + 6 + place % DATA] as usize
    }

    /// The first dropped block of those with the places from d up to e.
    fn dropped_in(&self, d: usize, e: usize) -> Option<usize> {
        (d / DATA..e.div_ceil(DATA)).find(|k| self.dropped[*k].is_some())
    }

    /// The next begin that a good block names, from block k on.
    fn seek(&self, k: usize) -> Step {
        for k in k..self.blocks() {
            let named = usize::from(u16::from_le_bytes([self.bytes[k * BLOCK + 4], self.bytes[k * BLOCK + 5]]));
            if self.dropped[k].is_none() && (6..510).contains(&named) {
                return Step::Goes(k * DATA + named - 6);
            }
        }
        Step::Seeks
    }

    /// What the reader does at the packet begin d.
    fn step(&self, d: usize) -> Step {
        if self.total() < d + HEAD {
            return Step::Ends;
        }
        if let Some(k) = self.dropped_in(d, d + HEAD) {
            return self.seek(k + 1);
        }
        if self.byte(d + 2) == 0 {
            return Step::Filler;
        }
        let e = d + HEAD + self.byte(d) + self.byte(d + 1) * 256;
        match self.dropped_in(d, e.min(self.total())) {
            Some(k) => self.seek(k + 1),
            None if e > self.total() => Step::Ends,
            None => Step::Gives,
        }
    }
}

/// Goes through a window stream with the archive's reader.
struct Going<'a, S: Sink> {
    sink: &'a mut S,
    window: Window,
    room: Vec<u8>,
    /// Where the reader goes on in the window; none: at the first begin that is named.
    at: Option<usize>,
    /// Blocks were dropped since the last packet.
    damage: bool,
}

impl<S: Sink> Going<'_, S> {
    fn place(&self, d: usize) -> u64 {
        self.window.first * DATA as u64 + d as u64
    }

    /// Gives the packets of the window. Where the sink wants no more, the place of the packet that it refused.
    fn packets(&mut self) -> Done<Option<u64>> {
        let mut at = match self.at {
            Some(at) => at as u64,
            None => {
                let first = first_begin(&self.window.bytes);
                self.damage |= first != 0;
                if first as usize == self.window.total() {
                    return Ok(None);
                }
                first
            }
        };
        loop {
            let before = at as usize;
            let Some(used) = read_batch(&self.window.bytes, &mut at, &mut self.room) else { break };
            // a dropped block stands among them where their bytes are fewer than the places
            let together = before + used == at as usize;
            let (mut from, mut begin) = (0, before);
            while from < used {
                let head = &self.room[from..from + HEAD];
                let (length, endpoint) = (usize::from(u16::from_le_bytes([head[0], head[1]])), head[2]);
                if !together {
                    while let Step::Goes(next) = self.window.step(begin) {
                        (begin, self.damage) = (next, true);
                    }
                }
                let bytes = &self.room[from + HEAD..from + HEAD + length];
                let place = self.window.first * DATA as u64 + begin as u64;
                let packet = Packet { endpoint, begin: place, behind_damage: self.damage, bytes };
                if !self.sink.packet(&packet)? {
                    return Ok(Some(place));
                }
                self.damage = false;
                from += HEAD + length;
                begin += HEAD + length;
            }
            debug_assert_eq!(begin, at as usize);
        }
        self.at = Some(at as usize);
        Ok(None)
    }

    /// The blocks before block n of the window are done with.
    fn leave(&mut self, n: usize) {
        for (i, dropped) in self.window.dropped[..n].iter().enumerate() {
            self.sink.block(self.window.first + i as u64, *dropped);
        }
        self.window.move_on(n);
    }

    /// Behind the last packet of the window: the stream's end, or nothing and the window is moved on.
    fn onwards(&mut self, last: bool) -> Option<End> {
        let mut d = self.at.unwrap_or(self.window.total());
        let mut step = if self.at.is_none() { Step::Seeks } else { self.window.step(d) };
        let why = loop {
            match step {
                Step::Goes(e) => {
                    (d, self.damage) = (e, true);
                    step = self.window.step(d);
                }
                Step::Filler => break Stop::Filler,
                Step::Ends if !last => {
                    let n = (d / DATA).min(self.window.blocks());
                    self.leave(n);
                    self.at = Some(d - n * DATA);
                    return None;
                }
                Step::Seeks if !last => {
                    self.leave(self.window.blocks());
                    (self.at, self.damage) = (None, true);
                    return None;
                }
                Step::Ends if self.window.total() < d + HEAD => break Stop::RunsOut,
                Step::Ends => break Stop::Cut,
                Step::Seeks => break Stop::Lost,
                Step::Gives => unreachable!("the reader gives this packet"),
            }
        };
        Some(End { place: self.place(d), why })
    }
}

fn through(chunks: Receiver<Result<Chunk, String>>, window: usize, sink: &mut impl Sink) -> Done<End> {
    let empty = Window { first: 0, bytes: vec![], dropped: vec![], checks: Checks::new() };
    let mut going = Going { sink, window: empty, room: vec![0; ROOM], at: None, damage: false };
    let (mut last, mut read) = (false, 0);
    let end = loop {
        while !last && going.window.blocks() < window {
            match chunks.recv() {
                Ok(Ok(chunk)) => {
                    read += chunk.bytes.len() as u64;
                    going.window.append(chunk);
                    going.sink.progress(read);
                }
                Ok(Err(words)) => return bad(words),
                Err(_) => last = true,
            }
        }
        if let Some(place) = going.packets()? {
            break End { place, why: Stop::Asked };
        }
        if let Some(end) = going.onwards(last) {
            break end;
        }
    };
    // the block of the end is the stream's, those behind it are not
    let within = match end.why {
        Stop::Filler => (end.place / DATA as u64 + 1 - going.window.first) as usize,
        Stop::Asked => (end.place.div_ceil(DATA as u64) - going.window.first) as usize,
        Stop::RunsOut | Stop::Cut | Stop::Lost => going.window.blocks(),
    };
    going.leave(within);
    if !going.window.dropped.iter().all(|d| going.sink.behind(*d)) {
        return Ok(end);
    }
    for chunk in chunks {
        let chunk = chunk.or_else(bad)?;
        read += chunk.bytes.len() as u64;
        going.sink.progress(read);
        if !chunk.dropped.iter().all(|d| going.sink.behind(*d)) {
            break;
        }
    }
    Ok(end)
}

/// Goes through an image with windows of so many blocks.
pub fn go_through_by(image: &mut Image, extent: Extent, window: usize, sink: &mut impl Sink) -> Done<End> {
    let mut blocks = Blocks { image, extent, read: 0 };
    if let Err(words) = blocks.look() {
        return bad(format!("{}: {words}", name(&blocks.image.path)));
    }
    std::thread::scope(|scope| {
        let (send, chunks) = sync_channel(2);
        // the next blocks are read and checked beside the reading of packets
        scope.spawn(move || {
            while let Some(chunk) = blocks.next().transpose() {
                let over = chunk.is_err();
                if send.send(chunk).is_err() || over {
                    break;
                }
            }
        });
        through(chunks, window, sink)
    })
}

pub fn go_through(image: &mut Image, extent: Extent, sink: &mut impl Sink) -> Done<End> {
    go_through_by(image, extent, WINDOW, sink)
}
