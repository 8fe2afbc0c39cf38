//! The calls of include/usbhs_survey.h, and the preview of include/usbhs.h, on slices.

use oracle::Call;

use crate::exported::{length, usbhs_preview, Length, NUMBERS_LEN, TIME_LEN};
use crate::exported_survey::*;
use crate::lent::Lent;

pub use crate::exported_survey::BLOCK_LEN as BLOCK;

/// A block's bytes of packet data.
pub const DATA: usize = 504;

/// An answer's kind, and the row of a refusal.
fn answered(word: u64) -> Result<u64, u8> {
    if word & 15 == 0 {
        Err((word >> 8) as u8)
    } else {
        Ok(word >> 8 & 0xFFFF)
    }
}

/// A set of channels: bit i says whether channel i is in.
pub struct Best {
    pub set: u32,
    pub total: u32,
    pub figure: u32,
    pub looked: u32,
}

/// The best set of channels, each a maximum and a charge, with so much bus time in use.
pub fn best_set(channels: &[(u16, u16)], in_use: u32, budget: u32) -> Result<Best, u8> {
    let mut list: Vec<Channel> =
        channels.iter().map(|&(maximum, charge)| Channel { maximum, charge, chosen: 0 }).collect();
    // the record's numbers have 16 bits: what is in use stands in as many as are needed
    let mut time = [0u16; TIME_LEN];
    let mut left = in_use;
    for t in &mut time {
        *t = left.min(u16::MAX as u32) as u16;
        left -= *t as u32;
    }
    let mut best = Best { set: 0, total: 0, figure: 0, looked: 0 };
    // SAFETY: every slice is given with its own length
    let word = unsafe {
        usbhs_best_set(
            list.as_mut_ptr(),
            length(&list),
            time.as_ptr(),
            budget,
            &mut best.total,
            &mut best.figure,
            &mut best.looked,
        )
    };
    best.set = answered(word)? as u32;
    Ok(best)
}

/// A number of arrivals between two visits, and times that reach it: the first after the visit, and the distance from
/// each to the next.
pub struct Reached {
    pub arrivals: u32,
    pub first: u32,
    pub distance: u32,
}

/// The least and the greatest number of arrivals between two visits.
pub fn between_visits(a: u32, b: u32, c: u32, d: u32) -> Result<(Reached, Reached), u8> {
    let (mut least, mut greatest) = ([0; 3], [0; 3]);
    // SAFETY: two rooms of three numbers are lent
    answered(unsafe { usbhs_between_visits(a, b, c, d, least.as_mut_ptr(), greatest.as_mut_ptr()) })?;
    let [least, greatest] = [least, greatest].map(|[arrivals, first, distance]| Reached { arrivals, first, distance });
    Ok((least, greatest))
}

pub fn data_crc(bytes: &[u8]) -> u16 {
    // SAFETY: a slice with its own length
    unsafe { usbhs_data_crc(bytes.as_ptr(), length(bytes)) as u16 }
}

/// The endpoints of a configuration descriptor written out as one interface.
pub fn write_descriptor(bytes: &[u8]) -> Result<Vec<u8>, u8> {
    let mut room = vec![0; 18 + 7 * 32];
    let (from, n, m) = (bytes.as_ptr(), length(bytes), length(&room));
    // SAFETY: slices with their own lengths
    let written = answered(unsafe { usbhs_write_descriptor(from, n, room.as_mut_ptr(), m) })?;
    room.truncate(written as usize);
    Ok(room)
}

/// What a preview answers: the numbers given, how many buffers they take, the first refusal.
pub struct Previewed {
    pub numbers: Vec<u8>,
    pub buffers: u32,
    pub refusal: Option<u8>,
}

/// The preview of a descriptor on a board that has just started up.
pub fn preview(bytes: &[u8], size: u32, count: u32) -> Result<Previewed, u8> {
    let mut lent = Lent::new(size as usize * count as usize);
    let mut word = lent.plain(&Call::StartUp { size, count, callback: false });
    answered(word)?;
    while word & 15 != 5 {
        word = lent.plain(&Call::Continue(0));
        answered(word)?;
    }
    let (mut numbers, mut buffers, mut refusal) = ([0u8; NUMBERS_LEN], 0, 0);
    let (state, n) = (lent.state.as_ptr(), length(bytes));
    // SAFETY: the state and three rooms are lent, the bytes with their length
    let word = unsafe { usbhs_preview(state, bytes.as_ptr(), n, numbers.as_mut_ptr(), &mut buffers, &mut refusal) };
    let given = answered(word)?;
    let refusal = if refusal == 0 { None } else { Some(refusal as u8) };
    Ok(Previewed { numbers: numbers[..given as usize].to_vec(), buffers, refusal })
}

const FULL: u64 = 1;
const WRITTEN: u64 = 2;

/// Writes packets as a stream of blocks.
pub struct Writer {
    state: [u32; 4],
    block: [u8; BLOCK],
}

impl Default for Writer {
    fn default() -> Self {
        let mut writer = Self { state: [0; 4], block: [0; BLOCK] };
        // SAFETY: four numbers are lent
        unsafe { usbhs_card_new(writer.state.as_mut_ptr()) };
        writer
    }
}

impl Writer {
    /// One packet more; each block that is full goes to `store`.
    pub fn write(&mut self, endpoint: u32, packet: &[u8], mut store: impl FnMut(&[u8; BLOCK])) -> Result<(), u8> {
        loop {
            let (w, b, n) = (self.state.as_mut_ptr(), self.block.as_mut_ptr(), length(&self.block));
            // SAFETY: slices with their own lengths
            let word = unsafe { usbhs_card_write(w, b, n, endpoint, packet.as_ptr(), length(packet)) };
            let result = answered(word)?;
            if result & FULL != 0 {
                store(&self.block);
            }
            if result & WRITTEN != 0 {
                return Ok(());
            }
        }
    }

    /// The last block, where there is one.
    pub fn finish(mut self, store: impl FnOnce(&[u8; BLOCK])) -> Result<(), u8> {
        let n = length(&self.block);
        // SAFETY: as above
        let result = answered(unsafe { usbhs_card_finish(self.state.as_ptr(), self.block.as_mut_ptr(), n) })?;
        if result & FULL != 0 {
            store(&self.block);
        }
        Ok(())
    }
}

/// A packet as the reader gives it.
pub struct Packet<'a> {
    pub endpoint: u32,
    /// Where it begins, counted in packet data: block times 504 plus its place there. Right where packets are read one
    /// at a time, or no block is dropped.
    pub begin: usize,
    pub bytes: &'a [u8],
}

/// What a batch's packets have in front of their bytes: two of length, one of the endpoint.
const HEAD: usize = 3;
/// Room for some packets, and for the longest: a length has 16 bits.
const ROOM: usize = 1 << 18;

/// Where the first packet begins that a good block names; behind the stream where there is none.
pub fn first_begin(stream: &[u8]) -> Length {
    let mut place = 0;
    // SAFETY: a slice with its own length
    unsafe { usbhs_card_start(stream.as_ptr(), length(stream), &mut place) };
    place
}

/// As many packets from this place on as the room holds, as they stand on the card, one behind the other with their
/// headers: how many bytes they take. None where there is no more. The room holds every packet, and the stream is
/// whole blocks: nothing is refused.
pub fn read_batch(stream: &[u8], place: &mut Length, room: &mut [u8]) -> Option<usize> {
    let (mut count, mut used) = (0, 0);
    let (s, n, m) = (stream.as_ptr(), length(stream), length(room));
    // SAFETY: slices with their own lengths
    let word = unsafe { usbhs_card_read(s, n, place, room.as_mut_ptr(), m, &mut count, &mut used) };
    (answered(word) == Ok(1)).then_some(used as usize)
}

/// Reads the packets of a stream that lies in memory, as many at a time as its room holds.
pub struct Reader {
    place: Length,
    room: Vec<u8>,
    /// The packets that are read and not yet given stand here in the room, one behind the other.
    from: usize,
    to: usize,
    /// Where the first of them begins.
    begin: usize,
    /// Packets are read one at a time, and tell where they begin.
    singly: bool,
}

impl Reader {
    pub fn new(stream: &[u8]) -> Result<Self, u8> {
        let mut place = 0;
        // SAFETY: a slice with its own length
        answered(unsafe { usbhs_card_start(stream.as_ptr(), length(stream), &mut place) })?;
        Ok(Self { place, room: vec![0; ROOM], from: 0, to: 0, begin: place as usize, singly: false })
    }

    /// The same by usbhs_card_next alone.
    pub fn one_by_one(stream: &[u8]) -> Result<Self, u8> {
        Ok(Self { singly: true, ..Self::new(stream)? })
    }

    /// Packets are read that are not yet given.
    pub fn has_more(&self) -> bool {
        self.from < self.to
    }

    /// The next packet, from the same stream.
    pub fn next(&mut self, stream: &[u8]) -> Option<Packet<'_>> {
        if !self.has_more() && !self.fill(stream) {
            return None;
        }
        let head = &self.room[self.from..self.from + HEAD];
        let (length, endpoint) = (u16::from_le_bytes([head[0], head[1]]) as usize, head[2].into());
        let at = self.from + HEAD;
        let begin = self.begin;
        self.from = at + length;
        self.begin += HEAD + length;
        Some(Packet { endpoint, begin, bytes: &self.room[at..at + length] })
    }

    /// The next packets as they stand on the card, one behind the other with their headers: as many as the room
    /// holds.
    pub fn batch(&mut self, stream: &[u8]) -> Option<&[u8]> {
        self.fill(stream).then(|| &self.room[self.from..self.to])
    }

    /// Reads as many packets as the room holds.
    fn fill(&mut self, stream: &[u8]) -> bool {
        if self.singly {
            return self.one(stream);
        }
        let before = self.place;
        let used = read_batch(stream, &mut self.place, &mut self.room);
        (self.from, self.to, self.begin) = (0, used.unwrap_or(0), before as usize);
        used.is_some()
    }

    /// Reads one packet.
    fn one(&mut self, stream: &[u8]) -> bool {
        let mut endpoint = 0;
        let room = &mut self.room[HEAD..];
        let (s, n, m) = (stream.as_ptr(), length(stream), length(room));
        // SAFETY: slices with their own lengths
        let word = unsafe { usbhs_card_next(s, n, &mut self.place, &mut endpoint, room.as_mut_ptr(), m) };
        let length = (word >> 8 & 0xFFFF) as usize;
        self.room[..2].copy_from_slice(&(length as u16).to_le_bytes());
        self.room[2] = endpoint as u8;
        (self.from, self.to) = (0, HEAD + length);
        self.begin = (self.place as usize).saturating_sub(HEAD + length);
        word & 15 == 7
    }
}
