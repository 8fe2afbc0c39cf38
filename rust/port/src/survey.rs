//! The calls of `usbhs_survey.h`, which take no driver: channels, visits, packets on the card, descriptors.
//!
//! ```
//! use usbhs_port::survey::{packets, write_descriptor, Writer, BLOCK_LEN};
//!
//! // two packets onto blocks of a card
//! let (mut writer, mut block, mut card) = (Writer::new(), [0; BLOCK_LEN], vec![]);
//! for (endpoint, data) in [(1, [7; 300]), (2, [9; 300])] {
//!     loop {
//!         let written = writer.write(&mut block, endpoint, &data).unwrap();
//!         if written.block_full {
//!             card.extend(block);
//!         }
//!         if written.packet_written {
//!             break;
//!         }
//!     }
//! }
//! if writer.finish(&mut block).unwrap() {
//!     card.extend(block);
//! }
//! assert_eq!(card.len(), 2 * BLOCK_LEN);
//!
//! // and back
//! let (mut reader, mut room) = (packets(&card).unwrap(), [0; 1024]);
//! assert_eq!(reader.next(&mut room), Ok(Some((1, &[7; 300][..]))));
//! assert_eq!(reader.next(&mut room), Ok(Some((2, &[9; 300][..]))));
//! assert_eq!(reader.next(&mut room), Ok(None));
//!
//! assert_eq!(usbhs_port::survey::data_crc(b"123456789"), 0xB4C8);
//! assert_eq!(write_descriptor(&[0; 9], &mut room).map_err(|r| r.row()), Err(17));
//! ```
#![allow(unsafe_code)]

use crate::exported::{length, Length};
use crate::exported_survey::*;
use crate::{Answer, BusTime, Refusal};

pub use crate::exported_survey::{Channel, BLOCK_LEN};

/// The best set of channels that was found.
#[derive(Clone, Copy, Debug, PartialEq, Eq)]
#[cfg_attr(feature = "defmt", derive(defmt::Format))]
pub struct Best {
    /// Bit i: channel i is in.
    pub set: u16,
    /// Of its maxima.
    pub total: u32,
    /// No fitting set has a greater total.
    pub figure: u32,
    /// How many sets were looked at.
    pub looked: u32,
}

/// The best of the sets of up to 16 channels that fit the bus time that is left, looking at no more than `budget`.
///
/// ```
/// use usbhs_port::survey::{best_set, Channel};
/// let mut list = [Channel { maximum: 512, charge: 550, chosen: 0 }; 3];
/// let best = best_set(&mut list, &usbhs_port::BusTime::new(), 65_536).unwrap();
/// assert_eq!((best.set, best.total, best.figure), (0b111, 1536, 1536));
/// ```
pub fn best_set(list: &mut [Channel], time: &BusTime, budget: u32) -> Result<Best, Refusal> {
    let (mut total, mut figure, mut looked) = (0, 0, 0);
    let n = length(list);
    // SAFETY: the list with its length, the record of its length, rooms of one number; lent apart
    let word =
        unsafe { usbhs_best_set(list.as_mut_ptr(), n, time.as_ptr(), budget, &mut total, &mut figure, &mut looked) };
    Answer::of(word).ended().map(|set| Best { set, total, figure, looked })
}

/// How many packets arrive between two visits, and times that reach it.
#[derive(Clone, Copy, Debug, PartialEq, Eq)]
#[cfg_attr(feature = "defmt", derive(defmt::Format))]
pub struct Reached {
    /// How many.
    pub arrivals: u32,
    /// The first arrival after the visit.
    pub first: u32,
    /// From each to the next.
    pub distance: u32,
}

/// The least and the greatest number of packets between two visits of a reader, in microframes: from a visit to the
/// next it is `visits.0` to `visits.1`, from an arrival to the next `arrivals.0` to `arrivals.1`.
///
/// ```
/// let (least, greatest) = usbhs_port::survey::between_visits((8, 10), (1, 2)).unwrap();
/// assert_eq!((least.arrivals, greatest.arrivals), (4, 10));
/// ```
pub fn between_visits(visits: (u32, u32), arrivals: (u32, u32)) -> Result<(Reached, Reached), Refusal> {
    let (mut least, mut greatest) = ([0; 3], [0; 3]);
    let (to_least, to_greatest) = (least.as_mut_ptr(), greatest.as_mut_ptr());
    // SAFETY: two rooms of three numbers
    let word = unsafe { usbhs_between_visits(visits.0, visits.1, arrivals.0, arrivals.1, to_least, to_greatest) };
    let reached = |[arrivals, first, distance]: [u32; 3]| Reached { arrivals, first, distance };
    Answer::of(word).ended().map(|_| (reached(least), reached(greatest)))
}

/// The data CRC of USB 2.0, 8.3.5, over these bytes.
#[must_use]
pub fn data_crc(bytes: &[u8]) -> u16 {
    // SAFETY: bytes with their length
    unsafe { usbhs_data_crc(bytes.as_ptr(), length(bytes)) as u16 }
}

/// Writes packets into blocks, one block at a time.
#[derive(Clone, Debug)]
pub struct Writer([u32; 4]);

/// What a call of [`Writer::write`] did.
#[derive(Clone, Copy, Debug, PartialEq, Eq)]
#[cfg_attr(feature = "defmt", derive(defmt::Format))]
pub struct Written {
    /// The block is to be stored, and the next one lent.
    pub block_full: bool,
    /// The packet is written whole; else it is brought again with the next block.
    pub packet_written: bool,
}

impl Default for Writer {
    fn default() -> Self {
        Self::new()
    }
}

impl Writer {
    /// Before the first packet.
    #[must_use]
    pub fn new() -> Self {
        let mut writer = [0; 4];
        // SAFETY: four numbers
        unsafe { usbhs_card_new(writer.as_mut_ptr()) };
        Self(writer)
    }

    /// Writes of this packet what the block holds.
    pub fn write(&mut self, block: &mut [u8; BLOCK_LEN], endpoint: u8, data: &[u8]) -> Result<Written, Refusal> {
        let (w, b, n) = (self.0.as_mut_ptr(), block.as_mut_ptr(), length(block));
        // SAFETY: four numbers, block and data with their lengths; lent apart
        let word = unsafe { usbhs_card_write(w, b, n, endpoint.into(), data.as_ptr(), length(data)) };
        let written = |bits: u16| Written { block_full: bits & 1 != 0, packet_written: bits & 2 != 0 };
        Answer::of(word).ended().map(written)
    }

    /// Fills the last block; whether it is to be stored.
    pub fn finish(&self, block: &mut [u8; BLOCK_LEN]) -> Result<bool, Refusal> {
        // SAFETY: four numbers that are only read, the block with its length
        let word = unsafe { usbhs_card_finish(self.0.as_ptr(), block.as_mut_ptr(), length(block)) };
        Answer::of(word).ended().map(|bits| bits & 1 != 0)
    }
}

/// The endpoint of the recorder's own records; no stream may use it.
pub const RECORDER: u8 = 15;

/// Records packets on a card that is written over and not erased: behind them there is an end record at every moment,
/// so that a reader of the whole card gives what was recorded and nothing older, wherever the power goes.
///
/// After each call, store what [`Recorder::to_store`] gives until it gives nothing, and call [`Recorder::stored`] when a
/// block is stored. Where a store fails, record no more.
#[derive(Clone, Debug)]
pub struct Recorder {
    numbers: [u32; 6],
    room: [u8; 4 * BLOCK_LEN],
}

impl Recorder {
    /// A survey begins: its first block is to be stored.
    pub fn begin(survey: u32) -> Result<Self, Refusal> {
        let mut recorder = Self { numbers: [0; 6], room: [0; 4 * BLOCK_LEN] };
        let (r, b, n) = recorder.lent();
        // SAFETY: six numbers, the room with its length; lent apart
        let word = unsafe { usbhs_recorder_begin(r, b, n, survey) };
        Answer::of(word).ended().map(|_| recorder)
    }

    /// Records a packet, with the overruns of all endpoints so far; how many blocks are to be stored.
    pub fn record(&mut self, endpoint: u8, data: &[u8], overruns: u32) -> Result<u16, Refusal> {
        let (r, b, n) = self.lent();
        // SAFETY: six numbers, room and data with their lengths; lent apart
        let word = unsafe { usbhs_record(r, b, n, endpoint.into(), data.as_ptr(), length(data), overruns) };
        Answer::of(word).ended()
    }

    /// Brings what is not stored yet to the card; how many blocks are to be stored. You may record on behind it.
    pub fn finish(&mut self, overruns: u32) -> Result<u16, Refusal> {
        let (r, b, n) = self.lent();
        // SAFETY: six numbers, the room with its length; lent apart
        let word = unsafe { usbhs_recorder_finish(r, b, n, overruns) };
        Answer::of(word).ended()
    }

    /// The block that is to be stored next, and its place on the card.
    #[must_use]
    pub fn to_store(&self) -> Option<(u32, &[u8])> {
        let place = self.numbers[3].wrapping_add(self.numbers[4]).wrapping_sub(1);
        let at = (place % 4) as usize * BLOCK_LEN;
        (self.numbers[4] != 0).then(|| (place, &self.room[at..at + BLOCK_LEN]))
    }

    /// That block is stored.
    pub fn stored(&mut self) {
        // SAFETY: six numbers
        unsafe { usbhs_recorder_stored(self.numbers.as_mut_ptr()) };
    }

    fn lent(&mut self) -> (*mut u32, *mut u8, Length) {
        (self.numbers.as_mut_ptr(), self.room.as_mut_ptr(), length(&self.room))
    }
}

/// Reads the packets of a stream of blocks.
#[derive(Clone, Debug)]
pub struct Reader<'a> {
    stream: &'a [u8],
    place: Length,
}

/// The packets of a stream; refused with 21 if it is not whole blocks.
pub fn packets(stream: &[u8]) -> Result<Reader<'_>, Refusal> {
    let mut place = 0;
    // SAFETY: the stream with its length, a room of one number
    let word = unsafe { usbhs_card_start(stream.as_ptr(), length(stream), &mut place) };
    Answer::of(word).ended().map(|_| Reader { stream, place })
}

/// What [`Reader::read`] brought.
#[derive(Clone, Copy, Debug, PartialEq, Eq)]
pub struct Many<'r> {
    /// How many packets.
    pub count: u64,
    /// One behind the other: two bytes of length, lowest first, one of the endpoint, the packet's bytes.
    pub bytes: &'r [u8],
}

impl Reader<'_> {
    /// The next packet: its endpoint and bytes, in the room's front.
    pub fn next<'r>(&mut self, room: &'r mut [u8]) -> Result<Option<(u8, &'r [u8])>, Refusal> {
        let mut endpoint = 0;
        let (s, n, m) = (self.stream.as_ptr(), length(self.stream), length(room));
        // SAFETY: stream and room with their lengths, rooms of one number; lent apart
        let word = unsafe { usbhs_card_next(s, n, &mut self.place, &mut endpoint, room.as_mut_ptr(), m) };
        match Answer::of(word) {
            Answer::Done(n) => Ok(Some((endpoint as u8, room.get(..n.into()).unwrap_or_default()))),
            answer => answer.ended().map(|_| None),
        }
    }

    /// As many packets as the room holds; `None` where there is no more.
    pub fn read<'r>(&mut self, room: &'r mut [u8]) -> Result<Option<Many<'r>>, Refusal> {
        let (mut count, mut used) = (0, 0);
        let (s, n, m) = (self.stream.as_ptr(), length(self.stream), length(room));
        // SAFETY: as in `next`
        let word = unsafe { usbhs_card_read(s, n, &mut self.place, room.as_mut_ptr(), m, &mut count, &mut used) };
        let many = |some| (some == 1).then(|| Many { count, bytes: room.get(..used as usize).unwrap_or_default() });
        Answer::of(word).ended().map(many)
    }
}

/// The endpoints of a configuration descriptor as one interface, in the room's front: how many bytes.
pub fn write_descriptor(descriptor: &[u8], room: &mut [u8]) -> Result<u16, Refusal> {
    let (to, m) = (room.as_mut_ptr(), length(room));
    // SAFETY: both with their lengths, lent apart
    match Answer::of(unsafe { usbhs_write_descriptor(descriptor.as_ptr(), length(descriptor), to, m) }) {
        Answer::Done(n) => Ok(n),
        answer => answer.ended(),
    }
}
