//! The word that a call answers, as an enum.

/// A register that the driver asks for, by its number in `usbhs.h`. Words are packed as that header says, not as the
/// chip has them.
#[derive(Clone, Copy, Debug, PartialEq, Eq)]
#[cfg_attr(feature = "defmt", derive(defmt::Format))]
#[repr(u8)]
#[allow(missing_docs)]
pub enum Register {
    IntFg = 0,
    IntSt = 1,
    MisSt = 2,
    RxLen = 3,
    FrameNo = 4,
    Ctrl = 5,
    IntEn = 6,
    DevAd = 7,
    HostCtrl = 8,
    EpConfig = 9,
    EpType = 10,
    EpBufMod = 11,
    /// EP0's buffer: an offset into the slots, as with the two below.
    Ep0Dma = 12,
    EpMaxLen = 13,
    EpTLen = 14,
    EpRxDma = 15,
    EpTxDma = 16,
    EpRxCtrl = 17,
    EpTxCtrl = 18,
}

impl Register {
    /// Of its number.
    #[inline]
    pub(crate) fn of(number: u8) -> Option<Self> {
        Some(match number {
            0 => Self::IntFg,
            1 => Self::IntSt,
            2 => Self::MisSt,
            3 => Self::RxLen,
            4 => Self::FrameNo,
            5 => Self::Ctrl,
            6 => Self::IntEn,
            7 => Self::DevAd,
            8 => Self::HostCtrl,
            9 => Self::EpConfig,
            10 => Self::EpType,
            11 => Self::EpBufMod,
            12 => Self::Ep0Dma,
            13 => Self::EpMaxLen,
            14 => Self::EpTLen,
            15 => Self::EpRxDma,
            16 => Self::EpTxDma,
            17 => Self::EpRxCtrl,
            18 => Self::EpTxCtrl,
            _ => return None,
        })
    }
}

/// Why a call is refused: the rows of the table of refusals in `usbhs.h`.
#[derive(Clone, Copy, Debug, PartialEq, Eq)]
#[cfg_attr(feature = "defmt", derive(defmt::Format))]
#[non_exhaustive]
pub enum Refusal {
    /// 1: the slots' length is not count times size.
    SlotsLength,
    /// 2: start-up with a size or count that is none.
    Geometry,
    /// 3: an operation is under way.
    UnderWay,
    /// 4: not at this stage.
    Stage,
    /// 5: no such endpoint.
    NoEndpoint,
    /// 6: the maximum is above the buffer size.
    Maximum,
    /// 7: the address cannot be had.
    Address,
    /// 8: the buffers run out.
    Buffers,
    /// 9: the endpoint is disabled; of control stages, a setup packet waits.
    Disabled,
    /// 10: a length.
    Length,
    /// 11: not isochronous.
    NotIsochronous,
    /// 12: no packet waits.
    NoPacket,
    /// 13: two packets wait.
    Full,
    /// 14: no packet is open.
    NotOpen,
    /// 15: nothing is under way, or no such request was begun.
    NotBegun,
    /// 16: the reading has bits above its width.
    Reading,
    /// 17: a descriptor that is not as it must be.
    Descriptor,
    /// 18: one address has two transfer types.
    TwoTypes,
    /// 19: the bus time in use would pass 6,000 byte-times.
    BusTime,
    /// 20: more than 16 channels, or a budget of 0.
    Channels,
    /// 21: blocks, packets or room of the card.
    Card,
    /// 22: EP0's maximum is not 64.
    Ep0Maximum,
    /// 23: distances between visits or arrivals.
    Distances,
    /// 24, of this layer alone: the slots do not begin on a word boundary.
    Misaligned,
    /// What later headers add: the row.
    Row(u8),
}

const REFUSALS: [Refusal; 24] = [
    Refusal::SlotsLength,
    Refusal::Geometry,
    Refusal::UnderWay,
    Refusal::Stage,
    Refusal::NoEndpoint,
    Refusal::Maximum,
    Refusal::Address,
    Refusal::Buffers,
    Refusal::Disabled,
    Refusal::Length,
    Refusal::NotIsochronous,
    Refusal::NoPacket,
    Refusal::Full,
    Refusal::NotOpen,
    Refusal::NotBegun,
    Refusal::Reading,
    Refusal::Descriptor,
    Refusal::TwoTypes,
    Refusal::BusTime,
    Refusal::Channels,
    Refusal::Card,
    Refusal::Ep0Maximum,
    Refusal::Distances,
    Refusal::Misaligned,
];

impl Refusal {
    pub(crate) fn of(row: u8) -> Self {
        REFUSALS.get(usize::from(row).wrapping_sub(1)).copied().unwrap_or(Self::Row(row))
    }

    /// The row's number.
    #[must_use]
    pub fn row(self) -> u8 {
        match self {
            Self::Row(row) => row,
            _ => REFUSALS.iter().position(|&r| r == self).map_or(0, |at| at as u8 + 1),
        }
    }
}

impl core::fmt::Display for Refusal {
    fn fmt(&self, f: &mut core::fmt::Formatter<'_>) -> core::fmt::Result {
        let words = match self {
            Self::SlotsLength => "the slots' length is not count times size",
            Self::Geometry => "a size or a count that start-up does not take",
            Self::UnderWay => "an operation is under way",
            Self::Stage => "not at this stage",
            Self::NoEndpoint => "no such endpoint",
            Self::Maximum => "the maximum is above the buffer size",
            Self::Address => "the address cannot be had",
            Self::Buffers => "the buffers run out",
            Self::Disabled => "the endpoint is disabled, or a setup packet waits",
            Self::Length => "a length that does not fit",
            Self::NotIsochronous => "the endpoint is not isochronous",
            Self::NoPacket => "no packet waits",
            Self::Full => "two packets wait",
            Self::NotOpen => "no packet is open",
            Self::NotBegun => "nothing is under way, or no such request was begun",
            Self::Reading => "the reading has bits above its width",
            Self::Descriptor => "the descriptor is not as it must be",
            Self::TwoTypes => "one address has two transfer types",
            Self::BusTime => "the bus time in use would pass 6,000 byte-times",
            Self::Channels => "too many channels, or a budget of 0",
            Self::Card => "a block, packet or room of the card that does not fit",
            Self::Ep0Maximum => "EP0's maximum is not 64",
            Self::Distances => "distances of visits or arrivals that cannot be",
            Self::Misaligned => "state or slots do not begin on a word boundary",
            Self::Row(_) => "a row that this version has no name for",
        };
        write!(f, "refused ({}): {words}", self.row())
    }
}

impl core::error::Error for Refusal {}

/// What a call answers.
#[derive(Clone, Copy, Debug, PartialEq, Eq)]
#[cfg_attr(feature = "defmt", derive(defmt::Format))]
#[must_use]
pub enum Answer {
    /// The call did nothing.
    Refused(Refusal),
    /// Read this register, and bring the reading.
    Read {
        /// Which one.
        register: Register,
        /// The endpoint's number; 0 where the register has none.
        endpoint: u8,
    },
    /// Write this register, then go on.
    Write {
        /// Which one.
        register: Register,
        /// The endpoint's number; 0 where the register has none.
        endpoint: u8,
        /// The packed word.
        value: u32,
    },
    /// Wait so many microseconds, then go on.
    Wait(u8),
    /// Call the start-of-frame callback, then go on.
    Callback,
    /// The operation is over.
    End {
        /// As each call says.
        result: u16,
        /// How many tasks are to be woken.
        wakes: u8,
    },
    /// Of a poll: after a wake-up, poll again.
    NotYet,
    /// Of a poll: so many bytes; the request is over.
    Done(u16),
    /// An open packet.
    Shown {
        /// Where it begins in the slots.
        offset: u32,
        /// How long it is.
        length: u16,
    },
}

impl Answer {
    /// The answer that a word is.
    #[inline]
    pub(crate) fn of(word: u64) -> Self {
        let byte = (word >> 8) as u8;
        let (middle, endpoint, high) = ((word >> 8) as u16, (word >> 16) as u8, (word >> 32) as u32);
        match (word & 15, Register::of(byte)) {
            (1, Some(register)) => Self::Read { register, endpoint },
            (2, Some(register)) => Self::Write { register, endpoint, value: high },
            (3, _) => Self::Wait(byte),
            (4, _) => Self::Callback,
            (5, _) => Self::End { result: middle, wakes: (word >> 24) as u8 },
            (6, _) => Self::NotYet,
            (7, _) => Self::Done(middle),
            (8, _) => Self::Shown { offset: high, length: middle },
            _ => Self::Refused(Refusal::of(byte)),
        }
    }

    /// The word that this answer is.
    #[inline]
    pub(crate) fn word(self) -> u64 {
        let register = |r: Register, e: u8| u64::from(r as u8) << 8 | u64::from(e) << 16;
        match self {
            Self::Refused(refusal) => u64::from(refusal.row()) << 8,
            Self::Read { register: r, endpoint } => 1 | register(r, endpoint),
            Self::Write { register: r, endpoint, value } => 2 | register(r, endpoint) | u64::from(value) << 32,
            Self::Wait(microseconds) => 3 | u64::from(microseconds) << 8,
            Self::Callback => 4,
            Self::End { result, wakes } => 5 | u64::from(result) << 8 | u64::from(wakes) << 24,
            Self::NotYet => 6,
            Self::Done(length) => 7 | u64::from(length) << 8,
            Self::Shown { offset, length } => 8 | u64::from(length) << 8 | u64::from(offset) << 32,
        }
    }

    /// The result of a call that is over at once.
    #[inline]
    pub fn ended(self) -> Result<u16, Refusal> {
        match self {
            Self::End { result, .. } => Ok(result),
            Self::Refused(refusal) => Err(refusal),
            _ => Err(Refusal::UnderWay),
        }
    }
}

/// A task that an operation wakes.
#[derive(Clone, Copy, Debug, PartialEq, Eq)]
#[cfg_attr(feature = "defmt", derive(defmt::Format))]
pub enum Task {
    /// Who waits for IN of this endpoint.
    In(u8),
    /// Who waits for OUT of this endpoint.
    Out(u8),
    /// Who polls the bus.
    Bus,
}

impl Task {
    /// Of its number: 0 to 15 IN, 16 to 31 OUT, 32 the bus.
    #[inline]
    pub(crate) fn of(number: u8) -> Self {
        match number {
            0..=15 => Self::In(number),
            16..=31 => Self::Out(number - 16),
            _ => Self::Bus,
        }
    }

    /// Its number: 0 to 15 IN, 16 to 31 OUT, 32 the bus.
    #[inline]
    #[must_use]
    pub fn number(self) -> usize {
        match self {
            Self::In(ep) => usize::from(ep & 15),
            Self::Out(ep) => 16 + usize::from(ep & 15),
            Self::Bus => 32,
        }
    }
}

/// What a bus poll ends with.
#[derive(Clone, Copy, Debug, PartialEq, Eq)]
#[cfg_attr(feature = "defmt", derive(defmt::Format))]
pub enum Event {
    /// The first one after EP0's start.
    Power,
    /// A bus reset.
    Reset,
    /// The bus is suspended.
    Suspend,
    /// The bus is resumed.
    Resume,
}

impl Event {
    /// Of a bus poll's result; `None`: nothing happened.
    #[must_use]
    pub fn of(result: u16) -> Option<Self> {
        match result {
            1 => Some(Self::Power),
            2 => Some(Self::Reset),
            3 => Some(Self::Suspend),
            4 => Some(Self::Resume),
            _ => None,
        }
    }
}

#[cfg(test)]
mod tests {
    use super::*;

    #[test]
    fn numbers() {
        for row in 1..=u8::MAX {
            assert_eq!(Refusal::of(row).row(), row);
            assert_eq!(Answer::of(u64::from(row) << 8), Answer::Refused(Refusal::of(row)));
        }
        for n in 0..19 {
            let register = Register::of(n).unwrap();
            assert_eq!(register as u8, n);
            let word = 2 | u64::from(n) << 8 | 7 << 16 | 0xABCD_1234 << 32;
            assert_eq!(Answer::of(word), Answer::Write { register, endpoint: 7, value: 0xABCD_1234 });
        }
        for n in 0..=32 {
            assert_eq!(Task::of(n).number(), n.into());
        }
    }

    /// Words that the port never answers are refusals.
    #[test]
    fn others() {
        for word in [9, 15, 1 | 19 << 8, 2 | 255 << 8] {
            assert!(matches!(Answer::of(word), Answer::Refused(_)));
        }
        assert_eq!(Answer::of(5 | 3 << 8 | 2 << 24), Answer::End { result: 3, wakes: 2 });
        assert_eq!(Answer::of(8 | 12 << 8 | 640 << 32), Answer::Shown { offset: 640, length: 12 });
    }
}
