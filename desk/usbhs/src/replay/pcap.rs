//! A trace as USB packets for Wireshark and tshark: a capture of link type 288, USB 2.0 as it goes over the cable. What
//! a trace determines are the tokens that an interrupt told, with the device's address, and a setup packet's bytes
//! where they were polled; the bytes of other packets and the handshakes are not in it.

use super::trace::Entry;
use crate::stamps::microframe_index;
use crate::survey::data_crc;

const LINK_TYPE: u32 = 288;
/// Microframe indexes count modulo this; a microframe's microseconds.
const INDEXES: u64 = 16_384;
const MICROFRAME: u64 = 125;

const OUT: u8 = 0xE1;
const IN: u8 = 0x69;
const SOF: u8 = 0xA5;
const SETUP: u8 = 0x2D;
const DATA0: u8 = 0xC3;

/// The bits of int_fg.
const TRANSFER: u32 = 2;
const SETUP_FLAG: u32 = 32;
/// Registers.
const INT_FG: u64 = 0;
const INT_ST: u64 = 1;
const FRAME_NO: u64 = 4;
const DEV_AD: u64 = 7;

/// USB 2.0, 8.3.5.1, over 11 bits.
fn crc5(bits: u16) -> u8 {
    let mut crc = 0x1F;
    for i in 0..11 {
        let low = (bits >> i ^ crc) & 1;
        crc = crc >> 1 ^ if low == 1 { 0x14 } else { 0 };
    }
    (crc ^ 0x1F) as u8
}

/// A packet of a token's PID and 11 bits.
fn token(pid: u8, bits: u16) -> [u8; 3] {
    let all = bits & 0x7FF | u16::from(crc5(bits & 0x7FF)) << 11;
    [pid, all as u8, (all >> 8) as u8]
}

pub struct Capture {
    bytes: Vec<u8>,
    pub packets: usize,
    /// Microframes since the first, the last index, and the packets of this microframe.
    time: u64,
    index: Option<u64>,
    within: u64,
    address: u16,
    frame: u16,
    flags: u32,
}

impl Capture {
    fn new() -> Self {
        let mut bytes = vec![];
        for n in [0xA1B2_C3D4, 2 | 4 << 16, 0, 0, 65_535, LINK_TYPE] {
            bytes.extend(u32::to_le_bytes(n));
        }
        Self { bytes, packets: 0, time: 0, index: None, within: 0, address: 0, frame: 0, flags: 0 }
    }

    fn packet(&mut self, packet: &[u8]) {
        let time = self.time * MICROFRAME + self.within.min(MICROFRAME - 1);
        self.within += 1;
        self.packets += 1;
        for n in [time / 1_000_000, time % 1_000_000, packet.len() as u64, packet.len() as u64] {
            self.bytes.extend((n as u32).to_le_bytes());
        }
        self.bytes.extend(packet);
    }

    fn frame(&mut self, reading: u16) {
        let index = u64::from(microframe_index(reading));
        self.frame = reading;
        let passed = self.index.replace(index).map_or(0, |before| (index + INDEXES - before) % INDEXES);
        if passed != 0 {
            self.time += passed;
            self.within = 0;
        }
    }

    /// The interrupt's status: endpoint and token.
    fn status(&mut self, status: u32) {
        let endpoint = (status & 15) as u16;
        let bits = self.address & 0x7F | endpoint << 7;
        match status >> 4 & 3 {
            _ if self.flags & TRANSFER == 0 => {}
            0 => self.packet(&token(OUT, bits)),
            1 => self.packet(&token(SOF, self.frame & 0x7FF)),
            2 => self.packet(&token(IN, bits)),
            _ => self.packet(&token(SETUP, bits)),
        }
    }

    fn flags(&mut self, flags: u32, setup: Option<&[u8]>) {
        self.flags = flags;
        // a setup packet goes to EP0; with a transfer, the transfer came before it
        if flags & SETUP_FLAG != 0 && flags & TRANSFER == 0 {
            self.packet(&token(SETUP, self.address & 0x7F));
            if let Some(bytes) = setup {
                let check = data_crc(bytes).to_le_bytes();
                self.packet(&[&[DATA0], bytes, &check].concat());
            }
        }
    }
}

/// The capture of a trace.
pub fn capture(all: &[Entry], setups: &[Option<Vec<u8>>]) -> Capture {
    let mut c = Capture::new();
    let mut begun = 0;
    for (i, entry) in all.iter().enumerate() {
        match *entry {
            Entry::Call { number: 0, .. } => c.address = 0,
            Entry::Call { number: 4, .. } => begun = i,
            Entry::Call { number: 41, a, b, .. } => {
                c.frame(a as u16);
                c.flags(b, setups[i].as_deref());
            }
            Entry::Call { number: 42, b, .. } => c.status(b),
            Entry::Answer { word, reading } => match (word & 15, word >> 8 & 0xFF) {
                (1, FRAME_NO) => c.frame(reading as u16),
                (1, INT_FG) => c.flags(reading, setups[begun].as_deref()),
                (1, INT_ST) => c.status(reading),
                (2, DEV_AD) => c.address = (word >> 32) as u16,
                _ => {}
            },
            _ => {}
        }
    }
    c
}

impl Capture {
    pub fn bytes(&self) -> &[u8] {
        &self.bytes
    }
}

#[cfg(test)]
mod tests {
    use super::*;

    #[test]
    fn tokens_of_usb_2() {
        // known packets: SOF of frame 1, SETUP to address 0; and checks of addresses and endpoints
        assert_eq!(token(SOF, 1), [0xA5, 0x01, 0xE8]);
        assert_eq!(token(SETUP, 0), [0x2D, 0x00, 0x10]);
        assert_eq!(crc5(0x15 | 0xE << 7), 0b11101);
        assert_eq!(crc5(0x3A | 0xA << 7), 0b00111);
        assert_eq!(crc5(0x70 | 0x4 << 7), 0b01110);
    }
}
