//! The host and the chip under `live.rs`: what the host does next, and how it shows in the registers.

use std::collections::VecDeque;

use oracle::Rng;
use seam::reg;

/// What the host does next on one of its pipes.
#[derive(Debug)]
pub enum Host {
    Reset,
    Setup([u8; 8]),
    /// An IN of the control pipe, and what it must bring.
    In0(Vec<u8>),
    /// An OUT of the control pipe.
    Out0(Vec<u8>),
    /// The address must be this one.
    Address(u32),
    Bulk(Vec<u8>),
    Iso(usize, Vec<u8>),
    Sof,
}

pub struct Chip {
    /// The interrupt is enabled.
    pub on: bool,
    pub in_interrupt: bool,
    pub rng: Rng,
    /// Bus and control, bulk, isochronous and start of frame: each in its order.
    pub pipes: [VecDeque<Host>; 3],
    pub index: u16,
    /// A bus reset that the driver has not cleared yet: the host does nothing else.
    pub reset: bool,
    /// The control words last seen, OUT and IN.
    pub seen: [[u32; 16]; 2],
    pub interrupts: usize,
    pub wrong: Option<String>,
    pub taken: Vec<Vec<u8>>,
    /// The isochronous IN: paced, packets queued, first bytes of those sent.
    pub paced: bool,
    pub queued: u8,
    pub sent: Vec<u8>,
    /// A timer's interrupt takes the packets of endpoint 3, above the USB interrupt; it is under way.
    pub timer: bool,
    pub in_timer: bool,
    /// Isochronous packets sent and not yet got: the ring holds 15.
    pub waiting: [usize; 16],
    /// Packets that it took in the midst of the USB interrupt.
    pub midst: usize,
    /// The host and the timer come wherever they can: at each access of an interrupt, at each end of a section.
    pub every: bool,
}

const ACK: u32 = 0;
pub const TRANSFER: u32 = 2;
const TOGGLE: u32 = 4;

pub fn memory(address: u32, length: usize) -> &'static mut [u8] {
    // SAFETY: an address that the driver handed out, of at least so many bytes
    unsafe { core::slice::from_raw_parts_mut(address as usize as *mut u8, length) }
}

impl Chip {
    /// A packet of an isochronous OUT reached its reader. One that was never sent, or was got before, is a failure.
    pub fn got(&mut self, ep: usize) {
        match self.waiting[ep].checked_sub(1) {
            Some(left) => self.waiting[ep] = left,
            None => self.wrong = Some(format!("endpoint {ep} shows a packet more than was sent")),
        }
    }

    /// What the driver wrote to the control registers is what they read.
    pub fn settle(&mut self) {
        if self.reset && seam::written(reg::INT_FG, 0) == 1 {
            self.reset = false;
            seam::set(reg::INT_FG, 0, 0);
        }
        for (k, r) in [reg::EP_RX_CTRL, reg::EP_TX_CTRL].into_iter().enumerate() {
            for ep in 0..16 {
                let written = seam::written(r, ep as u8);
                if written != self.seen[k][ep] {
                    self.seen[k][ep] = written;
                    seam::set(r, ep as u8, written);
                }
            }
        }
    }

    pub fn answers(&self, r: u8, ep: u8) -> bool {
        self.seen[(r == reg::EP_TX_CTRL) as usize][ep as usize] & 3 == ACK
    }

    pub fn ready(&self, pipe: usize) -> bool {
        if self.reset {
            return false;
        }
        match self.pipes[pipe].front() {
            None => false,
            Some(Host::In0(_)) => self.answers(reg::EP_TX_CTRL, 0),
            Some(Host::Out0(_)) => self.answers(reg::EP_RX_CTRL, 0),
            Some(Host::Bulk(_)) => self.enabled(1) && self.answers(reg::EP_RX_CTRL, 1) && self.seen[0][1] & 0x10 != 0,
            Some(Host::Iso(ep, _)) => self.enabled(*ep) && self.waiting[*ep] < 15,
            Some(Host::Sof) => {
                let on = |r, bit: u32| seam::written(r, 0) >> bit & 1 != 0;
                self.enabled(2) && self.enabled(3) && on(reg::EP_CONFIG, 4) && on(reg::INT_EN, 6)
            }
            Some(Host::Address(a)) => seam::written(reg::DEV_AD, 0) == *a,
            Some(Host::Setup(_) | Host::Reset) => true,
        }
    }

    pub fn enabled(&self, ep: usize) -> bool {
        seam::written(reg::EP_CONFIG, 0) >> (16 + ep) & 1 != 0
    }

    /// Puts one event of the host into the registers and the buffer.
    pub fn perform(&mut self, pipe: usize) -> bool {
        let transfer = |status: u32, length: usize| {
            seam::set(reg::INT_FG, 0, TRANSFER);
            seam::set(reg::INT_ST, 0, status);
            seam::set(reg::RX_LEN, 0, length as u32);
        };
        match self.pipes[pipe].pop_front().unwrap() {
            Host::Reset => {
                self.reset = true;
                seam::set(reg::INT_FG, 0, 1);
            }
            Host::Setup(packet) => {
                memory(seam::written(reg::EP0_DMA, 0), 8).copy_from_slice(&packet);
                seam::set(reg::INT_FG, 0, 0x20);
            }
            Host::In0(bytes) => {
                let sent = memory(seam::written(reg::EP0_DMA, 0), seam::written(reg::EP_T_LEN, 0) as usize).to_vec();
                if sent != bytes {
                    self.wrong = Some(format!("EP0 sends {sent:?} for {bytes:?}"));
                }
                transfer(0x60, 0);
            }
            Host::Out0(bytes) => {
                memory(seam::written(reg::EP0_DMA, 0), bytes.len()).copy_from_slice(&bytes);
                transfer(0x40, bytes.len());
            }
            Host::Address(_) => return false,
            Host::Bulk(bytes) => {
                memory(seam::written(reg::EP_RX_DMA, 1), bytes.len()).copy_from_slice(&bytes);
                // the chip flips the toggle of a packet that it takes
                let now = seam::written(reg::EP_RX_CTRL, 1);
                seam::set(reg::EP_RX_CTRL, 1, now ^ TOGGLE);
                transfer(0x41, bytes.len());
            }
            Host::Iso(ep, bytes) => {
                memory(seam::written(reg::EP_RX_DMA, ep as u8), bytes.len()).copy_from_slice(&bytes);
                self.waiting[ep] += 1;
                transfer(0x40 | ep as u32, bytes.len());
            }
            Host::Sof => {
                // what was loaded went out in the microframe before
                if seam::written(reg::EP_CONFIG, 0) >> 4 & 1 != 0 && seam::written(reg::EP_T_LEN, 4) != 0 {
                    self.sent.push(memory(seam::written(reg::EP_TX_DMA, 4), 1)[0]);
                }
                self.index = (self.index + 1) & 0x3FFF;
                seam::set(reg::FRAME_NO, 0, ((self.index >> 3) | (self.index & 7) << 13) as u32);
                transfer(0x10, 0);
            }
        }
        true
    }
}
