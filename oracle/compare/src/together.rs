//! Readings that follow each other, brought by one call: of every eighth interrupt they are brought so too, on a copy
//! of what is lent, and answer and bytes are compared. `usbhs_interrupt` and `usbhs_interrupt_transfer` from the begin
//! on, `usbhs_continue_transfer` from mis_st on, `usbhs_continue_released` from the write on that clears the transfer's
//! flag, `usbhs_continue_looks` over looks at mis_st that read the same.

use oracle::Call;

use crate::exported::{usbhs_continue_looks, usbhs_continue_released, usbhs_continue_transfer};
use crate::exported::{usbhs_interrupt, usbhs_interrupt_transfer};
use crate::lent::Lent;
use crate::port::DRIVER;

/// The words that ask for a register.
const INT_FG: u64 = 0x001;
const INT_ST: u64 = 0x101;
const MIS_ST: u64 = 0x201;
const RX_LEN: u64 = 0x301;
const FRAME_NO: u64 = 0x401;
/// The word that clears the transfer's flag.
const RELEASE: u64 = 0x2_0000_0002;

#[derive(Clone, Copy, PartialEq)]
enum Kind {
    Interrupt,
    InterruptTransfer,
    Transfer,
    Released,
    Looks,
}

struct Brought {
    kind: Kind,
    /// As it was before the first call.
    lent: Lent,
    /// The slots as the last call left them: where the chip has stored since, nothing is compared.
    last: Vec<u8>,
    numbers: Vec<u32>,
}

impl Brought {
    fn new(kind: Kind, lent: &Lent) -> Self {
        Self { kind, lent: lent.clone(), last: lent.slots.clone(), numbers: vec![] }
    }

    /// Whether the number that this word asks for is brought by the same call, if another may come.
    fn goes_on(&self, word: u64) -> bool {
        let n = self.numbers.len();
        let asked: &[u64] = match self.kind {
            Kind::Interrupt => &[FRAME_NO, INT_FG],
            Kind::InterruptTransfer => &[FRAME_NO, INT_FG, MIS_ST, INT_ST, RX_LEN],
            Kind::Transfer => &[MIS_ST, INT_ST, RX_LEN],
            Kind::Released => &[RELEASE, FRAME_NO],
            // all but the last of them read the same
            Kind::Looks => return word == MIS_ST && self.numbers[..n - 1].iter().all(|v| *v == self.numbers[n - 1]),
        };
        asked.get(n) == Some(&word)
    }

    /// All at once, on the copy; numbers that were not asked for are none.
    fn made(&mut self) -> u64 {
        let looks = self.numbers.len() as u32;
        self.numbers.resize(self.numbers.len().max(5), u32::MAX);
        let (s, p, n, t) = self.lent.parts();
        let v = &self.numbers;
        // SAFETY: the exported calls are total; every slice is given with its own length
        unsafe {
            match self.kind {
                Kind::Interrupt => usbhs_interrupt(s, p, n, t, DRIVER, v[0], v[1]),
                Kind::InterruptTransfer => usbhs_interrupt_transfer(s, p, n, t, DRIVER, v[0], v[1], v[2], v[3], v[4]),
                Kind::Transfer => usbhs_continue_transfer(s, p, n, t, DRIVER, v[0], v[1], v[2]),
                Kind::Released => usbhs_continue_released(s, p, n, t, DRIVER, v[1]),
                Kind::Looks => usbhs_continue_looks(s, p, n, t, DRIVER, looks - 1, v[0], v[looks as usize - 1]),
            }
        }
    }
}

#[derive(Default)]
pub struct Together {
    interrupts: u64,
    /// Those under way: a begin's two, and one that a reading of mis_st begins.
    brought: Vec<Brought>,
    /// How many were compared.
    pub compared: usize,
}

impl Together {
    pub fn before(&mut self, call: &Call, lent: &Lent) {
        match call {
            Call::Interrupt => {
                self.interrupts += 1;
                self.brought.clear();
                if self.interrupts % 8 == 0 {
                    self.brought.push(Brought::new(Kind::Interrupt, lent));
                    self.brought.push(Brought::new(Kind::InterruptTransfer, lent));
                }
            }
            Call::Continue(value) => {
                self.brought.retain(|b| b.last == lent.slots);
                for b in &mut self.brought {
                    b.numbers.push(*value);
                }
            }
            _ => self.brought.clear(),
        }
    }

    pub fn after(&mut self, call: &Call, word: u64, lent: &Lent) {
        for mut b in std::mem::take(&mut self.brought) {
            if b.goes_on(word) {
                b.last = lent.slots.clone();
                self.brought.push(b);
                continue;
            }
            let same = b.made() == word && b.lent == *lent;
            assert!(same, "readings brought together: another answer, or other bytes");
            self.compared += 1;
        }
        if !matches!(*call, Call::Continue(_)) || self.interrupts % 8 != 0 {
            return;
        }
        if word == RELEASE {
            self.brought.push(Brought::new(Kind::Released, lent));
        }
        // from a reading of mis_st on, unless its looks are under way
        if word == MIS_ST {
            self.brought.push(Brought::new(Kind::Transfer, lent));
            if !self.brought.iter().any(|b| b.kind == Kind::Looks) {
                self.brought.push(Brought::new(Kind::Looks, lent));
            }
        }
    }
}
