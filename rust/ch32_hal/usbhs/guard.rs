//! A bus that does not wait (docs/DIFFERENCES.md, k to q): two of the three things that the C firmware does about it,
//! as far as the traits reach. Off at first, as the Rust has neither: [`guard_bus`].

use usbhs_port::{Access, Register, Task};

use super::registers::Chip;
use super::{lent, Instance};

/// What is known of the chip's registers, by the words that the port had written.
pub(super) struct Guard {
    on: bool,
    /// ep_config, ep_type; the offset of each endpoint's receive buffer.
    enabled: u32,
    types: u32,
    pub(super) armed: [u32; 16],
    /// A control transfer is under way.
    transfer: bool,
    /// SOFs may interrupt.
    sofs: bool,
}

impl Guard {
    pub(super) const NEW: Self = Self { on: false, enabled: 0, types: 0, armed: [0; 16], transfer: false, sofs: false };

    /// Whether SOFs may interrupt.
    pub(super) fn sofs(&self) -> bool {
        !self.on || self.sofs
    }

    /// Whether that changed.
    fn decided(&mut self) -> bool {
        let before = self.sofs();
        self.sofs = self.enabled != 0 && (self.sofs || !self.transfer);
        self.sofs() != before
    }

    /// ep_config or ep_type is written: whether int_en is to be written anew.
    fn written(&mut self, register: Register, word: u32) -> bool {
        match register {
            Register::EpConfig => self.enabled = word,
            Register::EpType => self.types = word,
            _ => {}
        }
        self.decided()
    }

    /// Isochronous OUT endpoints that are enabled, a bit each.
    pub(super) fn looked_at(&self) -> u32 {
        if self.on {
            (self.enabled & self.types) >> 16
        } else {
            0
        }
    }
}

/// Guards the driver against a bus that does not wait, or no longer. SOFs then interrupt only while an endpoint is
/// enabled, from the end of the control transfer that enabled it; and after an interrupt an isochronous OUT packet that
/// it left in its slot is taken, before the next lands on it. To be called before [`set_sof_callback`] or any other
/// function of the driver. The Rust has none.
///
/// [`set_sof_callback`]: super::set_sof_callback
pub fn guard_bus(on: bool) {
    lent::with(|l| l.guard.on = on);
}

/// int_en's SOF bit, as it is to be now.
pub(super) fn let_sofs<T: Instance>() {
    critical_section::with(|_| {
        let on = lent::with(|l| l.callback.is_some() && l.guard.sofs());
        T::regs().int_en().modify(|w| w.set_sof_act(on));
    });
}

/// ep_config or ep_type is written.
pub(super) fn written<T: Instance>(register: Register, word: u32) {
    if lent::with(|l| l.guard.written(register, word)) {
        let_sofs::<T>();
    }
}

/// A control transfer begins, or is over.
pub(super) fn transfer<T: Instance>(under_way: bool) {
    critical_section::with(|_| {
        let changed = lent::with(|l| {
            l.guard.transfer = under_way;
            l.guard.decided()
        });
        if changed {
            let_sofs::<T>();
        }
    });
}

/// One more interrupt, of made readings: a transfer, the SIE free, a token that is nobody's. All that the port does
/// then is to look at the slots. While the SIE is busy it is shown the chip's own token, and leaves the packet.
struct Look<T: Instance> {
    chip: Chip<T>,
    asked: bool,
}

const TRANSFER: u32 = 2;
const FREE: u32 = 1;
const SETUP: u32 = 0x30;

impl<T: Instance> Access for Look<T> {
    fn read(&mut self, register: Register, ep: u8) -> u32 {
        match register {
            Register::IntFg => TRANSFER,
            Register::MisSt => FREE,
            Register::RxLen => 0,
            Register::IntSt => {
                let first = !core::mem::replace(&mut self.asked, true);
                if first || self.chip.read(Register::MisSt, 0) & FREE != 0 {
                    SETUP
                } else {
                    self.chip.read(Register::IntSt, 0)
                }
            }
            _ => self.chip.read(register, ep),
        }
    }

    fn write(&mut self, register: Register, ep: u8, value: u32) {
        // the release may be a later transfer's
        if register != Register::IntFg {
            self.chip.write(register, ep, value);
        }
    }

    fn wait(&mut self, microseconds: u8) {
        self.chip.wait(microseconds);
    }

    fn callback(&mut self) {
        self.chip.callback();
    }

    fn wake(&mut self, task: Task) {
        self.chip.wake(task);
    }
}

/// At the interrupt's end.
pub(super) fn look_after_interrupt<T: Instance>() {
    if lent::left_in_a_slot() && !T::regs().int_fg().read().transfer() {
        let _ = usbhs_port::run(&mut lent::Masked, &mut Look::<T> { chip: Chip::new(), asked: false }, |p| {
            p.begin_interrupt()
        });
    }
}
