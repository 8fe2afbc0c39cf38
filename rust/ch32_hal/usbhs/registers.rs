//! One access: the port's register and packed word, made by the PAC's accessors.
//!
//! The Rust changes fields in place with `modify`. The port reads a register and writes it back in the next access;
//! here such a write changes, in the value that was read, the fields in which the two words differ, so that bits that
//! the port has no name for stay as `modify` leaves them.

use core::marker::PhantomData;

use ch32_metapac::usbhs::regs::{Ctrl, EpBufMod, EpConfig, EpRxCtrl, EpTxCtrl, EpType};
use ch32_metapac::usbhs::vals::{EndpointType as EpKind, EpRxResponse, EpTog, EpTxResponse, SpeedType, UsbToken};

use usbhs_port::{Access, Register, Task};

use super::{guard, lent, Instance, WAKERS};

/// The access before this one of the operation, where it was a reading that a write may follow: the register, its word
/// as the port has it.
#[derive(Clone, Copy)]
enum Before {
    Other,
    Ctrl(Ctrl, u32),
    Rx(u8, EpRxCtrl, u32),
    Tx(u8, EpTxCtrl, u32),
}

fn bits<const N: usize>(of: [bool; N]) -> u32 {
    of.iter().rev().fold(0, |word, &bit| word << 1 | bit as u32)
}

/// The other way: each field by the bit of its number.
macro_rules! set_bits {
    ($of:ident, $on:ident: $($set:ident $bit:literal),*) => {
        $($of.$set($on($bit));)*
    };
}

fn tog(t: EpTog) -> u32 {
    match t {
        EpTog::DATA0 => 0,
        EpTog::DATA1 => 1,
        EpTog::DATA2 => 2,
        EpTog::MDATA => 3,
    }
}

fn to_tog(word: u32) -> EpTog {
    match word >> 2 & 3 {
        0 => EpTog::DATA0,
        1 => EpTog::DATA1,
        2 => EpTog::DATA2,
        _ => EpTog::MDATA,
    }
}

/// Of an endpoint's control word in one direction: the port's word of the PAC's value, and the value to write for a
/// word. `before`: the value that was read just before, with its word; then only the fields that differ are set.
macro_rules! control_word {
    ($word:ident, $value:ident: $ctrl:ident, $response:ident $one:ident, $res:ident $set_res:ident,
        $tog:ident $set_tog:ident, $auto:ident $set_auto:ident) => {
        fn $word(v: $ctrl) -> u32 {
            let response = match v.$res() {
                $response::ACK => 0,
                $response::$one => 1,
                $response::NAK => 2,
                $response::STALL => 3,
            };
            response | tog(v.$tog()) << 2 | (v.$auto() as u32) << 4
        }

        fn $value(before: Option<($ctrl, u32)>, word: u32) -> $ctrl {
            let (mut v, changed) = before.map_or(($ctrl::default(), !0), |(v, read)| (v, word ^ read));
            if changed & 3 != 0 {
                v.$set_res(match word & 3 {
                    0 => $response::ACK,
                    1 => $response::$one,
                    2 => $response::NAK,
                    _ => $response::STALL,
                });
            }
            if changed & 0xC != 0 {
                v.$set_tog(to_tog(word));
            }
            if changed & 0x10 != 0 {
                v.$set_auto(word & 0x10 != 0);
            }
            v
        }
    };
}

control_word!(rx_word, rx_value: EpRxCtrl, EpRxResponse NYET, mask_uep_r_res set_mask_uep_r_res,
    mask_uep_r_tog set_mask_uep_r_tog, r_tog_auto set_r_tog_auto);
control_word!(tx_word, tx_value: EpTxCtrl, EpTxResponse _RESERVED_1, mask_uep_t_res set_mask_uep_t_res,
    mask_uep_t_tog set_mask_uep_t_tog, t_tog_auto set_t_tog_auto);

/// Sets the fields of `changed`.
fn set_ctrl(v: &mut Ctrl, word: u32, changed: u32) {
    let on = |bit: u32| word >> bit & 1 != 0;
    let set = |bit: u32| changed >> bit & 1 != 0;
    if set(0) {
        v.set_clr_all(on(0));
    }
    if set(1) {
        v.set_reset_sie(on(1));
    }
    if set(2) {
        v.set_int_busy(on(2));
    }
    if set(3) {
        v.set_dma_en(on(3));
    }
    if set(4) {
        v.set_speed_type(if on(4) { SpeedType::HIGHSPEED } else { SpeedType::FULLSPEED });
    }
    if set(5) {
        v.set_dev_pu_en(on(5));
    }
}

/// The chip, for one operation.
pub(super) struct Chip<T: Instance> {
    before: Before,
    _phantom: PhantomData<T>,
}

/// What an interrupt reads first, in the order in which the port asks for it.
pub(super) struct Entry {
    pub(super) frame: u32,
    pub(super) flags: u32,
    /// mis_st, int_st and rx_len, where a transfer is the first flag that is served.
    pub(super) transfer: Option<(u32, u32, u32)>,
}

/// The transfer flag; with it the flags that are served before it: bus reset, suspend, SOF of a host, overflow.
const TRANSFER: u32 = 2;
const UP_TO_TRANSFER: u32 = 0x1F;

impl<T: Instance> Chip<T> {
    pub(super) fn new() -> Self {
        Self { before: Before::Other, _phantom: PhantomData }
    }

    /// The interrupt's first readings.
    pub(super) fn entry(&mut self) -> Entry {
        let (frame, flags) = (self.read(Register::FrameNo, 0), self.read(Register::IntFg, 0));
        let transfer = flags & UP_TO_TRANSFER == TRANSFER;
        let three = |c: &mut Self| (c.read(Register::MisSt, 0), c.read(Register::IntSt, 0), c.read(Register::RxLen, 0));
        Entry { frame, flags, transfer: transfer.then(|| three(self)) }
    }
}

impl<T: Instance> Access for Chip<T> {
    fn wait(&mut self, microseconds: u8) {
        crate::internal::delay::block_for_us(microseconds.into());
    }

    fn callback(&mut self) {
        if let Some(f) = lent::with(|l| l.callback) {
            f();
        }
    }

    fn wake(&mut self, task: Task) {
        WAKERS[task.number()].wake();
    }

    #[inline]
    fn read(&mut self, register: Register, ep: u8) -> u32 {
        let (r, d) = (T::regs(), T::dregs());
        self.before = Before::Other;
        match register {
            Register::IntFg => {
                let f = r.int_fg().read();
                bits([f.bus_rst(), f.transfer(), f.suspend(), f.hst_sof(), f.fifo_ov(), f.setup_act()])
            }
            Register::IntSt => {
                let st = r.int_st().read();
                let token = match st.token() {
                    UsbToken::OUT => 0,
                    UsbToken::SOF => 1,
                    UsbToken::IN => 2,
                    UsbToken::SETUP => 3,
                };
                st.endp() as u32 & 15 | token << 4 | (st.tog_ok() as u32) << 6
            }
            Register::MisSt => {
                let m = r.mis_st().read();
                bits([m.sie_free(), m.suspend()])
            }
            Register::RxLen => r.rx_len().read() as u32,
            Register::FrameNo => d.frame_no().read().frame_no() as u32,
            Register::Ctrl => {
                let v = r.ctrl().read();
                // the speed stays as it is: the port writes back what it read
                let word = bits([v.clr_all(), v.reset_sie(), v.int_busy(), v.dma_en(), false, v.dev_pu_en()]);
                self.before = Before::Ctrl(v, word);
                word
            }
            Register::EpRxCtrl => {
                let v = d.ep_rx_ctrl(ep as usize).read();
                self.before = Before::Rx(ep, v, rx_word(v));
                rx_word(v)
            }
            Register::EpTxCtrl => {
                let v = d.ep_tx_ctrl(ep as usize).read();
                self.before = Before::Tx(ep, v, tx_word(v));
                tx_word(v)
            }
            // the port reads no other
            _ => 0,
        }
    }

    fn write(&mut self, register: Register, ep: u8, word: u32) {
        let (r, d, h) = (T::regs(), T::dregs(), T::hregs());
        let on = |bit: u32| word >> bit & 1 != 0;
        let n = ep as usize;
        match register {
            Register::IntFg => r.int_fg().write(|w| {
                set_bits!(w, on: set_bus_rst 0, set_transfer 1, set_suspend 2, set_hst_sof 3, set_fifo_ov 4,
                    set_setup_act 5);
            }),
            Register::Ctrl => match self.before {
                Before::Ctrl(mut v, read) => {
                    set_ctrl(&mut v, word, word ^ read);
                    r.ctrl().write_value(v);
                }
                _ => r.ctrl().write(|w| set_ctrl(w, word, !0)),
            },
            Register::IntEn => r.int_en().write(|w| {
                set_bits!(w, on: set_dev_nak 0, set_fifo_ov 1, set_setup_act 2, set_suspend 3, set_bus_rst 4,
                    set_transfer 5);
                // the port is told that there is a callback, as there may be one later
                w.set_sof_act(on(6) && lent::with(|l| l.callback.is_some() && l.guard.sofs()));
            }),
            Register::DevAd => r.dev_ad().write(|w| w.set_addr(word as u8)),
            Register::HostCtrl => h.ctrl().write(|w| w.set_phy_suspendm(on(0))),
            // bit e: IN e; bit 16 + e: OUT e, as the Rust takes it too
            Register::EpConfig => {
                d.ep_config().write_value(EpConfig(word as _));
                guard::written::<T>(register, word);
            }
            Register::EpType => {
                let mut v = EpType::default();
                let kind = |bit: usize| if word >> bit & 1 != 0 { EpKind::ISO } else { EpKind::NISO };
                for e in 1..16 {
                    v.set_t_type(e - 1, kind(e));
                    v.set_r_type(e - 1, kind(16 + e));
                }
                d.ep_type().write_value(v);
                guard::written::<T>(register, word);
            }
            Register::EpBufMod => d.ep_buf_mod().write_value(EpBufMod::default()),
            Register::Ep0Dma => d.ep0_dma().write_value(lent::base().wrapping_add(word)),
            Register::EpMaxLen => d.ep_max_len(n).write(|w| w.set_len(word as u16)),
            Register::EpTLen => d.ep_t_len(n).write(|w| w.set_len(word as u16)),
            Register::EpRxDma => d.ep_rx_dma(n - 1).write_value(lent::armed(ep, word).wrapping_add(word)),
            Register::EpTxDma => d.ep_tx_dma(n - 1).write_value(lent::base().wrapping_add(word)),
            Register::EpRxCtrl => {
                let before = if let Before::Rx(e, v, read) = self.before { (e == ep).then_some((v, read)) } else { None };
                d.ep_rx_ctrl(n).write_value(rx_value(before, word));
            }
            Register::EpTxCtrl => {
                let before = if let Before::Tx(e, v, read) = self.before { (e == ep).then_some((v, read)) } else { None };
                d.ep_tx_ctrl(n).write_value(tx_value(before, word));
            }
            // the port writes no other
            _ => {}
        }
        self.before = Before::Other;
    }
}
