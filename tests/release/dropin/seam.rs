// SPDX-License-Identifier: MIT OR Apache-2.0
//! The registers of the comparison's shims over the emulator's model of the block (firmware/emulator/block.c), which
//! takes offsets into the buffers where the chip takes addresses.
#![no_std]

pub mod reg {
    include!("reg.rs");
}

extern "C" {
    static usb_slots: u8;
    fn register_read(number: u32, endpoint: u32) -> u32;
    fn register_write(number: u32, endpoint: u32, value: u32);
}

pub fn read(reg: u8, ep: u8) -> u32 {
    // SAFETY: a number that the model has
    unsafe { register_read(reg.into(), ep.into()) }
}

pub fn write(reg: u8, ep: u8, value: u32) {
    let base = core::ptr::addr_of!(usb_slots) as u32;
    let is_address = matches!(reg, reg::EP0_DMA | reg::EP_RX_DMA | reg::EP_TX_DMA);
    // SAFETY: as above
    unsafe { register_write(reg.into(), ep.into(), if is_address { value.wrapping_sub(base) } else { value }) }
}

pub fn error() {}
pub fn wait_us(_us: u32) {}
