//! The drop-in names nothing of std: read as it would be in ch32-hal.
#![no_std]

/// Nothing is asked here.
macro_rules! probe {
    () => {};
}

#[macro_use]
#[allow(unused_macros)]
#[path = "../../../original/src/macros.rs"]
mod macros;
#[path = "../../../original/src/hal.rs"]
mod hal;
#[allow(dead_code, private_interfaces, clippy::all)]
#[path = "../../../../docs/src/usb/mod.rs"]
pub mod usb;
#[deny(clippy::undocumented_unsafe_blocks)]
#[path = "../../../../rust/ch32_hal/usbhs/mod.rs"]
pub mod usbhs;

pub use hal::*;
