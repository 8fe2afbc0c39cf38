//! The drop-in (`rust/ch32_hal/usbhs`) over the oracle's shims, driven by the same files that drive the unchanged Rust.

#[macro_use]
#[allow(unused_macros)]
#[path = "../../original/src/macros.rs"]
mod macros;
#[macro_use]
mod probe;
#[path = "../../original/src/board.rs"]
mod board;
#[path = "../../original/src/hal.rs"]
mod hal;
#[allow(dead_code)]
#[path = "../../original/src/held.rs"]
mod held;
#[path = "../../original/src/rust.rs"]
mod rust;
#[allow(dead_code, private_interfaces, clippy::all)]
#[path = "../../../docs/src/usb/mod.rs"]
pub mod usb;
#[allow(dead_code, private_interfaces)]
#[path = "../../../rust/ch32_hal/usbhs/mod.rs"]
pub mod usbhs;

pub(crate) use hal::*;
pub mod compared;
pub mod live;
pub mod new;
pub use rust::Rust as DropIn;
