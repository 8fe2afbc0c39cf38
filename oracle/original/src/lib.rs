//! The four files, unchanged, over the shims, and the calls on them.

#[macro_use]
#[path = "macros.rs"]
mod macros;
#[macro_use]
#[path = "probe.rs"]
mod probe;
#[path = "board.rs"]
mod board;
#[path = "hal.rs"]
mod hal;
#[path = "held.rs"]
mod held;
#[path = "rust.rs"]
mod rust;
#[allow(dead_code, private_interfaces, clippy::all)]
#[path = "../../../docs/src/usb/mod.rs"]
pub mod usb;
#[allow(dead_code, private_interfaces, clippy::all)]
#[path = "../../../docs/src/usbhs/mod.rs"]
pub mod usbhs;

pub(crate) use hal::*;
pub use held::{bench, EXACT};
pub use rust::Rust;
