//! `usbhs_port` once more, with changes to choose from: `build.rs` makes the copy.
#![no_std]

include!(concat!(env!("OUT_DIR"), "/root.rs"));
