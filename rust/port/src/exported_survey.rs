//! The calls that the archive `survey_c` exports, as `usbhs_survey.h` declares them: `tests/header.rs` compares.

use crate::exported::Length;

/// `USBHS_BLOCK_LEN`.
pub const BLOCK_LEN: usize = 512;

/// An optional channel. The layout is that of `struct usbhs_channel`.
#[repr(C)]
#[derive(Clone, Copy, Debug, Default, PartialEq, Eq)]
pub struct Channel {
    /// Its endpoint's maximum.
    pub maximum: u16,
    /// In byte-times of a microframe.
    pub charge: u16,
    /// Becomes 1 if the channel is chosen, 0 if not.
    pub chosen: u8,
}

type Bytes = *const u8;
type Numbers = *mut u32;
type At = *mut Length;
type U = u32;

extern "C" {
    pub fn usbhs_best_set(l: *mut Channel, n: Length, t: *const u16, b: U, t: Numbers, f: Numbers, k: Numbers) -> u64;
    pub fn usbhs_between_visits(a: U, b: U, c: U, d: U, least: Numbers, greatest: Numbers) -> u64;
    pub fn usbhs_data_crc(bytes: Bytes, n: Length) -> U;
    pub fn usbhs_card_new(writer: Numbers);
    pub fn usbhs_card_write(writer: Numbers, block: *mut u8, n: Length, ep: U, data: Bytes, m: Length) -> u64;
    pub fn usbhs_card_finish(writer: *const U, block: *mut u8, n: Length) -> u64;
    pub fn usbhs_recorder_begin(recorder: Numbers, room: *mut u8, n: Length, survey: U) -> u64;
    pub fn usbhs_record(r: Numbers, room: *mut u8, n: Length, ep: U, data: Bytes, m: Length, overruns: U) -> u64;
    pub fn usbhs_recorder_finish(recorder: Numbers, room: *mut u8, n: Length, overruns: U) -> u64;
    pub fn usbhs_recorder_stored(recorder: Numbers) -> u64;
    pub fn usbhs_card_start(stream: Bytes, n: Length, place: At) -> u64;
    pub fn usbhs_card_next(stream: Bytes, n: Length, place: At, ep: Numbers, room: *mut u8, m: Length) -> u64;
    pub fn usbhs_card_read(stream: Bytes, n: Length, at: At, room: *mut u8, m: Length, count: At, used: At) -> u64;
    pub fn usbhs_write_descriptor(bytes: Bytes, n: Length, room: *mut u8, m: Length) -> u64;
}
