// SPDX-License-Identifier: MIT OR Apache-2.0
//! As much of defmt as `#[derive(defmt::Format)]` needs to compile. It formats nothing.
#![no_std]

pub use defmt_macros::Format;

/// What the real one writes to.
pub struct Formatter<'a>(core::marker::PhantomData<&'a ()>);

/// The trait's shape.
pub trait Format {
    fn format(&self, fmt: Formatter<'_>);
}

macro_rules! plain {
    ($($t:ty)*) => {$(
        impl Format for $t {
            fn format(&self, _: Formatter<'_>) {}
        }
    )*};
}
plain!(bool u8 u16 u32 u64);

impl<T: Format, const N: usize> Format for [T; N] {
    fn format(&self, _: Formatter<'_>) {}
}
