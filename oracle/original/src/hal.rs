//! The `crate::` items that the four files name. Pins and clocks are not ported: they do nothing.

use core::marker::PhantomData;
use core::ops::Deref;

pub use ch32_metapac as pac;

pub struct Peri<'d, T>(T, PhantomData<&'d mut T>);

impl<T> Peri<'_, T> {
    pub fn new(of: T) -> Self {
        Self(of, PhantomData)
    }
}

impl<T> Deref for Peri<'_, T> {
    type Target = T;

    fn deref(&self) -> &T {
        &self.0
    }
}

pub trait PeripheralType {}

pub mod peripheral {
    pub trait RccPeripheral {
        fn enable_and_reset() {}
    }
}

#[allow(clippy::upper_case_acronyms)]
pub mod peripherals {
    pub struct USBHS;

    impl super::PeripheralType for USBHS {}
    impl super::peripheral::RccPeripheral for USBHS {}
}

pub mod gpio {
    pub enum AFType {
        OutputPushPull,
    }

    pub enum Speed {
        High,
    }

    pub trait Pin {
        fn set_as_af_output(&self, _af: AFType, _speed: Speed) {}
    }
}

pub mod interrupt {
    pub mod typelevel {
        pub trait Interrupt {
            fn unpend() {}
            /// # Safety
            /// None needed: interrupts fall where the oracle lets them.
            unsafe fn enable() {}
            fn disable() {}
        }

        pub trait Handler<I: Interrupt> {
            /// # Safety
            /// As the handler says.
            unsafe fn on_interrupt();
        }

        /// # Safety
        /// None needed.
        pub unsafe trait Binding<I: Interrupt, H: Handler<I>> {}
    }
}

pub mod _generated {
    pub mod peripheral_interrupts {
        #[allow(non_snake_case, clippy::upper_case_acronyms)]
        pub mod USBHS {
            pub struct GLOBAL;
            pub struct WAKEUP;

            impl crate::interrupt::typelevel::Interrupt for GLOBAL {}
            impl crate::interrupt::typelevel::Interrupt for WAKEUP {}
        }
    }
}

pub mod internal {
    pub mod delay {
        pub fn block_for_us(us: u32) {
            seam::wait_us(us);
        }
    }
}
