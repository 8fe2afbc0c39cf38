//! The macros that the four files call, and the drop-in. `pin_trait!` is called at the end of usbhs/mod.rs: its expansion
//! for the second pin also calls `probe!` there.

macro_rules! error {
    ($($arg:tt)*) => {
        seam::error()
    };
}

macro_rules! trace {
    ($format:literal $(, $arg:expr)*) => {
        { $(let _ = &$arg;)* }
    };
}

macro_rules! foreach_peripheral {
    ($($pat:tt => $code:tt;)*) => {
        macro_rules! __foreach_peripheral_inner {
            $(($pat) => $code;)*
        }
        __foreach_peripheral_inner!((usbhs, USBHS));
    };
}

macro_rules! pin_trait {
    (DpPin, $instance:path) => {
        pin_trait!(@trait DpPin, $instance);
        probe!();
    };
    (DmPin, $instance:path) => {
        pin_trait!(@trait DmPin, $instance);
    };
    (@trait $signal:ident, $instance:path) => {
        pub trait $signal<T: $instance, const REMAP: u8>: crate::gpio::Pin {}
    };
}
