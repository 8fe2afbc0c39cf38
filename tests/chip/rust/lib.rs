//! The four files, unchanged, for RV32, over the comparison's shims; and the calls that handler.c makes on them. With
//! `--cfg dropin` the proved port's drop-in is in their place.
#![no_std]
#![allow(static_mut_refs)]

macro_rules! probe {
    () => {};
}
#[macro_use]
#[path = "../../../oracle/original/src/macros.rs"]
mod macros;
#[path = "../../../oracle/original/src/board.rs"]
mod board;
#[path = "../../../oracle/original/src/hal.rs"]
mod hal;
#[allow(dead_code, private_interfaces)]
#[path = "../../../docs/src/usb/mod.rs"]
pub mod usb;
#[allow(dead_code, private_interfaces)]
#[cfg_attr(not(dropin), path = "../../../docs/src/usbhs/mod.rs")]
#[cfg_attr(dropin, path = "../../../rust/ch32_hal/usbhs/mod.rs")]
pub mod usbhs;

use core::future::Future;
use core::pin::pin;
use core::ptr::addr_of_mut;
use core::task::{Context, Poll, RawWaker, RawWakerVTable, Waker};

use embassy_usb_driver::{Bus as _, ControlPipe as _, Driver as _, EndpointIn as _, EndpointOut as _};
use embassy_usb_driver::{Direction, EndpointAddress, EndpointConfig, EndpointType};
pub(crate) use hal::*;

use crate::board::{Global, Irqs, Pin0};
use crate::interrupt::typelevel::Handler;
use crate::peripherals::USBHS;
use crate::usb::EndpointDataBuffer;
use crate::usbhs::control::ControlPipe;
use crate::usbhs::{Bus, Driver, InterruptHandler};

const SIZE: usize = 64;
/// EP0's and 16 slots for each of 15 isochronous OUT endpoints, 2 for each of 15 isochronous IN.
const COUNT: usize = 1 + 15 * 16 + 15 * 2;

type Usbhs = Driver<'static, USBHS, COUNT, SIZE>;
type Out = <Usbhs as embassy_usb_driver::Driver<'static>>::EndpointOut;
type In = <Usbhs as embassy_usb_driver::Driver<'static>>::EndpointIn;

static mut SLOTS: [EndpointDataBuffer<SIZE>; COUNT] = unsafe { core::mem::zeroed() };
static mut DRIVER: Option<Usbhs> = None;
static mut BUS: Option<Bus<'static, USBHS>> = None;
static mut CONTROL: Option<ControlPipe<'static, USBHS, SIZE>> = None;
static mut OUTS: [Option<Out>; 16] = [const { None }; 16];
static mut INS: [Option<In>; 16] = [const { None }; 16];

static WAKER: RawWakerVTable = RawWakerVTable::new(|p| RawWaker::new(p, &WAKER), |_| {}, |_| {}, |_| {});

/// One poll of a future.
fn polled<F: Future>(future: F) -> Option<F::Output> {
    // SAFETY: the waker does nothing
    let waker = unsafe { Waker::from_raw(RawWaker::new(core::ptr::null(), &WAKER)) };
    match pin!(future).poll(&mut Context::from_waker(&waker)) {
        Poll::Ready(r) => Some(r),
        Poll::Pending => None,
    }
}

fn direction(input: bool) -> Direction {
    if input {
        Direction::In
    } else {
        Direction::Out
    }
}

fn address(ep: u32, input: bool) -> EndpointAddress {
    EndpointAddress::from_parts(ep as usize, direction(input))
}

// ---- for handler.c; one hart, so statics are this thread's

#[no_mangle]
pub unsafe extern "C" fn rust_start_up() {
    let slots = &mut *addr_of_mut!(SLOTS);
    DRIVER = Some(Driver::new(Peri::new(USBHS), Irqs, Peri::new(Pin0), Peri::new(Pin0), slots));
}

#[no_mangle]
pub unsafe extern "C" fn rust_allocate(kind: u32, ep: u32, input: bool, most: u32, interval: u32) {
    let ep_type = match kind {
        0 => EndpointType::Control,
        1 => EndpointType::Isochronous,
        2 => EndpointType::Bulk,
        _ => EndpointType::Interrupt,
    };
    let addr = Some(address(ep, input));
    let config = EndpointConfig { ep_type, addr, max_packet_size: most as u16, interval_ms: interval as u8 };
    let driver = DRIVER.as_mut().unwrap();
    if input {
        INS[ep as usize] = driver.alloc_endpoint_in(&config).ok();
    } else {
        OUTS[ep as usize] = driver.alloc_endpoint_out(&config).ok();
    }
}

#[no_mangle]
pub unsafe extern "C" fn rust_start() {
    let (bus, control) = DRIVER.take().unwrap().start(64);
    BUS = Some(bus);
    CONTROL = Some(control);
}

#[no_mangle]
pub unsafe extern "C" fn rust_set_enabled(ep: u32, input: bool, on: bool) {
    BUS.as_mut().unwrap().endpoint_set_enabled(address(ep, input), on)
}

#[no_mangle]
pub unsafe extern "C" fn rust_interrupt() {
    <InterruptHandler<USBHS> as Handler<Global>>::on_interrupt()
}

#[no_mangle]
pub unsafe extern "C" fn rust_take(ep: u32) -> i32 {
    usbhs::iso_out_take(ep as usize, |p| p.len() as i32).unwrap_or(-1)
}

#[no_mangle]
pub unsafe extern "C" fn rust_queue(ep: u32, bytes: *const u8, length: usize) -> bool {
    usbhs::iso_in_prime(ep as usize, core::slice::from_raw_parts(bytes, length))
}

#[no_mangle]
pub unsafe extern "C" fn rust_callback(callback: extern "C" fn()) {
    static mut CALLBACK: Option<extern "C" fn()> = None;
    CALLBACK = Some(callback);
    usbhs::set_sof_callback(|| unsafe { CALLBACK.unwrap()() })
}

// ---- not called: linked so that the flash of every call is counted

#[no_mangle]
pub unsafe extern "C" fn rust_others(n: u32, bytes: *mut u8, length: usize) -> u32 {
    let slice = core::slice::from_raw_parts_mut(bytes, length);
    let control = CONTROL.as_mut().unwrap();
    let bus = BUS.as_mut().unwrap();
    let ep = n as usize % 16;
    match n >> 4 {
        0 => polled(OUTS[ep].as_mut().unwrap().read(slice)).map_or(0, |r| r.map_or(1, |n| n as u32)),
        1 => polled(INS[ep].as_mut().unwrap().write(slice)).map_or(0, |r| r.is_ok() as u32),
        2 => polled(control.setup()).map_or(0, |bytes| bytes[0] as u32),
        3 => polled(control.data_out(slice, n & 1 != 0, n & 2 != 0)).map_or(0, |r| r.map_or(1, |n| n as u32)),
        4 => polled(control.data_in(slice, n & 1 != 0, n & 2 != 0)).map_or(0, |r| r.is_ok() as u32),
        5 => polled(control.accept()).is_some() as u32,
        6 => polled(control.accept_set_address(n as u8)).is_some() as u32,
        7 => polled(control.reject()).is_some() as u32,
        8 => polled(bus.enable()).is_some() as u32,
        9 => polled(bus.poll()).map_or(0, |e| e as u32),
        10 => bus.endpoint_is_stalled(address(n % 16, n & 1 != 0)) as u32,
        11 => {
            bus.endpoint_set_stalled(address(n % 16, n & 1 != 0), n & 2 != 0);
            0
        }
        12 => {
            usbhs::iso_in_advance(ep);
            usbhs::iso_in_set_paced(ep, n & 1 != 0);
            0
        }
        13 => usbhs::iso_out_overruns(ep),
        14 => usbhs::iso_in_pending(ep) as u32,
        15 => usbhs::endpoint_enabled(ep, direction(n & 1 != 0)) as u32,
        _ => usbhs::microframe() as u32,
    }
}

#[panic_handler]
fn panic(_: &core::panic::PanicInfo) -> ! {
    extern "C" {
        fn rust_panics() -> !;
    }
    // SAFETY: ends the emulator
    unsafe { rust_panics() }
}
