//! The Rust's objects for one buffer size, and the text that each call runs on them.

use core::future::Future;
use core::pin::pin;
use core::task::{Context, Poll, Waker};

use embassy_usb_driver::{
    Bus as _, ControlPipe as _, Driver as _, EndpointAddress, EndpointConfig, EndpointError, EndpointIn, EndpointOut,
    Event,
};
use oracle::{Call, Dir, Kind};
use seam::{Coroutine, Finish, Out};

use crate::board::{Global, Irqs, Pin0};
use crate::interrupt::typelevel::Handler;
use crate::peripherals::USBHS;
use crate::usb::EndpointDataBuffer;
use crate::usbhs::{self, control::ControlPipe, probe, Bus, Driver, InterruptHandler};
use crate::Peri;

type Side<const NR: usize, const SIZE: usize> = Driver<'static, USBHS, NR, SIZE>;
type EpOut<const NR: usize, const SIZE: usize> = <Side<NR, SIZE> as embassy_usb_driver::Driver<'static>>::EndpointOut;
type EpIn<const NR: usize, const SIZE: usize> = <Side<NR, SIZE> as embassy_usb_driver::Driver<'static>>::EndpointIn;

pub struct Held<const NR: usize, const SIZE: usize> {
    driver: Option<Side<NR, SIZE>>,
    bus: Option<Bus<'static, USBHS>>,
    control: Option<ControlPipe<'static, USBHS, SIZE>>,
    outs: [Option<EpOut<NR, SIZE>>; 16],
    ins: [Option<EpIn<NR, SIZE>>; 16],
    got: Vec<u8>,
}

/// `Held` of any size. A call's text starts on `on` and runs to its first suspension or its end.
pub trait Objects {
    fn start_up(&mut self, on: &mut Coroutine, buffers: *mut u8, count: usize) -> Out;
    fn start(&mut self, on: &mut Coroutine, call: &Call) -> Out;
    fn allocated(&self, ep: u8, dir: Dir) -> bool;
    /// What the last request received.
    fn got(&self) -> &[u8];
}

/// Is it one of the buffer sizes?
pub fn is_size(size: u32) -> bool {
    matches!(size, 8 | 16 | 32 | 64 | 512) || cfg!(feature = "wide") && size == 1024
}

/// The objects for buffers of this size, with room for `count` at least.
pub fn objects(size: u32) -> Box<dyn Objects> {
    match size {
        8 => Box::new(Held::<8192, 8>::new()),
        16 => Box::new(Held::<4096, 16>::new()),
        32 => Box::new(Held::<2048, 32>::new()),
        64 => Box::new(Held::<1024, 64>::new()),
        #[cfg(feature = "wide")]
        1024 => Box::new(Held::<64, 1024>::new()),
        _ => Box::new(Held::<128, 512>::new()),
    }
}

/// Sizes and counts for which there are arrays of their own length.
pub const EXACT: [(u32, u32); 2] = [(8, 41), (64, 24)];

/// `objects` over an array of its own length.
pub fn exact_objects(size: u32, count: u32) -> Option<Box<dyn Objects>> {
    Some(match (size, count) {
        (8, 41) => Box::new(Held::<41, 8>::new()),
        (64, 24) => Box::new(Held::<24, 64>::new()),
        _ => return None,
    })
}

fn address(ep: u8, dir: Dir) -> EndpointAddress {
    EndpointAddress::from_parts(ep as usize, dir)
}

fn refusal(e: EndpointError) -> Finish {
    match e {
        EndpointError::Disabled => Finish::Refused(9),
        EndpointError::BufferOverflow => Finish::Refused(10),
    }
}

/// Poll to the end; each pending poll suspends.
fn drive<F: Future>(request: F) -> F::Output {
    let mut request = pin!(request);
    let mut cx = Context::from_waker(Waker::noop());
    loop {
        match request.as_mut().poll(&mut cx) {
            Poll::Ready(r) => return r,
            Poll::Pending => seam::not_yet(),
        }
    }
}

/// Poll once.
fn once<F: Future>(f: F) -> Option<F::Output> {
    match pin!(f).poll(&mut Context::from_waker(Waker::noop())) {
        Poll::Ready(r) => Some(r),
        Poll::Pending => None,
    }
}

impl<const NR: usize, const SIZE: usize> Held<NR, SIZE> {
    fn new() -> Self {
        Self {
            driver: None,
            bus: None,
            control: None,
            outs: [const { None }; 16],
            ins: [const { None }; 16],
            got: vec![],
        }
    }

    fn new_driver(&mut self, buffers: *mut u8, count: usize) -> Finish {
        // SAFETY: NR buffers, zeroed at least once, lent for the run
        let array = unsafe { &mut *buffers.cast::<[EndpointDataBuffer<SIZE>; NR]>() };
        let mut driver = Driver::new(Peri::new(USBHS), Irqs, Peri::new(Pin0), Peri::new(Pin0), array);
        probe::use_up(&mut driver, count);
        self.driver = Some(driver);
        Finish::Value(0)
    }

    fn allocate(&mut self, ep_type: Kind, addr: Option<u8>, max_packet_size: u16, interval_ms: u8, dir: Dir) -> Finish {
        let config = EndpointConfig { ep_type, addr: addr.map(Into::into), max_packet_size, interval_ms };
        let driver = self.driver.as_mut().unwrap();
        let errors = seam::errors();
        let number = match dir {
            Dir::Out => driver.alloc_endpoint_out(&config).map(|e| {
                let n = embassy_usb_driver::Endpoint::info(&e).addr.index();
                self.outs[n] = Some(e);
                n
            }),
            Dir::In => driver.alloc_endpoint_in(&config).map(|e| {
                let n = embassy_usb_driver::Endpoint::info(&e).addr.index();
                self.ins[n] = Some(e);
                n
            }),
        };
        match number {
            Ok(n) => Finish::Value(n as u32),
            // the allocator of buffers says so by `error!`, that of numbers says nothing
            Err(_) => Finish::Refused(if seam::errors() == errors { 7 } else { 8 }),
        }
    }

    fn start_ep0(&mut self, maximum: u16) -> Finish {
        // SAFETY: the driver stays if this panics; nothing in it is dropped twice, as it drops nothing
        let driver = unsafe { core::ptr::read(self.driver.as_ref().unwrap()) };
        let (bus, control) = driver.start(maximum);
        self.driver = None;
        self.bus = Some(bus);
        self.control = Some(control);
        Finish::Value(0)
    }

    fn bus_poll(&mut self) -> Finish {
        Finish::Value(match once(self.bus.as_mut().unwrap().poll()) {
            None => 0,
            Some(Event::PowerDetected) => 1,
            Some(Event::Reset) => 2,
            Some(Event::Suspend) => 3,
            Some(Event::Resume) => 4,
            Some(Event::PowerRemoved) => 5,
        })
    }

    fn read(&mut self, ep: usize, length: usize) -> Finish {
        let mut slice = vec![0; length];
        match drive(self.outs[ep].as_mut().unwrap().read(&mut slice)) {
            Ok(n) => self.received(n, slice),
            Err(e) => refusal(e),
        }
    }

    fn data_out(&mut self, length: usize, first: bool) -> Finish {
        let mut slice = vec![0; length];
        match drive(self.control.as_mut().unwrap().data_out(&mut slice, first, false)) {
            Ok(n) => self.received(n, slice),
            Err(e) => refusal(e),
        }
    }

    fn received(&mut self, n: usize, mut slice: Vec<u8>) -> Finish {
        slice.truncate(n);
        self.got = slice;
        Finish::Length(n as u32)
    }

    fn write(&mut self, ep: usize, data: &[u8]) -> Finish {
        drive(self.ins[ep].as_mut().unwrap().write(data)).map_or_else(refusal, |()| Finish::Length(0))
    }

    fn data_in(&mut self, data: &[u8], first: bool, last: bool) -> Finish {
        drive(self.control.as_mut().unwrap().data_in(data, first, last)).map_or_else(refusal, |()| Finish::Length(0))
    }

    fn setup(&mut self) -> Finish {
        Finish::Setup(drive(self.control.as_mut().unwrap().setup()))
    }
}

impl<const NR: usize, const SIZE: usize> Objects for Held<NR, SIZE> {
    fn start_up(&mut self, on: &mut Coroutine, buffers: *mut u8, count: usize) -> Out {
        let this: *mut Self = self;
        // SAFETY: here and below: boxed, and in use by one coroutine at a time
        // an array of its own length begins with the buffer, a longer one ends with it
        let skip = NR.saturating_sub(count) * SIZE;
        on.start(false, move || unsafe { (*this).new_driver(buffers.sub(skip), count) })
    }

    fn start(&mut self, on: &mut Coroutine, call: &Call) -> Out {
        let this: *mut Self = self;
        macro_rules! text {
            (|$held:ident| $text:expr) => {
                on.start(false, move || {
                    let $held = unsafe { &mut *this };
                    $text
                })
            };
            (begin |$held:ident| $text:expr) => {
                on.start(true, move || {
                    let $held = unsafe { &mut *this };
                    $text
                })
            };
        }
        macro_rules! unit {
            ($text:expr) => {{
                $text;
                Finish::Value(0)
            }};
        }
        match *call {
            Call::Allocate { kind, address, maximum, interval, dir } => {
                text!(|h| h.allocate(kind, address, maximum, interval, dir))
            }
            Call::Start(maximum) => text!(|h| h.start_ep0(maximum)),
            Call::Interrupt => {
                text!(|_h| unit!(unsafe { <InterruptHandler<USBHS> as Handler<Global>>::on_interrupt() }))
            }
            Call::BusPoll => text!(|h| h.bus_poll()),
            Call::BusEnable => text!(|h| unit!(once(h.bus.as_mut().unwrap().enable()).unwrap())),
            Call::BusDisable => text!(|h| unit!(once(h.bus.as_mut().unwrap().disable()).unwrap())),
            Call::SetEnabled { ep, dir, on } => {
                text!(|h| unit!(h.bus.as_mut().unwrap().endpoint_set_enabled(address(ep, dir), on)))
            }
            Call::SetStalled { ep, dir, on } => {
                text!(|h| unit!(h.bus.as_mut().unwrap().endpoint_set_stalled(address(ep, dir), on)))
            }
            Call::IsStalled { ep, dir } => {
                text!(|h| Finish::Value(h.bus.as_mut().unwrap().endpoint_is_stalled(address(ep, dir)) as u32))
            }
            Call::Advance(ep) => text!(|_h| unit!(usbhs::iso_in_advance(ep as usize))),
            Call::Microframe => text!(|_h| Finish::Value(usbhs::microframe() as u32)),
            Call::Reject => text!(|h| unit!(once(h.control.as_mut().unwrap().reject()).unwrap())),
            Call::Read { ep, length } => text!(begin | h | h.read(ep as usize, length as usize)),
            Call::Write { ep, ref data } => {
                let data = data.clone();
                text!(begin | h | h.write(ep as usize, &data))
            }
            Call::Setup => text!(begin | h | h.setup()),
            Call::DataOut { length, first } => text!(begin | h | h.data_out(length as usize, first)),
            Call::DataIn { ref data, first, last } => {
                let data = data.clone();
                text!(begin | h | h.data_in(&data, first, last))
            }
            Call::Accept => text!(
                begin | h | {
                    drive(h.control.as_mut().unwrap().accept());
                    Finish::Nothing
                }
            ),
            Call::AcceptSetAddress(a) => text!(
                begin | h | {
                    drive(h.control.as_mut().unwrap().accept_set_address(a));
                    Finish::Nothing
                }
            ),
            Call::Open(ep) => text!(|_h| match usbhs::iso_out_take(ep as usize, seam::shown) {
                Some(()) => Finish::Value(0),
                None => Finish::Nothing,
            }),
            _ => unreachable!("{call:?} has no text of its own"),
        }
    }

    fn allocated(&self, ep: u8, dir: Dir) -> bool {
        match dir {
            Dir::Out => self.outs[ep as usize].is_some(),
            Dir::In => self.ins[ep as usize].is_some(),
        }
    }

    fn got(&self) -> &[u8] {
        &self.got
    }
}

#[path = "bench.rs"]
pub mod bench;
