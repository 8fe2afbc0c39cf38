//! What the drop-in has beside the Rust's names: descriptor allocation, stamped takes, bus time, a guarded bus.

use core::task::{Context, Poll, Waker};
use std::pin::pin;

use embassy_usb_driver::{
    Bus as _, ControlPipe as _, Direction, Driver as _, Endpoint as _, EndpointAddress, EndpointIn as _, EndpointInfo,
    EndpointOut as _, EndpointType,
};
use seam::{reg, Mapping, ARENA};
use usbhs_port::Refusal;

use crate::board::{Global, Irqs, Pin0};
use crate::interrupt::typelevel::Handler;
use crate::live::config;
use crate::peripherals::USBHS;
use crate::usb::EndpointDataBuffer;
use crate::usbhs::{self, Driver, InterruptHandler};
use crate::Peri;

const BUFFERS: usize = 24;
const SIZE: usize = 64;

/// An isochronous OUT 1 of 64 bytes, an isochronous IN 2 of 48, a bulk IN 3 of 64: one interface.
const DESCRIPTOR: [u8; 39] = [
    9, 2, 39, 0, 1, 1, 0, 0x80, 50, // the configuration
    9, 4, 0, 0, 3, 0xFF, 0, 0, 0, // the interface
    7, 5, 0x01, 1, 64, 0, 1, // OUT 1
    7, 5, 0x82, 1, 48, 0, 1, // IN 2
    7, 5, 0x83, 2, 64, 0, 0, // IN 3
];

/// `f` on a fresh driver over registers that are plain memory.
fn fresh(f: impl FnOnce(Driver<'_, USBHS, BUFFERS, SIZE>)) {
    let _lock = seam::lock();
    usbhs::probe::power_on();
    seam::cheap();
    critical_section::at_exit(None);
    for r in 0..reg::COUNT {
        for ep in 0..16 {
            seam::write(r as u8, ep, 0);
            seam::set(r as u8, ep, 0);
        }
    }
    seam::set(reg::MIS_ST, 0, 1);
    let memory = Mapping::new(ARENA);
    // SAFETY: zeroed, lent for the test
    let buffers = unsafe { &mut *memory.ptr().cast::<[EndpointDataBuffer<SIZE>; BUFFERS]>() };
    f(Driver::new(Peri::new(USBHS), Irqs, Peri::new(Pin0), Peri::new(Pin0), buffers));
    seam::stepped();
}

fn info(address: u8, ep_type: EndpointType, max_packet_size: u16) -> EndpointInfo {
    EndpointInfo { addr: EndpointAddress::from(address), ep_type, max_packet_size, interval_ms: 1, max_burst: 0 }
}

fn once<F: core::future::Future>(f: F) -> Option<F::Output> {
    match pin!(f).poll(&mut Context::from_waker(Waker::noop())) {
        Poll::Ready(r) => Some(r),
        Poll::Pending => None,
    }
}

/// A packet from the host on OUT 1, and its interrupt in this microframe.
fn packet(microframe: u16, bytes: &[u8]) {
    let at = seam::written(reg::EP_RX_DMA, 1) as usize as *mut u8;
    // SAFETY: an address that the driver handed out, of a buffer of SIZE bytes
    unsafe { core::slice::from_raw_parts_mut(at, bytes.len()) }.copy_from_slice(bytes);
    let frame = microframe >> 3 | (microframe & 7) << 13;
    for (r, v) in
        [(reg::INT_FG, 2), (reg::INT_ST, 0x41), (reg::RX_LEN, bytes.len() as u32), (reg::FRAME_NO, frame.into())]
    {
        seam::set(r, 0, v);
    }
    // SAFETY: after EP0's start
    unsafe { <InterruptHandler<USBHS> as Handler<Global>>::on_interrupt() };
}

/// Requests Three and Four: a descriptor's endpoints at once, or none; a preview before; the endpoints themselves.
fn descriptors() {
    fresh(|mut driver| {
        let preview = driver.preview(&DESCRIPTOR).unwrap();
        assert_eq!((preview.given, preview.buffers, preview.refusal), (3, 16 + 2 + 1, None));
        assert_eq!(preview.numbers[..4], [1, 2, 3, 0]);
        assert_eq!(driver.alloc_all(&DESCRIPTOR[..38]), Err(Refusal::Descriptor));
        assert_eq!(driver.alloc_all(&DESCRIPTOR), Ok(3));
        assert_eq!(driver.alloc_all(&DESCRIPTOR), Err(Refusal::Address), "the numbers are taken");
        let mut other = driver.allocated_out(info(0x05, EndpointType::Bulk, 8));
        let mut bulk = driver.allocated_in(info(0x83, EndpointType::Bulk, 64));
        let iso = driver.allocated_in(info(0x82, EndpointType::Isochronous, 48));
        assert_eq!((iso.info().addr.index(), iso.info().max_packet_size), (2, 48));
        let (mut bus, _control) = driver.start(64);
        assert!(!usbhs::iso_in_fill(2, |_| unreachable!()), "not enabled");
        for address in [0x82, 0x83] {
            bus.endpoint_set_enabled(address.into(), true);
        }
        assert!(usbhs::endpoint_enabled(3, Direction::In) && !usbhs::endpoint_enabled(1, Direction::Out));
        assert!(once(bulk.write(&[7; 64])).is_none_or(|r| r.is_ok()));
        assert!(once(bulk.write(&[7; 65])).is_some_and(|r| r.is_err()));
        assert!(once(other.read(&mut [0; 8])).is_some_and(|r| r.is_err()), "never allocated");
        assert!(usbhs::iso_in_fill(2, |slot| slot.len()) && usbhs::iso_in_pending(2) == 1);
        assert!(!usbhs::iso_in_fill(3, |_| unreachable!()), "not isochronous");
    });
}

/// Request One: a packet has the microframe index of the interrupt that admitted it.
fn stamps() {
    fresh(|mut driver| {
        driver.alloc_all(&DESCRIPTOR).unwrap();
        let (mut bus, _control) = driver.start(64);
        bus.endpoint_set_enabled(0x01.into(), true);
        for (microframe, byte) in [(0x1234, 3), (0x3FFF, 4), (0, 5)] {
            packet(microframe, &[byte; 12]);
        }
        for (microframe, byte) in [(0x1234, 3), (0x3FFF, 4), (0, 5)] {
            let taken = usbhs::iso_out_take_stamped(1, |bytes, stamp| (bytes.to_vec(), stamp));
            assert_eq!(taken, Some((vec![byte; 12], microframe)));
        }
        assert_eq!(usbhs::iso_out_take_stamped(1, |_, _| ()), None);
        assert_eq!(usbhs::iso_out_take_stamped(0, |_, _| ()), None);
        assert_eq!(usbhs::iso_out_take_stamped(16, |_, _| ()), None);
    });
}

/// Request Seven: what an enabled endpoint is charged. That an enabling is turned down, and counted, is in the random
/// runs.
fn bus_time() {
    fresh(|mut driver| {
        driver.alloc_endpoint_in(&config(EndpointType::Isochronous, 0x84)).unwrap();
        let (mut bus, _control) = driver.start(64);
        assert_eq!(usbhs::bus_time_in_use(), 0);
        bus.endpoint_set_enabled(0x84.into(), true);
        assert_eq!((usbhs::bus_time_in_use(), usbhs::enablings_turned_down()), (64 + 38, 0));
        bus.endpoint_set_enabled(0x84.into(), false);
        assert_eq!(usbhs::bus_time_in_use(), 0);
    });
}

/// A start of frame in this microframe.
fn sof(microframe: u16) {
    let frame = microframe >> 3 | (microframe & 7) << 13;
    for (r, v) in [(reg::INT_FG, 2), (reg::INT_ST, 0x10), (reg::FRAME_NO, frame.into())] {
        seam::set(r, 0, v);
    }
    // SAFETY: after EP0's start
    unsafe { <InterruptHandler<USBHS> as Handler<Global>>::on_interrupt() };
}

/// Pacing that comes before EP0's start, or from the callback, is put off and then made: starts of frame alone complete
/// no packet. Without pacing they do.
fn put_off() {
    type Pace = (&'static str, fn(), fn());
    let pace: [Pace; 3] = [
        ("before", || usbhs::iso_in_set_paced(2, true), || ()),
        ("from the callback", || usbhs::set_sof_callback(|| usbhs::iso_in_set_paced(2, true)), || sof(7)),
        ("never", || (), || ()),
    ];
    for (when, before, after) in pace {
        fresh(|mut driver| {
            driver.alloc_all(&DESCRIPTOR).unwrap();
            before();
            let (mut bus, _control) = driver.start(64);
            after();
            bus.endpoint_set_enabled(0x82.into(), true);
            assert!(usbhs::iso_in_prime(2, &[1; 48]) && usbhs::iso_in_prime(2, &[2; 48]));
            if when == "before" {
                // advances of an endpoint that is not paced do nothing: one loads a packet, the next completes it
                for microframe in [1, 2] {
                    seam::set(reg::FRAME_NO, 0, microframe << 13);
                    usbhs::iso_in_advance(2);
                }
                assert_eq!(usbhs::iso_in_pending(2), 1);
                assert!(usbhs::iso_in_prime(2, &[3; 48]));
            }
            (8..16).for_each(sof);
            assert_eq!(usbhs::iso_in_pending(2), if when == "never" { 0 } else { 2 }, "paced {when}");
        });
    }
}

/// With the bus guarded SOFs interrupt only while an endpoint is enabled, from the end of that control transfer.
fn held_sofs() {
    let interrupts = || seam::written(reg::INT_EN, 0) >> 6 & 1 != 0;
    for guarded in [false, true] {
        fresh(|mut driver| {
            usbhs::guard_bus(guarded);
            usbhs::set_sof_callback(|| ());
            assert_eq!(interrupts(), !guarded);
            driver.alloc_all(&DESCRIPTOR).unwrap();
            let (mut bus, mut control) = driver.start(64);
            assert!(once(control.setup()).is_none());
            seam::set(reg::INT_FG, 0, 0x20);
            // SAFETY: after EP0's start
            unsafe { <InterruptHandler<USBHS> as Handler<Global>>::on_interrupt() };
            assert!(once(control.setup()).is_some());
            bus.endpoint_set_enabled(0x01.into(), true);
            assert_eq!(interrupts(), !guarded, "within the transfer");
            assert!(once(control.setup()).is_none());
            assert!(interrupts(), "after it");
            bus.endpoint_set_enabled(0x01.into(), false);
            assert_eq!(interrupts(), !guarded, "no endpoint is enabled");
        });
    }
}

/// The chip clears a flag that is written.
fn release() {
    if seam::written(reg::INT_FG, 0) == 2 {
        seam::set(reg::INT_FG, 0, 0);
    }
}

/// A packet lands between a SOF's interrupt's reading of INT_ST and its release: nobody looks, unless the bus is
/// guarded. The release is made once.
fn looked_after() {
    for guarded in [false, true] {
        fresh(|mut driver| {
            usbhs::guard_bus(guarded);
            driver.alloc_all(&DESCRIPTOR).unwrap();
            let (mut bus, _control) = driver.start(64);
            bus.endpoint_set_enabled(0x01.into(), true);
            let at = seam::written(reg::EP_RX_DMA, 1) as usize as *mut u8;
            // SAFETY: an address that the driver handed out, of a buffer of SIZE bytes
            unsafe { core::slice::from_raw_parts_mut(at, 12) }.fill(9);
            seam::write(reg::INT_FG, 0, 0);
            critical_section::at_exit(Some(release));
            sof(8);
            critical_section::at_exit(None);
            let taken = usbhs::iso_out_take(1, |bytes| bytes.to_vec());
            assert_eq!(taken, guarded.then(|| vec![9; 12]));
            sof(9);
            assert_eq!(usbhs::iso_out_take(1, |_| ()), None, "each packet once");
        });
    }
}

/// All of them; panics where one is not as it should be.
pub fn all() {
    held_sofs();
    looked_after();
    descriptors();
    stamps();
    bus_time();
    put_off();
}
