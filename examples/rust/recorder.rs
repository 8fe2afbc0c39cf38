// SPDX-License-Identifier: MIT OR Apache-2.0
//! A whole device in Rust over ch32-hal's names: what a host streams on isochronous OUT 1 goes to a card with stamps
//! and losses, and isochronous IN 2 says how many packets are there. It is the device of firmware/ once more, without
//! embassy-usb and without an executor: the main loop polls one future and takes the packets.
//!
//! It compiles with the Rust driver and with the proved one (docs/ADOPTING.md) except for `guard_bus` and
//! `iso_out_take_stamped`, which only the second has. `board` is yours: buffers, card, sleep, console.
//! `tests/release/firmware` builds it from a release alone for RV32 and runs it on the emulator.
#![no_std]
#![no_main]

mod board;

use core::future::{poll_fn, Future};
use core::pin::pin;
use core::sync::atomic::{AtomicBool, AtomicU32, Ordering::Relaxed};
use core::task::{Context, Poll, RawWaker, RawWakerVTable, Waker};

use ch32_hal::peripherals::USBHS;
use ch32_hal::usbhs::{self, Driver};
use ch32_hal::Peri;
use embassy_usb_driver::{Bus as _, ControlPipe as _, Driver as _};
use embassy_usb_driver::{EndpointConfig, EndpointError, EndpointType, Event};
use usbhs_port::survey::{Recorder, RECORDER};

/// Buffers: 16 for the isochronous OUT, 2 for the isochronous IN, EP0's.
pub const BUFFERS: usize = 19;
pub const SIZE: usize = 64;
const SAMPLES_OUT: u8 = 1;
const STATUS_IN: u8 = 2;

type Usb = Driver<'static, USBHS, BUFFERS, SIZE>;
type Bus = <Usb as embassy_usb_driver::Driver<'static>>::Bus;
type Pipe = <Usb as embassy_usb_driver::Driver<'static>>::ControlPipe;

const DEVICE: [u8; 18] = [18, 1, 0, 2, 0xFF, 0, 0, 64, 0x09, 0x12, 1, 0, 0, 1, 1, 2, 3, 1];
#[rustfmt::skip]
const CONFIGURATION: [u8; 41] = [
    9, 2, 41, 0, 1, 1, 0, 0x80, 50, // one configuration, one interface, 100 mA
    9, 4, 0, 0, 0, 0xFF, 0, 0, 0, // alternate setting 0 takes no bus time
    9, 4, 0, 1, 2, 0xFF, 0, 0, 0, // 1 has both streams
    7, 5, SAMPLES_OUT, 1, 64, 0, 1, // isochronous OUT, each microframe
    7, 5, 0x80 | STATUS_IN, 1, 64, 0, 1, // isochronous IN
];
const STRINGS: [&str; 3] = ["Dichaloq", "USBHS recorder of sample stream", "RUST"];

// ---- the control pipe

/// A string's descriptor, and its length.
fn string(text: &str) -> ([u8; 66], usize) {
    let mut bytes = [0; 66];
    for (to, from) in bytes[2..].chunks_exact_mut(2).zip(text.bytes()) {
        to[0] = from;
    }
    let length = (2 + 2 * text.len()).min(bytes.len());
    (bytes[0], bytes[1]) = (length as u8, 3);
    (bytes, length)
}

/// Data IN in packets of 64 bytes, with an empty one where the host cannot know otherwise that it is the end.
async fn answer(pipe: &mut Pipe, bytes: &[u8], asked: usize) -> Result<(), EndpointError> {
    let bytes = &bytes[..bytes.len().min(asked)];
    let empty = bytes.is_empty() || (bytes.len() < asked && bytes.len() % SIZE == 0);
    let count = bytes.len().div_ceil(SIZE) + usize::from(empty);
    for n in 0..count {
        let from = (n * SIZE).min(bytes.len());
        let packet = &bytes[from..(from + SIZE).min(bytes.len())];
        pipe.data_in(packet, n == 0, n + 1 == count).await?;
    }
    Ok(())
}

/// What the host has chosen: configuration and alternate setting.
#[derive(Default)]
struct Chosen {
    configuration: u8,
    alternate: u8,
}

fn select(bus: &mut Bus, chosen: &mut Chosen, alternate: u8) {
    chosen.alternate = alternate;
    for address in [SAMPLES_OUT, 0x80 | STATUS_IN] {
        bus.endpoint_set_enabled(address.into(), false);
        if alternate == 1 {
            bus.endpoint_set_enabled(address.into(), true);
        }
    }
}

/// One control transfer (USB 2.0, 9.4).
async fn request(bus: &mut Bus, pipe: &mut Pipe, chosen: &mut Chosen, setup: [u8; 8]) {
    let [kind, request, low, high, index, _, asked_low, asked_high] = setup;
    let asked = usize::from(u16::from_le_bytes([asked_low, asked_high]));
    let done = match (kind, request) {
        (0x80, 6) => match (high, low) {
            (1, 0) => answer(pipe, &DEVICE, asked).await,
            (2, 0) => answer(pipe, &CONFIGURATION, asked).await,
            (3, 0) => answer(pipe, &[4, 3, 9, 4], asked).await,
            (3, n) => match STRINGS.get(usize::from(n) - 1) {
                Some(text) => {
                    let (bytes, length) = string(text);
                    answer(pipe, &bytes[..length], asked).await
                }
                None => return pipe.reject().await,
            },
            _ => return pipe.reject().await,
        },
        (0x80..=0x82, 0) => answer(pipe, &[0, 0], asked).await,
        (0x80, 8) => answer(pipe, &[chosen.configuration], asked).await,
        (0x81, 10) if chosen.configuration == 1 => answer(pipe, &[chosen.alternate], asked).await,
        (0x00, 5) => return pipe.accept_set_address(low).await,
        (0x00, 9) if low <= 1 => {
            chosen.configuration = low;
            select(bus, chosen, 0);
            return pipe.accept().await;
        }
        (0x01, 11) if chosen.configuration == 1 && index == 0 && low <= 1 => {
            select(bus, chosen, low);
            return pipe.accept().await;
        }
        _ => return pipe.reject().await,
    };
    // a transfer that the host gave up: the next setup packet waits
    let _: Result<(), EndpointError> = done;
}

enum Next {
    Bus(Event),
    Setup([u8; 8]),
}

/// The bus and the control pipe, as embassy-usb runs them: whichever comes first.
async fn device(mut bus: Bus, mut pipe: Pipe) {
    let mut chosen = Chosen::default();
    bus.enable().await;
    loop {
        let next = {
            let (mut event, mut setup) = (pin!(bus.poll()), pin!(pipe.setup()));
            poll_fn(|cx| match event.as_mut().poll(cx) {
                Poll::Ready(event) => Poll::Ready(Next::Bus(event)),
                Poll::Pending => setup.as_mut().poll(cx).map(Next::Setup),
            })
            .await
        };
        match next {
            Next::Setup(setup) => request(&mut bus, &mut pipe, &mut chosen, setup).await,
            Next::Bus(Event::Reset) => chosen = Chosen::default(),
            Next::Bus(Event::Suspend) => FINISH.store(true, Relaxed),
            Next::Bus(_) => {}
        }
    }
}

// ---- the card

static RECORDED: AtomicU32 = AtomicU32::new(0);
static FINISH: AtomicBool = AtomicBool::new(false);
/// A stamp goes before each packet that follows a loss so closely, and before every 64th.
const STAMPS_AFTER_LOSS: u32 = 16;
const PACKETS_A_STAMP: u32 = 64;

struct Card {
    recorder: Recorder,
    stopped: bool,
    survey: u32,
    overruns: u32,
    since_stamp: u32,
    after_loss: u32,
}

impl Card {
    fn begin(survey: u32) -> Option<Self> {
        let recorder = Recorder::begin(survey).ok()?;
        let mut card = Self { recorder, stopped: false, survey, overruns: 0, since_stamp: 0, after_loss: 1 };
        card.store();
        Some(card)
    }

    /// What the recorder asks for, in its order. A store that fails ends the recording.
    fn store(&mut self) {
        while let (false, Some((place, block))) = (self.stopped, self.recorder.to_store()) {
            if board::card_store(place, block) {
                self.recorder.stored();
            } else {
                self.stopped = true;
            }
        }
    }

    fn write(&mut self, endpoint: u8, bytes: &[u8]) -> bool {
        let taken = !self.stopped && self.recorder.record(endpoint, bytes, self.overruns).is_ok();
        self.store();
        taken && !self.stopped
    }

    /// A packet and, where one is due, the stamp before it.
    fn packet(&mut self, bytes: &[u8], stamp: u16) {
        let lost = usbhs::iso_out_overruns(SAMPLES_OUT.into());
        if lost != self.overruns {
            (self.overruns, self.after_loss) = (lost, STAMPS_AFTER_LOSS);
        }
        if self.after_loss > 0 || self.since_stamp == PACKETS_A_STAMP {
            let ([a, b, c, d], [e, f], [g, h, i, j]) =
                (self.survey.to_le_bytes(), stamp.to_le_bytes(), self.overruns.to_le_bytes());
            self.write(RECORDER, &[2, SAMPLES_OUT, a, b, c, d, e, f, g, h, i, j]);
            self.since_stamp = 0;
        }
        self.after_loss = self.after_loss.saturating_sub(1);
        if self.write(SAMPLES_OUT, bytes) {
            self.since_stamp += 1;
            RECORDED.store(RECORDED.load(Relaxed) + 1, Relaxed);
        }
    }

    fn finish(&mut self) {
        self.overruns = usbhs::iso_out_overruns(SAMPLES_OUT.into());
        if !self.stopped && self.recorder.finish(self.overruns).is_ok() {
            self.store();
        }
    }
}

/// The start-of-frame callback: what was recorded and what was lost goes out in the next microframe.
fn start_of_frame() {
    let ([a, b, c, d], [e, f, g, h]) =
        (RECORDED.load(Relaxed).to_le_bytes(), usbhs::iso_out_overruns(SAMPLES_OUT.into()).to_le_bytes());
    let _full = usbhs::iso_in_prime(STATUS_IN.into(), &[a, b, c, d, e, f, g, h]);
}

// ---- the main loop

static WOKEN: AtomicBool = AtomicBool::new(true);
static WAKER: RawWakerVTable = RawWakerVTable::new(
    |p| RawWaker::new(p, &WAKER),
    |_| WOKEN.store(true, Relaxed),
    |_| WOKEN.store(true, Relaxed),
    |_| {},
);

fn stream(address: u8) -> EndpointConfig {
    EndpointConfig {
        ep_type: EndpointType::Isochronous,
        addr: Some(address.into()),
        max_packet_size: 64,
        interval_ms: 1,
    }
}

#[no_mangle]
pub extern "C" fn main() -> i32 {
    usbhs::guard_bus(true);
    let (dp, dm) = board::pins();
    let mut driver = Driver::new(Peri::new(USBHS), board::Irqs, dp, dm, board::buffers());
    let (Ok(_out), Ok(_in)) =
        (driver.alloc_endpoint_out(&stream(SAMPLES_OUT)), driver.alloc_endpoint_in(&stream(0x80 | STATUS_IN)))
    else {
        return 1;
    };
    usbhs::set_sof_callback(start_of_frame);
    let (bus, pipe) = driver.start(64);
    let Some(mut card) = Card::begin(board::survey()) else { return 1 };
    board::interrupts_on();

    // SAFETY: the waker holds nothing
    let waker = unsafe { Waker::from_raw(RawWaker::new(core::ptr::null(), &WAKER)) };
    let (mut device, mut cx) = (pin!(device(bus, pipe)), Context::from_waker(&waker));
    loop {
        if WOKEN.swap(false, Relaxed) {
            let _never = device.as_mut().poll(&mut cx);
        }
        while usbhs::iso_out_take_stamped(SAMPLES_OUT.into(), |bytes, stamp| card.packet(bytes, stamp)).is_some() {}
        if FINISH.swap(false, Relaxed) {
            card.finish();
        }
        board::sleep(|| WOKEN.load(Relaxed), || card.finish());
    }
}
