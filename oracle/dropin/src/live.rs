//! Firmware over ch32-hal's names: tasks that are polled only when they are woken, and a host whose interrupts fall
//! wherever a critical section ends. The same text is compiled over the drop-in and, in `rust_live`, over the unchanged
//! Rust.
//!
//! Tasks: the bus; the control pipe; reads of a bulk OUT (1) and of an isochronous OUT (2). The packets of another
//! isochronous OUT (3) are taken in place, by the start-of-frame callback or by a timer whose interrupt falls also
//! into the USB interrupt. The callback, which in some runs is set only after EP0's start, in some after the bus reset,
//! queues or fills on an isochronous IN (4), which in every other run is paced: paced before EP0's start, and advanced
//! from the callback. In every fifth run host and timer come wherever they can. What each task gets must be what the
//! host sent, in order, and none may wait for ever.

#[path = "host.rs"]
mod host;

use core::cell::{RefCell, UnsafeCell};
use core::future::Future;
use core::pin::Pin;
use core::task::{Context, Poll};
use std::collections::VecDeque;
use std::rc::Rc;
use std::sync::atomic::{AtomicBool, Ordering::Relaxed};
use std::sync::Arc;
use std::task::Wake;

use embassy_usb_driver::{
    Bus as _, ControlPipe as _, Direction, Driver as _, EndpointAddress, EndpointConfig, EndpointOut, EndpointType,
    Event,
};
use oracle::Rng;
use seam::{reg, Mapping, ARENA};

use crate::board::{Global, Irqs, Pin0};
use crate::interrupt::typelevel::Handler;
use crate::peripherals::USBHS;
use crate::usb::EndpointDataBuffer;
use crate::usbhs::{self, Driver, InterruptHandler};
use crate::Peri;

use host::{memory, Chip, Host, TRANSFER};

/// EP0, a bulk OUT, two isochronous rings, an isochronous IN.
const BUFFERS: usize = 36;
const SIZE: usize = 64;

struct Shared(UnsafeCell<Option<Chip>>);
// SAFETY: one thread
unsafe impl Sync for Shared {}
static CHIP: Shared = Shared(UnsafeCell::new(None));

/// No reference is kept, and `f` does not come back here.
fn chip<R>(f: impl FnOnce(&mut Chip) -> R) -> R {
    f(unsafe { (*CHIP.0.get()).as_mut().unwrap() })
}

/// Some event of the host, if one can be: its interrupt is served at once.
fn serve() -> bool {
    let raised = chip(|c| {
        c.settle();
        let ready: Vec<usize> = (0..3).filter(|&p| c.ready(p)).collect();
        if !c.on || c.in_interrupt || ready.is_empty() {
            return None;
        }
        let pipe = ready[c.rng.below(ready.len() as u32) as usize];
        if !c.perform(pipe) {
            return Some(false);
        }
        c.in_interrupt = true;
        c.interrupts += 1;
        Some(true)
    });
    if raised == Some(true) {
        // SAFETY: after EP0's start
        unsafe { <InterruptHandler<USBHS> as Handler<Global>>::on_interrupt() };
        chip(|c| {
            c.settle();
            c.in_interrupt = false;
        });
    }
    raised.is_some()
}

/// Where a critical section ends: now and then the host is quick, or the timer's interrupt falls.
fn exit() {
    let (quick, timer) = chip(|c| {
        c.settle();
        let mut now = || c.every || c.rng.below(3) == 0;
        let (first, second) = (now(), now());
        let quick = c.on && !c.in_interrupt && !c.in_timer && first;
        let timer = c.on && c.timer && !c.in_timer && second;
        c.in_timer |= timer;
        (quick, timer)
    });
    if timer {
        take();
        chip(|c| c.in_timer = false);
    }
    if quick {
        serve();
    }
}

/// Takes what waits on endpoint 3; it is its one reader. It ends where something is wrong: a packet that comes again
/// and again would have no end.
fn take() {
    while let Some(packet) = usbhs::iso_out_take(3, |p| p.to_vec()) {
        let wrong = chip(|c| {
            c.taken.push(packet);
            c.got(3);
            c.midst += c.in_interrupt as usize;
            c.wrong.is_some()
        });
        if wrong {
            return;
        }
    }
}

/// The timer's interrupt: does anything wait that it should take? What it then does not take nobody will.
fn timer() -> bool {
    let waits = |c: &mut Chip| if c.timer && c.wrong.is_none() { c.waiting[3] } else { 0 };
    let due = chip(|c| {
        c.in_timer = waits(c) != 0;
        waits(c)
    });
    if due == 0 {
        return false;
    }
    take();
    chip(|c| {
        c.in_timer = false;
        if waits(c) >= due {
            c.wrong = Some(format!("{due} packets wait for the timer, which finds none"));
        }
    });
    true
}

fn sof() {
    if !chip(|c| c.timer) {
        take();
    }
    let now = usbhs::microframe();
    let (paced, queued) = chip(|c| {
        if now != c.index {
            c.wrong = Some(format!("microframe {now} for {}", c.index));
        }
        (c.paced, c.queued)
    });
    let fill = |slot: &mut [u8]| {
        assert_eq!(slot.len(), SIZE);
        slot[..5].fill(queued);
        5
    };
    assert!(!usbhs::iso_in_fill(1, |_| unreachable!()) && !usbhs::iso_in_fill(5, |_| unreachable!()));
    if if queued % 2 == 0 { usbhs::iso_in_prime(4, &[queued; 5]) } else { usbhs::iso_in_fill(4, fill) } {
        chip(|c| c.queued += 1);
    }
    if paced {
        usbhs::iso_in_advance(4);
    }
}

struct Flag(AtomicBool);

impl Wake for Flag {
    fn wake(self: Arc<Self>) {
        self.0.store(true, Relaxed);
    }
}

type Task = Pin<Box<dyn Future<Output = ()>>>;

/// Polls what is woken; answers who is left when nothing can happen any more. Each poll brings a waker of its own, and
/// only the last one's counts.
fn execute(tasks: &mut [(&'static str, Option<Task>)]) -> Vec<&'static str> {
    let mut flags: Vec<Arc<Flag>> = tasks.iter().map(|_| Arc::new(Flag(AtomicBool::new(true)))).collect();
    loop {
        let mut idle = true;
        for ((_, task), flag) in tasks.iter_mut().zip(&mut flags) {
            if task.is_some() && flag.0.load(Relaxed) {
                idle = false;
                *flag = Arc::new(Flag(AtomicBool::new(false)));
                let waker = flag.clone().into();
                if let Poll::Ready(()) = task.as_mut().unwrap().as_mut().poll(&mut Context::from_waker(&waker)) {
                    *task = None;
                }
            }
        }
        // the timer comes at last
        if idle && !serve() && !timer() {
            return tasks.iter().filter(|t| t.1.is_some()).map(|t| t.0).collect();
        }
    }
}

pub fn config(ep_type: EndpointType, ep: u8) -> EndpointConfig {
    EndpointConfig { ep_type, addr: Some(ep.into()), max_packet_size: SIZE as u16, interval_ms: 1 }
}

/// What a task got.
type Got = Rc<RefCell<Vec<Vec<u8>>>>;

/// The task of an OUT: twenty reads, and what is to be done after each.
async fn reads(mut out: impl EndpointOut, got: Got, after: impl Fn()) {
    out.wait_enabled().await;
    for _ in 0..20 {
        let mut buf = [0; SIZE];
        let n = out.read(&mut buf).await.unwrap();
        got.borrow_mut().push(buf[..n].to_vec());
        after();
    }
}

/// One run; answers how many interrupts fell, and how many packets were taken in the midst of one by the timer.
pub fn run(seed: u64) -> Result<(usize, usize), String> {
    let _lock = seam::lock();
    usbhs::probe::power_on();
    seam::cheap();
    for r in 0..reg::COUNT {
        for ep in 0..16 {
            seam::write(r as u8, ep, 0);
            seam::set(r as u8, ep, 0);
        }
    }
    seam::set(reg::MIS_ST, 0, 1);
    let mut rng = Rng::new(seed);
    let mut bytes = |at_least: u32| -> Vec<u8> {
        let n = at_least + rng.below(SIZE as u32 + 1 - at_least);
        // no mark's first byte, and a packet that is not the mark at its end
        (0..n).map(|_| rng.below(0x50) as u8).collect()
    };

    // the host's plan
    let mut pipes = [const { VecDeque::new() }; 3];
    let (mut bulk, mut iso, mut taken) = (vec![], vec![], vec![]);
    pipes[0].push_back(Host::Reset);
    let (descriptor, data) = (bytes(1), bytes(1));
    for _ in 0..4 {
        pipes[0].push_back(Host::Setup([0, 5, 9, 0, 0, 0, 0, 0]));
        pipes[0].push_back(Host::In0(vec![]));
        pipes[0].push_back(Host::Address(9));
        pipes[0].push_back(Host::Setup([0x40, 1, 0, 0, 0, 0, data.len() as u8, 0]));
        pipes[0].push_back(Host::Out0(data.clone()));
        pipes[0].push_back(Host::In0(vec![]));
        // last: its closing OUT has no setup packet behind it that would wake the task as well
        pipes[0].push_back(Host::Setup([0x80, 6, 0, 1, 0, 0, 64, 0]));
        pipes[0].push_back(Host::In0(descriptor.clone()));
        pipes[0].push_back(Host::Out0(vec![]));
    }
    for _ in 0..20 {
        bulk.push(bytes(0));
        pipes[1].push_back(Host::Bulk(bulk.last().unwrap().clone()));
        iso.push(bytes(1));
        taken.push(bytes(1));
        pipes[2].push_back(Host::Iso(2, iso.last().unwrap().clone()));
        pipes[2].push_back(Host::Iso(3, taken.last().unwrap().clone()));
        pipes[2].push_back(Host::Sof);
    }
    let chip_rng = Rng::new(seed ^ 0x9E37_79B9_7F4A_7C15);
    // SAFETY: no reference is kept
    unsafe {
        *CHIP.0.get() = Some(Chip {
            on: false,
            in_interrupt: false,
            rng: chip_rng,
            pipes,
            index: 0,
            reset: false,
            seen: [[0; 16]; 2],
            interrupts: 0,
            wrong: None,
            taken: vec![],
            paced: seed % 2 == 1,
            queued: 0,
            sent: vec![],
            timer: seed % 4 >= 2,
            in_timer: false,
            waiting: [0; 16],
            midst: 0,
            every: seed.is_multiple_of(5),
        });
    }
    critical_section::at_exit(Some(exit));

    // the firmware
    let memory = Mapping::new(ARENA);
    // SAFETY: zeroed, lent for the run
    let buffers = unsafe { &mut *memory.ptr().cast::<[EndpointDataBuffer<SIZE>; BUFFERS]>() };
    if !seed.is_multiple_of(3) {
        usbhs::set_sof_callback(sof);
    }
    let mut driver = Driver::new(Peri::new(USBHS), Irqs, Peri::new(Pin0), Peri::new(Pin0), buffers);
    let bulk_out = driver.alloc_endpoint_out(&config(EndpointType::Bulk, 1)).unwrap();
    let iso_out = driver.alloc_endpoint_out(&config(EndpointType::Isochronous, 2)).unwrap();
    let _taken_out = driver.alloc_endpoint_out(&config(EndpointType::Isochronous, 3)).unwrap();
    let mut iso_in = config(EndpointType::Isochronous, 0x84);
    iso_in.max_packet_size = 8;
    let _iso_in = driver.alloc_endpoint_in(&iso_in).unwrap();
    if seed % 2 == 1 {
        usbhs::iso_in_set_paced(4, true);
    }
    let (mut bus, mut control) = driver.start(64);
    let last = seed % 6 == 3;
    if seed.is_multiple_of(3) && !last {
        usbhs::set_sof_callback(sof);
    }
    chip(|c| c.on = true);

    let got: [Got; 3] = Default::default();
    let [got_bulk, got_iso, got_data] = [got[0].clone(), got[1].clone(), got[2].clone()];
    let answer = descriptor.clone();
    let mut tasks: Vec<(&str, Option<Task>)> = vec![
        (
            "the bus",
            Some(Box::pin(async move {
                assert_eq!(bus.poll().await, Event::PowerDetected);
                bus.enable().await;
                assert_eq!(bus.poll().await, Event::Reset);
                for ep in 1..=3 {
                    bus.endpoint_set_enabled(EndpointAddress::from_parts(ep, Direction::Out), true);
                }
                bus.endpoint_set_enabled(EndpointAddress::from_parts(4, Direction::In), true);
                if last {
                    usbhs::set_sof_callback(sof);
                }
            })),
        ),
        (
            "the control pipe",
            Some(Box::pin(async move {
                for _ in 0..12 {
                    let setup = control.setup().await;
                    match (setup[0], setup[1]) {
                        // a host that is quick with its next setup packet ends the stage; the task hears of that, as in
                        // the Rust
                        (0x80, 6) => drop(control.data_in(&answer, true, true).await),
                        (0, 5) => control.accept_set_address(setup[2]).await,
                        _ => {
                            let mut buf = vec![0; setup[6] as usize];
                            let n = control.data_out(&mut buf, true, true).await.unwrap();
                            got_data.borrow_mut().push(buf[..n].to_vec());
                            control.accept().await;
                        }
                    }
                }
            })),
        ),
        ("the bulk OUT", Some(Box::pin(reads(bulk_out, got_bulk, || ())))),
        ("the isochronous OUT", Some(Box::pin(reads(iso_out, got_iso, || chip(|c| c.got(2)))))),
    ];
    let left = execute(&mut tasks);
    drop(tasks);
    critical_section::at_exit(None);
    take();
    seam::stepped();
    let (interrupts, wrong, got_taken) = chip(|c| (c.interrupts, c.wrong.take(), core::mem::take(&mut c.taken)));
    let midst = chip(|c| if c.timer { c.midst } else { 0 });
    if let Some(w) = wrong {
        return Err(format!("seed {seed}: {w}"));
    }
    if !left.is_empty() {
        return Err(format!(
            "seed {seed}: for ever waits {left:?}; the host's next: {:?}",
            chip(|c| c.pipes.each_ref().map(|p| format!("{:?}", p.front())))
        ));
    }
    let sent = chip(|c| core::mem::take(&mut c.sent));
    if sent.len() < 17 || !sent.iter().enumerate().all(|(i, &b)| b as usize == i) {
        return Err(format!("seed {seed}: the isochronous IN sent {sent:?}"));
    }
    let overruns: u32 = (1..16).map(usbhs::iso_out_overruns).sum();
    let same = *got[0].borrow() == bulk
        && *got[1].borrow() == iso
        && got_taken == taken
        && got[2].borrow().iter().all(|d| *d == data);
    if !same || overruns != 0 || got[2].borrow().len() != 4 {
        return Err(format!(
            "seed {seed}: not what was sent ({overruns} overruns): {:?} for {:?}",
            got_taken.len(),
            taken.len()
        ));
    }
    Ok((interrupts, midst))
}

/// Isochronous packets through interrupt and take, with registers that are plain memory: nanoseconds for each.
pub fn nanoseconds(packets: u32) -> f64 {
    let _lock = seam::lock();
    usbhs::probe::power_on();
    seam::cheap();
    critical_section::at_exit(None);
    let memory = Mapping::new(ARENA);
    // SAFETY: zeroed, lent for the run
    let buffers = unsafe { &mut *memory.ptr().cast::<[EndpointDataBuffer<SIZE>; BUFFERS]>() };
    let mut driver = Driver::new(Peri::new(USBHS), Irqs, Peri::new(Pin0), Peri::new(Pin0), buffers);
    let _iso = driver.alloc_endpoint_out(&config(EndpointType::Isochronous, 1)).unwrap();
    let (mut bus, _control) = driver.start(64);
    bus.endpoint_set_enabled(EndpointAddress::from_parts(1, Direction::Out), true);
    for (r, v) in [(reg::INT_FG, TRANSFER), (reg::MIS_ST, 1), (reg::INT_ST, 0x41), (reg::RX_LEN, SIZE as u32)] {
        seam::set(r, 0, v);
    }
    let (begin, mut total) = (std::time::Instant::now(), 0);
    for k in 0..packets {
        self::memory(seam::written(reg::EP_RX_DMA, 1), SIZE).fill(k as u8 & 0x3F);
        // SAFETY: after EP0's start
        unsafe { <InterruptHandler<USBHS> as Handler<Global>>::on_interrupt() };
        total += usbhs::iso_out_take(1, |p| p.len()).expect("a packet");
    }
    assert_eq!(total, packets as usize * SIZE);
    let each = begin.elapsed().as_nanos() as f64 / packets as f64;
    seam::stepped();
    each
}
