//! USBHS device mode peripheral driver, over the proved port: the names of ch32-hal's `usbhs`, each over a call of
//! `usbhs_port`.
//!
//! An operation is begun, its accesses are made by `registers`, and it ends with the tasks to wake. What this layer
//! decides itself, unproved (rust/README.md has the test of each):
//!
//! 1. **`modify`.** A write right after a reading of the same ctrl, ep_rx_ctrl or ep_tx_ctrl changes, in the value
//!    read, the fields in which the two words differ; any other write starts from zero.
//! 2. **The callback may come late.** The port is always told that there is one; sof_act stays out of int_en until
//!    [`set_sof_callback`], and callbacks before it are dropped.
//! 3. **Masking.** A task's operation is one critical section, as the driver has one operation under way at a time. The
//!    interrupt's is one for each call, so that packets may be taken and queued from interrupts above it. It first
//!    reads what the chip shows, which the next token overwrites, and brings that by the calls for several readings.
//! 4. **From the callback** take, prime and pending pass as they are; [`microframe`] reads the register itself; pacing
//!    and advance are put off to the operation's end, and pacing before EP0's start to its end.
//! 5. **Wake-ups** are asked for in the same section as the end, then made in their order.
//! 6. **Wakers** are registered before each poll; a poll that falls into an operation wakes its task again.
//! 7. **Errors.** Row 10 is a buffer overflow, every other refusal of a request "disabled", as in the Rust. An enabling
//!    without bus time is counted ([`enablings_turned_down`]) and logged; the endpoint stays disabled.
//! 8. **`iso_in_fill`** runs its closure only for an enabled isochronous IN with room.
//! 9. **[`guard_bus`]**, off at first: SOF interrupts only while endpoints are enabled, a look at the slots after each
//!    interrupt.

use core::marker::PhantomData;
use core::sync::atomic::{AtomicU32, Ordering};
use core::task::{Context, Poll};

use control::ControlPipe;
use embassy_sync::waitqueue::AtomicWaker;
use embassy_usb_driver::{
    Direction, EndpointAddress, EndpointAllocError, EndpointError, EndpointInfo, EndpointType, Event, Unsupported,
};
use endpoint::Endpoint;
use usbhs_port::{Answer, Port, Preview, Refusal, Register, Transfer};

use crate::gpio::{AFType, Speed};
use crate::interrupt::typelevel::Interrupt;
use crate::usb::{Dir, EndpointDataBuffer, In, Out};
use crate::{interrupt, Peri, PeripheralType};

pub mod control;
mod endpoint;
mod guard;
mod iso;
mod lent;
mod registers;

pub use guard::guard_bus;
pub use iso::{
    endpoint_enabled, iso_in_advance, iso_in_fill, iso_in_pending, iso_in_prime, iso_in_register_waker,
    iso_in_set_paced, iso_out_overruns, iso_out_take, iso_out_take_stamped, microframe, set_sof_callback,
};
use lent::{call, Free, Masked};

const MAX_NR_EP: usize = 16;
const EP_MAX_PACKET_SIZE: u16 = 64;

/// Packet buffers per isochronous OUT endpoint (15 packets can wait for the task).
pub const ISO_OUT_SLOTS: usize = 16;
/// Packets queued per isochronous IN endpoint.
pub const ISO_IN_SLOTS: usize = 2;

/// As the port's wake-ups: 0 to 15 IN, 16 to 31 OUT, 32 the bus.
static WAKERS: [AtomicWaker; 33] = [const { AtomicWaker::new() }; 33];
const BUS: usize = 32;

fn waker(addr: EndpointAddress) -> &'static AtomicWaker {
    match addr.direction() {
        Direction::In => &WAKERS[addr.index()],
        Direction::Out => &WAKERS[16 + addr.index()],
    }
}

/// Enablings refused for want of bus time.
static TURNED_DOWN: AtomicU32 = AtomicU32::new(0);

fn dir(direction: Direction) -> usbhs_port::Direction {
    match direction {
        Direction::In => usbhs_port::Direction::In,
        Direction::Out => usbhs_port::Direction::Out,
    }
}

fn length(buf: &[u8]) -> u32 {
    u32::try_from(buf.len()).unwrap_or(u32::MAX)
}

/// The accesses that a call handed out, to its end; for a section that masks the call and these.
fn run<T: Instance>(begun: Answer) -> Answer {
    usbhs_port::run(&mut Masked, &mut registers::Chip::<T>::new(), |_| begun)
}

/// A task's operation, masked as a whole.
fn operate<T: Instance>(begin: impl FnOnce(&mut Port<'_>) -> Answer) -> Answer {
    critical_section::with(|_| {
        let answer = run::<T>(call(begin));
        iso::deferred();
        answer
    })
}

/// A request's begin.
fn request<T: Instance>(begin: impl FnOnce(&mut Port<'_>) -> Answer) -> Result<u16, EndpointError> {
    operate::<T>(begin).ended().map_err(error)
}

/// What the free functions ask of this peripheral.
fn free<T: Instance>(what: Free) -> Answer {
    match what {
        Free::Microframe => critical_section::with(|_| run::<T>(call(|p| p.begin_microframe()))),
        Free::Advance(ep) => critical_section::with(|_| run::<T>(call(|p| p.begin_advance(ep)))),
        Free::Frame => {
            let frame = T::dregs().frame_no().read().frame_no();
            Answer::End { result: (frame & 0x7FF) << 3 | frame >> 13, wakes: 0 }
        }
        Free::Sof => {
            guard::let_sofs::<T>();
            Answer::End { result: 0, wakes: 0 }
        }
    }
}

/// A poll's answer.
fn polled(answer: Answer, cx: &Context<'_>) -> Poll<Result<usize, EndpointError>> {
    match answer {
        Answer::NotYet => Poll::Pending,
        Answer::Done(length) => Poll::Ready(Ok(length.into())),
        // a new address is written
        Answer::End { .. } => Poll::Ready(Ok(0)),
        // a task above the interrupt comes again
        Answer::Refused(Refusal::UnderWay) => {
            cx.waker().wake_by_ref();
            Poll::Pending
        }
        Answer::Refused(refusal) => Poll::Ready(Err(error(refusal))),
        // no poll answers so
        _ => Poll::Ready(Err(EndpointError::Disabled)),
    }
}

fn error(refusal: Refusal) -> EndpointError {
    match refusal {
        Refusal::Length => EndpointError::BufferOverflow,
        _ => EndpointError::Disabled,
    }
}

/// Enablings that the port refused, as the bus time in use would have passed 6,000 byte-times. The Rust has none.
pub fn enablings_turned_down() -> u32 {
    TURNED_DOWN.load(Ordering::Relaxed)
}

/// The bus time in use, in byte-times of each microframe. The Rust has none.
pub fn bus_time_in_use() -> u32 {
    lent::with(|l| l.time.in_use())
}

pub struct InterruptHandler<T: Instance> {
    _phantom: PhantomData<T>,
}

impl<T: Instance> interrupt::typelevel::Handler<T::Interrupt> for InterruptHandler<T> {
    unsafe fn on_interrupt() {
        let mut chip = registers::Chip::<T>::new();
        let read = chip.entry();
        let _ = usbhs_port::run(&mut Masked, &mut chip, |p| match (p.interrupt(read.frame, read.flags), read.transfer) {
            (Answer::Read { register: Register::MisSt, .. }, Some((mis, st, len))) => p.go_on_transfer(mis, st, len),
            (answer, _) => answer,
        });
        guard::look_after_interrupt::<T>();
        iso::deferred();
    }
}

pub struct WakeupInterruptHandler<T: Instance> {
    _phantom: PhantomData<T>,
}

impl<T: Instance> interrupt::typelevel::Handler<T::WakeupInterrupt> for WakeupInterruptHandler<T> {
    unsafe fn on_interrupt() {
        // not used by this driver (resume shows up through the SUSPEND flag)
        T::WakeupInterrupt::disable();
    }
}

pub struct Driver<'d, T: Instance, const NR_EP: usize, const SIZE: usize> {
    phantom: PhantomData<(&'d T, &'d mut [EndpointDataBuffer<SIZE>; NR_EP])>,
}

impl<'d, T: Instance, const NR_EP: usize, const SIZE: usize> Driver<'d, T, NR_EP, SIZE> {
    /// `ep_buffer`: one buffer for EP0 and each bulk / interrupt endpoint, plus the
    /// isochronous rings ([`ISO_OUT_SLOTS`] / [`ISO_IN_SLOTS`] buffers each).
    pub fn new(
        _peri: Peri<'d, T>,
        _irqs: impl interrupt::typelevel::Binding<T::Interrupt, InterruptHandler<T>>
            + interrupt::typelevel::Binding<T::WakeupInterrupt, WakeupInterruptHandler<T>>
            + 'd,
        dp: Peri<'d, impl DpPin<T, 0>>,
        dm: Peri<'d, impl DmPin<T, 0>>,
        ep_buffer: &'d mut [EndpointDataBuffer<SIZE>; NR_EP],
    ) -> Self {
        const { assert!(matches!(SIZE, 8 | 16 | 32 | 64 | 512 | 1024) && NR_EP != 0 && NR_EP * SIZE <= 65_536) };

        dp.set_as_af_output(AFType::OutputPushPull, Speed::High);
        dm.set_as_af_output(AFType::OutputPushPull, Speed::High);

        T::enable_and_reset();

        lent::with(|l| l.lend_slots(ep_buffer.as_mut_ptr().cast(), NR_EP * SIZE, SIZE));
        let started = operate::<T>(|p| p.start_up(SIZE as u32, NR_EP as u32, true));
        debug_assert!(started.ended().is_ok());
        iso::forget();
        lent::with(|l| l.free = Some(free::<T>));
        Self { phantom: PhantomData }
    }

    fn alloc_endpoint<D: Dir>(
        &mut self,
        config: &embassy_usb_driver::EndpointConfig,
        direction: Direction,
    ) -> Result<Endpoint<'d, T, D, SIZE>, EndpointAllocError> {
        let transfer = match config.ep_type {
            EndpointType::Control => Transfer::Control,
            EndpointType::Isochronous => Transfer::Isochronous,
            EndpointType::Bulk => Transfer::Bulk,
            EndpointType::Interrupt => Transfer::Interrupt,
        };
        let address = config.addr.map(|a| a.index() as u8 | (dir(a.direction()) as u8) << 7);
        let (maximum, interval) = (config.max_packet_size, config.interval_ms);
        match operate::<T>(|p| p.allocate(transfer, address, maximum, interval, dir(direction))).ended() {
            Ok(number) => Ok(self.allocated(EndpointInfo {
                addr: EndpointAddress::from_parts(number.into(), direction),
                ep_type: config.ep_type,
                max_packet_size: config.max_packet_size,
                interval_ms: config.interval_ms,
                max_burst: 0,
            })),
            Err(refusal) => {
                assert!(refusal != Refusal::Maximum, "max_packet_size {} exceeds buffer size {}", maximum, SIZE);
                if refusal == Refusal::Buffers {
                    error!("out of endpoint buffers");
                }
                Err(EndpointAllocError)
            }
        }
    }

    fn allocated<D: Dir>(&mut self, info: EndpointInfo) -> Endpoint<'d, T, D, SIZE> {
        if info.ep_type == EndpointType::Isochronous && info.addr.direction() == Direction::In {
            iso::is_iso_in(info.addr.index());
        }
        Endpoint::new(info)
    }

    /// Allocates all endpoints of a configuration descriptor, or none (request Three): how many there are. The
    /// endpoints themselves are then [`Driver::allocated_out`] and [`Driver::allocated_in`]. The Rust has none.
    pub fn alloc_all(&mut self, descriptor: &[u8]) -> Result<u16, Refusal> {
        operate::<T>(|p| p.allocate_all(descriptor)).ended()
    }

    /// What allocating each endpoint of a configuration descriptor would give, up to the first refusal (request Four);
    /// nothing is allocated. The Rust has none.
    pub fn preview(&self, descriptor: &[u8]) -> Result<Preview, Refusal> {
        call(|p| p.preview(descriptor))
    }

    /// An OUT endpoint that [`Driver::alloc_all`] allocated; one that it did not allocate answers "disabled".
    pub fn allocated_out(&mut self, info: EndpointInfo) -> Endpoint<'d, T, Out, SIZE> {
        self.allocated(info)
    }

    /// An IN endpoint that [`Driver::alloc_all`] allocated; one that it did not allocate answers "disabled".
    pub fn allocated_in(&mut self, info: EndpointInfo) -> Endpoint<'d, T, In, SIZE> {
        self.allocated(info)
    }
}

impl<'d, T: Instance, const NR_EP: usize, const SIZE: usize> embassy_usb_driver::Driver<'d>
    for Driver<'d, T, NR_EP, SIZE>
{
    type EndpointOut = Endpoint<'d, T, Out, SIZE>;
    type EndpointIn = Endpoint<'d, T, In, SIZE>;
    type ControlPipe = ControlPipe<'d, T, SIZE>;
    type Bus = Bus<'d, T>;

    fn alloc_endpoint_out(
        &mut self,
        config: &embassy_usb_driver::EndpointConfig,
    ) -> Result<Self::EndpointOut, EndpointAllocError> {
        self.alloc_endpoint(config, Direction::Out)
    }

    fn alloc_endpoint_in(
        &mut self,
        config: &embassy_usb_driver::EndpointConfig,
    ) -> Result<Self::EndpointIn, EndpointAllocError> {
        self.alloc_endpoint(config, Direction::In)
    }

    fn start(self, control_max_packet_size: u16) -> (Self::Bus, Self::ControlPipe) {
        match operate::<T>(|p| p.start(control_max_packet_size)).ended() {
            Ok(_) => {}
            Err(Refusal::Buffers) => {
                error!("out of endpoint buffers");
                panic!("no buffer for EP0");
            }
            Err(refusal) => panic!("EP0's start is refused with {}", refusal.row()),
        }

        critical_section::with(|_| {
            T::Interrupt::unpend();
            // SAFETY: the handler is bound, and the driver is started
            unsafe { T::Interrupt::enable() };
        });

        (Bus { _phantom: PhantomData }, ControlPipe::new())
    }
}

pub struct Bus<'d, T: Instance> {
    _phantom: PhantomData<&'d mut T>,
}

fn set_endpoint_stalled<T: Instance>(addr: EndpointAddress, stalled: bool) {
    let _ = operate::<T>(|p| p.begin_set_stalled(addr.index() as u8, dir(addr.direction()), stalled));
}

fn is_endpoint_stalled<T: Instance>(addr: EndpointAddress) -> bool {
    operate::<T>(|p| p.begin_is_stalled(addr.index() as u8, dir(addr.direction()))).ended() == Ok(1)
}

impl<'d, T: Instance> embassy_usb_driver::Bus for Bus<'d, T> {
    async fn enable(&mut self) {
        let _ = operate::<T>(|p| p.begin_bus_enable());
    }

    async fn disable(&mut self) {
        let _ = operate::<T>(|p| p.begin_bus_disable());
    }

    async fn poll(&mut self) -> Event {
        core::future::poll_fn(|cx| {
            WAKERS[BUS].register(cx.waker());
            let ended = operate::<T>(|p| p.begin_bus_poll()).ended();
            match ended.ok().and_then(usbhs_port::Event::of) {
                Some(usbhs_port::Event::Power) => Poll::Ready(Event::PowerDetected),
                Some(usbhs_port::Event::Reset) => Poll::Ready(Event::Reset),
                Some(usbhs_port::Event::Suspend) => Poll::Ready(Event::Suspend),
                Some(usbhs_port::Event::Resume) => Poll::Ready(Event::Resume),
                None => Poll::Pending,
            }
        })
        .await
    }

    fn endpoint_set_enabled(&mut self, ep_addr: EndpointAddress, enabled: bool) {
        let (ep, dir) = (ep_addr.index() as u8, dir(ep_addr.direction()));
        if operate::<T>(|p| p.begin_set_enabled(ep, dir, enabled)) == Answer::Refused(Refusal::BusTime) {
            error!("no bus time for endpoint {}", ep);
            critical_section::with(|_| {
                TURNED_DOWN.store(TURNED_DOWN.load(Ordering::Relaxed).wrapping_add(1), Ordering::Relaxed)
            });
        }
    }

    fn endpoint_set_stalled(&mut self, ep_addr: EndpointAddress, stalled: bool) {
        set_endpoint_stalled::<T>(ep_addr, stalled);
    }

    fn endpoint_is_stalled(&mut self, ep_addr: EndpointAddress) -> bool {
        is_endpoint_stalled::<T>(ep_addr)
    }

    async fn remote_wakeup(&mut self) -> Result<(), Unsupported> {
        Err(Unsupported)
    }
}

/// USB endpoint.
trait SealedInstance: crate::peripheral::RccPeripheral {
    fn regs() -> crate::pac::usbhs::Usb;
    fn dregs() -> crate::pac::usbhs::Usbd;
    fn hregs() -> crate::pac::usbhs::Usbh;
}

/// UsbHs peripheral instance
#[allow(private_bounds)]
pub trait Instance: SealedInstance + PeripheralType + 'static {
    /// Regular interrupt for this instance
    type Interrupt: interrupt::typelevel::Interrupt;
    /// Wakeup interrupt for this instance
    type WakeupInterrupt: interrupt::typelevel::Interrupt;
}

foreach_peripheral!(
    (usbhs, $inst:ident) => {
        use crate::peripherals;
        impl SealedInstance for peripherals::$inst {
            fn regs() -> crate::pac::usbhs::Usb {
                crate::pac::$inst
            }

            fn dregs() -> crate::pac::usbhs::Usbd {
                lent::device(crate::pac::$inst)
            }

            fn hregs() -> crate::pac::usbhs::Usbh {
                lent::host(crate::pac::$inst)
            }
        }

        impl Instance for peripherals::$inst {
            type Interrupt = crate::_generated::peripheral_interrupts::$inst::GLOBAL;
            type WakeupInterrupt = crate::_generated::peripheral_interrupts::$inst::WAKEUP;
        }
    };
);

pin_trait!(DmPin, Instance);
pin_trait!(DpPin, Instance);
