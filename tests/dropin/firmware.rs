//! A firmware over ch32-hal's names, the same with the Rust and with the proved driver: it starts up, enables an
//! isochronous OUT, takes a packet, and says what stands in the registers.

mod board;

use ch32_hal::interrupt::typelevel::Handler;
use ch32_hal::peripherals::USBHS;
use ch32_hal::usb::EndpointDataBuffer;
use ch32_hal::usbhs::{Driver, InterruptHandler};
use ch32_hal::{gpio, interrupt, peripherals, usbhs, Peri};
use embassy_usb_driver::{Bus as _, Driver as _, EndpointConfig, EndpointType};
use seam::reg;

use board::{Global, Irqs, Pin0};

fn main() {
    seam::cheap();
    seam::set(reg::MIS_ST, 0, 1);
    let memory = seam::Mapping::new(seam::ARENA);
    // SAFETY: zeroed, lent for the run
    let buffers = unsafe { &mut *memory.ptr().cast::<[EndpointDataBuffer<64>; 18]>() };
    let mut driver = Driver::new(Peri::new(USBHS), Irqs, Peri::new(Pin0), Peri::new(Pin0), buffers);
    let config = EndpointConfig {
        ep_type: EndpointType::Isochronous,
        addr: Some(1.into()),
        max_packet_size: 64,
        interval_ms: 1,
    };
    driver.alloc_endpoint_out(&config).unwrap();
    let (mut bus, _control) = driver.start(64);
    bus.endpoint_set_enabled(1.into(), true);

    // a packet of 20 bytes arrives
    let at = seam::written(reg::EP_RX_DMA, 1) as usize as *mut u8;
    // SAFETY: an address that the driver handed out, of a buffer of 64 bytes
    unsafe { core::slice::from_raw_parts_mut(at, 20) }.fill(7);
    for (r, v) in [(reg::INT_FG, 2), (reg::INT_ST, 0x41), (reg::RX_LEN, 20)] {
        seam::set(r, 0, v);
    }
    // SAFETY: after EP0's start
    unsafe { <InterruptHandler<USBHS> as Handler<Global>>::on_interrupt() };
    assert_eq!(usbhs::iso_out_take(1, |p| p.to_vec()), Some(vec![7; 20]));

    let base = memory.ptr() as usize as u32;
    for r in 0..reg::COUNT {
        for ep in 0..16 {
            let word = seam::written(r as u8, ep);
            let is_address = [reg::EP0_DMA, reg::EP_RX_DMA, reg::EP_TX_DMA].contains(&(r as u8)) && word != 0;
            println!("{r} {ep} {:x}", if is_address { word.wrapping_sub(base) } else { word });
        }
    }
}
