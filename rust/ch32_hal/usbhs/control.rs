use core::future::poll_fn;
use core::marker::PhantomData;

use embassy_usb_driver::EndpointError;

use usbhs_port::{Answer, Port};

use super::lent::call;
use super::{guard, length, operate, polled, request, Instance, EP_MAX_PACKET_SIZE, WAKERS};

const IN0: usize = 0;
const OUT0: usize = 16;

pub struct ControlPipe<'d, T: Instance, const SIZE: usize> {
    _phantom: PhantomData<&'d mut T>,
}

impl<'d, T: Instance, const SIZE: usize> ControlPipe<'d, T, SIZE> {
    pub(crate) fn new() -> Self {
        Self { _phantom: PhantomData }
    }

    /// The status stage of either accept. The host may send a new setup packet instead: nothing left to do then.
    async fn status_in(&mut self, begin: impl FnOnce(&mut Port<'_>) -> Answer) {
        if request::<T>(begin).is_err() {
            return;
        }
        poll_fn(|cx| {
            WAKERS[IN0].register(cx.waker());
            // of a new address its write
            polled(operate::<T>(|p| p.poll_accept()), cx).map(|_| ())
        })
        .await
    }
}

impl<'d, T: Instance, const SIZE: usize> embassy_usb_driver::ControlPipe for ControlPipe<'d, T, SIZE> {
    fn max_packet_size(&self) -> usize {
        EP_MAX_PACKET_SIZE as usize
    }

    async fn setup(&mut self) -> [u8; 8] {
        let _ = operate::<T>(|p| p.begin_setup());
        guard::transfer::<T>(false);
        let mut packet = [0; 8];
        let packet = poll_fn(|cx| {
            WAKERS[OUT0].register(cx.waker());
            polled(call(|p| p.poll_setup(&mut packet)), cx).map(|_| packet)
        })
        .await;
        guard::transfer::<T>(true);
        packet
    }

    async fn data_out(&mut self, buf: &mut [u8], first: bool, _last: bool) -> Result<usize, EndpointError> {
        request::<T>(|p| p.begin_data_out(length(buf), first))?;
        poll_fn(|cx| {
            WAKERS[OUT0].register(cx.waker());
            polled(call(|p| p.poll_data_out(buf)), cx)
        })
        .await
    }

    async fn data_in(&mut self, data: &[u8], first: bool, last: bool) -> Result<(), EndpointError> {
        request::<T>(|p| p.begin_data_in(data, first, last))?;
        poll_fn(|cx| {
            // the data's completion, then the host's closing OUT
            WAKERS[IN0].register(cx.waker());
            WAKERS[OUT0].register(cx.waker());
            polled(call(|p| p.poll_data_in()), cx)
        })
        .await
        .map(|_| ())
    }

    async fn accept(&mut self) {
        self.status_in(|p| p.begin_accept()).await
    }

    async fn reject(&mut self) {
        let _ = operate::<T>(|p| p.begin_reject());
    }

    async fn accept_set_address(&mut self, addr: u8) {
        self.status_in(|p| p.begin_accept_set_address(addr)).await
    }
}
