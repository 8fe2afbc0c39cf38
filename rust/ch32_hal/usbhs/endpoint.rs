use core::future::poll_fn;
use core::marker::PhantomData;
use core::task::Poll;

use embassy_usb_driver::{EndpointError, EndpointIn, EndpointInfo, EndpointOut, Unsupported};

use super::lent::call;
use super::{endpoint_enabled, is_endpoint_stalled, length, polled, request, set_endpoint_stalled, waker, Instance};
use crate::usb::{Dir, In, Out};

pub struct Endpoint<'d, T: Instance, D: Dir, const SIZE: usize> {
    _phantom: PhantomData<(&'d mut T, D)>,
    info: EndpointInfo,
}

impl<'d, T: Instance, D: Dir, const SIZE: usize> Endpoint<'d, T, D, SIZE> {
    pub(crate) fn new(info: EndpointInfo) -> Self {
        Self { _phantom: PhantomData, info }
    }

    fn number(&self) -> u8 {
        self.info.addr.index() as u8
    }
}

impl<'d, T: Instance, D: Dir, const SIZE: usize> embassy_usb_driver::Endpoint for Endpoint<'d, T, D, SIZE> {
    fn info(&self) -> &EndpointInfo {
        &self.info
    }

    async fn wait_enabled(&mut self) {
        let addr = self.info.addr;
        poll_fn(|cx| {
            waker(addr).register(cx.waker());
            if endpoint_enabled(addr.index(), addr.direction()) {
                Poll::Ready(())
            } else {
                Poll::Pending
            }
        })
        .await
    }

    fn set_stall(&mut self, stalled: bool) -> Result<(), Unsupported> {
        set_endpoint_stalled::<T>(self.info.addr, stalled);
        Ok(())
    }

    fn is_stalled(&self) -> Result<bool, Unsupported> {
        Ok(is_endpoint_stalled::<T>(self.info.addr))
    }
}

impl<'d, T: Instance, const SIZE: usize> EndpointOut for Endpoint<'d, T, Out, SIZE> {
    async fn read(&mut self, buf: &mut [u8]) -> Result<usize, EndpointError> {
        let ep = self.number();
        request::<T>(|p| p.begin_read(ep, length(buf)))?;
        poll_fn(|cx| {
            waker(self.info.addr).register(cx.waker());
            polled(call(|p| p.poll_read(ep, buf)), cx)
        })
        .await
    }
}

impl<'d, T: Instance, const SIZE: usize> EndpointIn for Endpoint<'d, T, In, SIZE> {
    async fn write(&mut self, buf: &[u8]) -> Result<(), EndpointError> {
        let ep = self.number();
        request::<T>(|p| p.begin_write(ep, buf))?;
        poll_fn(|cx| {
            waker(self.info.addr).register(cx.waker());
            polled(call(|p| p.poll_write(ep, buf)), cx)
        })
        .await
        .map(|_| ())
    }
}
