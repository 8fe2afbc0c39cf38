//! The traits and types of embassy-usb-driver that the four files name.
#![allow(async_fn_in_trait)]

pub use oracle::{Dir as Direction, Kind as EndpointType};

/// Bit 7: IN. Bits 0-6: the number.
#[derive(Clone, Copy, PartialEq, Eq, Debug)]
pub struct EndpointAddress(u8);

impl From<u8> for EndpointAddress {
    fn from(addr: u8) -> Self {
        Self(addr)
    }
}

impl EndpointAddress {
    const INBITS: u8 = 0x80;

    pub fn from_parts(index: usize, dir: Direction) -> Self {
        match dir {
            Direction::Out => Self(index as u8),
            Direction::In => Self(index as u8 | Self::INBITS),
        }
    }

    pub fn direction(&self) -> Direction {
        if self.0 & Self::INBITS != 0 {
            Direction::In
        } else {
            Direction::Out
        }
    }

    pub fn index(&self) -> usize {
        (self.0 & !Self::INBITS) as usize
    }
}

#[derive(Clone, Copy, PartialEq, Eq, Debug)]
pub struct EndpointInfo {
    pub addr: EndpointAddress,
    pub ep_type: EndpointType,
    pub max_packet_size: u16,
    pub interval_ms: u8,
    pub max_burst: u8,
}

#[derive(Clone, Copy, PartialEq, Eq, Debug)]
pub struct EndpointConfig {
    pub ep_type: EndpointType,
    pub addr: Option<EndpointAddress>,
    pub max_packet_size: u16,
    pub interval_ms: u8,
}

#[derive(Clone, Copy, PartialEq, Eq, Debug)]
pub struct EndpointAllocError;

#[derive(Clone, Copy, PartialEq, Eq, Debug)]
pub enum EndpointError {
    BufferOverflow,
    Disabled,
}

#[derive(Clone, Copy, PartialEq, Eq, Debug)]
pub struct Unsupported;

#[derive(Clone, Copy, PartialEq, Eq, Debug)]
pub enum Event {
    Reset,
    Suspend,
    Resume,
    PowerDetected,
    PowerRemoved,
}

pub trait Driver<'a> {
    type EndpointOut: EndpointOut + 'a;
    type EndpointIn: EndpointIn + 'a;
    type ControlPipe: ControlPipe + 'a;
    type Bus: Bus + 'a;

    fn alloc_endpoint_out(&mut self, config: &EndpointConfig) -> Result<Self::EndpointOut, EndpointAllocError>;
    fn alloc_endpoint_in(&mut self, config: &EndpointConfig) -> Result<Self::EndpointIn, EndpointAllocError>;
    fn start(self, control_max_packet_size: u16) -> (Self::Bus, Self::ControlPipe);
}

pub trait Bus {
    async fn enable(&mut self);
    async fn disable(&mut self);
    async fn poll(&mut self) -> Event;
    fn endpoint_set_enabled(&mut self, ep_addr: EndpointAddress, enabled: bool);
    fn endpoint_set_stalled(&mut self, ep_addr: EndpointAddress, stalled: bool);
    fn endpoint_is_stalled(&mut self, ep_addr: EndpointAddress) -> bool;
    async fn remote_wakeup(&mut self) -> Result<(), Unsupported>;
}

pub trait Endpoint {
    fn info(&self) -> &EndpointInfo;
    async fn wait_enabled(&mut self);
    fn set_stall(&mut self, stalled: bool) -> Result<(), Unsupported>;
    fn is_stalled(&self) -> Result<bool, Unsupported>;
}

pub trait EndpointOut: Endpoint {
    async fn read(&mut self, buf: &mut [u8]) -> Result<usize, EndpointError>;
}

pub trait EndpointIn: Endpoint {
    async fn write(&mut self, buf: &[u8]) -> Result<(), EndpointError>;
}

pub trait ControlPipe {
    fn max_packet_size(&self) -> usize;
    async fn setup(&mut self) -> [u8; 8];
    async fn data_out(&mut self, buf: &mut [u8], first: bool, last: bool) -> Result<usize, EndpointError>;
    async fn data_in(&mut self, data: &[u8], first: bool, last: bool) -> Result<(), EndpointError>;
    async fn accept(&mut self);
    async fn reject(&mut self);
    async fn accept_set_address(&mut self, addr: u8);
}
