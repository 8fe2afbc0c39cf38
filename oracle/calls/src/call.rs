//! Calls and answers, as `FORMAT.md` names them.

/// By number: OUT 0, IN 1.
#[derive(Clone, Copy, PartialEq, Eq, Debug)]
pub enum Dir {
    Out,
    In,
}

/// In the order of bmAttributes bits 0-1 of an endpoint descriptor (USB 2.0, 9.6.6).
#[derive(Clone, Copy, PartialEq, Eq, Debug)]
pub enum Kind {
    Control,
    Isochronous,
    Bulk,
    Interrupt,
}

#[derive(Clone, PartialEq, Eq, Debug)]
pub enum Call {
    StartUp {
        size: u32,
        count: u32,
        callback: bool,
    },
    Continue(u32),
    Allocate {
        kind: Kind,
        address: Option<u8>,
        maximum: u16,
        interval: u8,
        dir: Dir,
    },
    Start(u16),
    Interrupt,
    BusPoll,
    BusEnable,
    BusDisable,
    SetEnabled {
        ep: u8,
        dir: Dir,
        on: bool,
    },
    SetStalled {
        ep: u8,
        dir: Dir,
        on: bool,
    },
    IsStalled {
        ep: u8,
        dir: Dir,
    },
    SetPaced {
        ep: u8,
        on: bool,
    },
    Advance(u8),
    Microframe,
    Read {
        ep: u8,
        length: u32,
    },
    PollRead(u8),
    Write {
        ep: u8,
        data: Vec<u8>,
    },
    PollWrite(u8),
    Setup,
    PollSetup,
    DataOut {
        length: u32,
        first: bool,
    },
    PollDataOut,
    DataIn {
        data: Vec<u8>,
        first: bool,
        last: bool,
    },
    PollDataIn,
    Accept,
    AcceptSetAddress(u8),
    PollAccept,
    Reject,
    Open(u8),
    Close(u8),
    Queue {
        ep: u8,
        data: Vec<u8>,
    },
    Pending(u8),
    Overruns(u8),
    Enabled {
        ep: u8,
        dir: Dir,
    },
    /// The chip stores these bytes in the slot buffer.
    Store {
        offset: u32,
        data: Vec<u8>,
    },
    /// The firmware fills the whole buffer before it is lent: byte i is `(seed + i * 37) mod 256`.
    Fill(u8),
}

#[derive(Clone, Copy, PartialEq, Eq, PartialOrd, Ord, Hash, Debug)]
pub enum Wake {
    Bus,
    Out(u8),
    In(u8),
}

#[derive(Clone, PartialEq, Eq, Debug)]
pub enum Answer {
    Read {
        reg: u8,
        ep: u8,
    },
    Write {
        reg: u8,
        ep: u8,
        value: u32,
    },
    Wait(u32),
    Callback,
    /// In the Rust's order, repeats included.
    End {
        result: u32,
        wakes: Vec<Wake>,
    },
    NotYet,
    /// The bytes are those that a read, a data_out or a setup received.
    Done {
        length: u32,
        bytes: Vec<u8>,
    },
    Shown {
        offset: u32,
        length: u32,
    },
    /// A question's answer.
    Number(u32),
    Refused(u8),
    /// A store or a fill.
    Stored,
    /// The Rust has no counterpart of this call here (rows 1 to 6, 15, 16): not compared.
    Outside,
    /// The Rust panics.
    Panicked,
}

/// Names by number.
pub const REGISTERS: [&str; 19] = [
    "int_fg",
    "int_st",
    "mis_st",
    "rx_len",
    "frame_no",
    "ctrl",
    "int_en",
    "dev_ad",
    "host_ctrl",
    "ep_config",
    "ep_type",
    "ep_buf_mod",
    "ep0_dma",
    "ep_max_len",
    "ep_t_len",
    "ep_rx_dma",
    "ep_tx_dma",
    "ep_rx_ctrl",
    "ep_tx_ctrl",
];

/// The register's accesses carry an endpoint.
pub fn indexed(reg: u8) -> bool {
    reg >= 13
}
