//! made_up FILE: a made-up survey, desk/samples/overrun.card. A pig goes at 2 metres a second through a pipe with a
//! weld every 9.6 metres; every 16 ms a packet of four samples comes. Once the card is busy for 0.9 s: fifteen packets
//! wait in the ring, the next 40 are turned away. The recorder writes its records; behind the survey lies an older one.

use std::collections::VecDeque;

use usbhs::recorder::{Kind, Record, ENDPOINT};
use usbhs::survey::{Writer, BLOCK};

/// Microframes from packet to packet: 16 ms.
const STEP: u64 = 128;
const METRES: f64 = 0.032;
pub const WELDS: f64 = 9.6;
const SLOTS: usize = 15;
const ENDPOINT_OF_SAMPLES: u8 = 1;

/// Four samples of the packet that was sent as number n: noise, and the welds.
fn samples(n: u64) -> Vec<u8> {
    let sample = |i: u64| {
        let k = n * 4 + i;
        let noise = (k.wrapping_mul(2_654_435_761) >> 16 & 511) as f64 - 256.0;
        let along = k as f64 * METRES / 4.0;
        let from_weld = (along + WELDS / 2.0) % WELDS - WELDS / 2.0;
        let weld = if along < WELDS / 2.0 { 0.0 } else { 9_000.0 * (-(from_weld / 0.12).powi(2)).exp() };
        (noise + weld).round() as i16
    };
    (0..4).flat_map(|i| sample(i).to_le_bytes()).collect()
}

struct Recorder {
    survey: u32,
    writer: Option<Writer>,
    card: Vec<u8>,
    /// The last count, packets since a record, and packets that are still to have one.
    overruns: Option<u32>,
    since: u32,
    each: u32,
    bytes: usize,
}

impl Recorder {
    fn new(survey: u32) -> Self {
        let mut all =
            Self { survey, writer: Some(Writer::default()), card: vec![], overruns: None, since: 0, each: 0, bytes: 0 };
        all.record(Kind::Begin);
        all
    }

    fn write(&mut self, endpoint: u8, bytes: &[u8]) {
        let card = &mut self.card;
        let writer = self.writer.as_mut().expect("not finished");
        writer.write(endpoint.into(), bytes, |b: &[u8; BLOCK]| card.extend_from_slice(b)).expect("a packet");
        self.bytes += 3 + bytes.len();
    }

    fn record(&mut self, kind: Kind) {
        let mut bytes = Record { survey: self.survey, kind }.bytes();
        // three bytes of filler are to follow the end
        if matches!(kind, Kind::End { .. }) && 504 - (self.bytes + 13) % 504 < 3 {
            bytes.extend([0; 3]);
        }
        self.write(ENDPOINT, &bytes);
    }

    /// A record goes before the first packet, every 64, and before the sixteen that follow a change of the count: the
    /// packets that waited, and the first one behind those that were turned away.
    fn packet(&mut self, stamp: u64, overruns: u32, bytes: &[u8]) {
        let changed = self.overruns.is_some_and(|o| o != overruns);
        if changed {
            self.each = 17;
        }
        if self.overruns.is_none() || self.each != 0 || self.since == 64 {
            let microframe = (stamp % 16_384) as u16;
            self.record(Kind::Stamp { endpoint: ENDPOINT_OF_SAMPLES, microframe, overruns });
            self.since = 0;
        }
        self.overruns = Some(overruns);
        self.each = self.each.saturating_sub(1);
        self.since += 1;
        self.write(ENDPOINT_OF_SAMPLES, bytes);
    }

    fn finish(mut self, overruns: u32) -> Vec<u8> {
        self.record(Kind::End { overruns, finished: true });
        let card = &mut self.card;
        let writer = self.writer.take().expect("not finished");
        writer.finish(|b| card.extend_from_slice(b)).expect("the last block");
        self.card
    }
}

/// A survey of so many packets sent, the card busy from one to another.
fn survey(number: u32, sent: u64, busy: std::ops::Range<u64>) -> Vec<u8> {
    let mut recorder = Recorder::new(number);
    let (mut ring, mut overruns) = (VecDeque::new(), 0);
    for n in 0..sent {
        match ring.len() {
            SLOTS => overruns += 1,
            _ => ring.push_back((9_000 + n * STEP, samples(n))),
        }
        if !busy.contains(&n) {
            for (stamp, bytes) in ring.drain(..) {
                recorder.packet(stamp, overruns, &bytes);
            }
        }
    }
    recorder.finish(overruns)
}

/// The card: survey 7 over an older one.
pub fn card() -> Vec<u8> {
    let (new, mut card) = (survey(7, 1_250, 500..554), survey(6, 2_400, 0..0));
    card[..new.len()].copy_from_slice(&new);
    card
}

#[allow(dead_code)]
fn main() {
    let path = std::env::args_os().nth(1).expect("made_up FILE");
    std::fs::write(path, card()).expect("the card is written");
}
