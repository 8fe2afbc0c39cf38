//! A device's trace: what is noted, in which bytes. With USBHS_TRACE_OUT the ring is written there; tests/desk/run has
//! the desk's tool replay it.
#![cfg(feature = "trace")]

use usbhs_port::trace::{Noted, Ring, Traced, ENTRY_LEN};
use usbhs_port::{Access, BusTime, Direction, Port, Register, State, Task, Transfer};

/// A chip whose registers are read from a list.
struct Chip(Vec<u32>);

impl Access for Chip {
    fn read(&mut self, register: Register, _endpoint: u8) -> u32 {
        match register {
            Register::MisSt => 1,
            _ => self.0.pop().unwrap_or(0),
        }
    }
    fn write(&mut self, _register: Register, _endpoint: u8, _value: u32) {}
    fn wait(&mut self, _microseconds: u8) {}
    fn callback(&mut self) {}
    fn wake(&mut self, _task: Task) {}
}

fn traced<const N: usize>() -> Ring<N> {
    traced_with(|_| {})
}

/// `after` each interrupt is lent the ring.
fn traced_with<const N: usize>(mut after: impl FnMut(&Ring<N>)) -> Ring<N> {
    let mut ring = Ring::new();
    let (mut state, mut time, mut slots) = (State::new(), BusTime::new(), [0; 20 * 64]);
    let mut port = Port::lent(&mut state, &mut slots, &mut time, 0);
    let mut chip = Traced { access: Chip(vec![]), ring: &mut ring };
    let (iso, out, en) = (Transfer::Isochronous, Direction::Out, Noted::set_enabled(1, Direction::Out, true));
    chip.run(&mut port, Noted::start_up(64, 20, false), |p| p.start_up(64, 20, false)).ended().unwrap();
    let call = Noted::allocate(iso, None, 64, 1, out);
    assert_eq!(chip.run(&mut port, call, |p| p.allocate(iso, None, 64, 1, out)).ended(), Ok(1));
    chip.run(&mut port, Noted::start(64), |p| p.start(64)).ended().unwrap();
    chip.run(&mut port, Noted::bus_poll(), |p| p.begin_bus_poll()).ended().unwrap();
    chip.run(&mut port, Noted::bus_enable(), |p| p.begin_bus_enable()).ended().unwrap();
    chip.run(&mut port, en, |p| p.begin_set_enabled(1, out, true)).ended().unwrap();
    for microframe in 0..5u32 {
        // a start of frame: frame_no, int_fg, int_st, rx_len, frame_no, from the last to the first
        let frame = 40 | microframe << 13;
        chip.access.0 = vec![frame, 0, 0x10, 2, frame];
        chip.run(&mut port, Noted::interrupt(), |p| p.begin_interrupt()).ended().unwrap();
        after(chip.ring);
    }
    assert!(chip.run(&mut port, Noted::start(64), |p| p.start(64)).ended().is_err());
    after(chip.ring);
    ring
}

#[test]
fn every_step_is_noted() {
    let ring = traced::<512>();
    let all: Vec<[u8; ENTRY_LEN]> = ring.entries().copied().collect();
    // start-up: 64 bytes, 20 buffers, no callback
    assert_eq!(all[0], [15, 0, 64, 0, 20, 0, 0, 0, 0, 0, 0, 0]);
    // the last one is refused with 4, not at this stage
    assert_eq!(all[all.len() - 2][..4], [15, 3, 64, 0]);
    assert_eq!(all[all.len() - 1], [0, 4, 0, 0, 0, 0, 0, 0, 0, 0, 0, 0]);
    // an interrupt begins with its frame reading
    let at = all.iter().position(|e| e[..2] == [15, 4]).unwrap();
    assert_eq!(all[at + 1], [1, 4, 0, 0, 0, 0, 0, 0, 40, 0, 0, 0]);
    if let Some(path) = std::env::var_os("USBHS_TRACE_OUT") {
        let bytes: Vec<u8> = std::iter::once(ring.front()).chain(ring.in_place().copied()).flatten().collect();
        std::fs::write(path, bytes).unwrap();
    }
}

#[test]
fn a_short_ring_has_the_last() {
    let (long, short) = (traced::<512>(), traced::<7>());
    let all: Vec<_> = long.entries().collect();
    assert!(short.entries().eq(all[all.len() - 7..].iter().copied()));
    assert_eq!(short.front()[8..], (all.len() as u32).to_le_bytes());
    // as a debugger reads it, the oldest stands behind the newest
    let first = short.in_place().nth(all.len() % 7).unwrap();
    assert_eq!(first, all[all.len() - 7]);
}

/// The entries of a card's records of kind 4.
#[cfg(feature = "survey")]
fn on_card(card: &[u8]) -> Vec<[u8; ENTRY_LEN]> {
    use usbhs_port::survey::{packets, RECORDER};
    let (mut reader, mut room, mut all) = (packets(card).unwrap(), [0; 1024], vec![]);
    while let Some((endpoint, bytes)) = reader.next(&mut room).unwrap() {
        if endpoint == RECORDER && bytes.first() == Some(&4) {
            assert_eq!(bytes[..6], [4, 0, 9, 0, 0, 0]);
            all.extend(bytes[6..].chunks_exact(ENTRY_LEN).map(|e| <[u8; ENTRY_LEN]>::try_from(e).unwrap()));
        }
    }
    all
}

/// A ring's entries go to a card as they come; with USBHS_TRACE_CARD the card is written there.
#[test]
#[cfg(feature = "survey")]
fn to_a_card() {
    use usbhs_port::survey::{Recorder, BLOCK_LEN, RECORDER};
    fn recorded<const N: usize>() -> Vec<u8> {
        let (mut recorder, mut card, mut from) = (Recorder::begin(9).unwrap(), vec![], 0);
        let mut store = |recorder: &mut Recorder| {
            while let Some((place, block)) = recorder.to_store() {
                let at = place as usize * BLOCK_LEN;
                card.resize(card.len().max(at + BLOCK_LEN), 0);
                card[at..at + BLOCK_LEN].copy_from_slice(block);
                recorder.stored();
            }
        };
        store(&mut recorder);
        traced_with::<N>(|ring| {
            let mut room = [0; 6 + 20 * ENTRY_LEN];
            loop {
                match ring.record(&mut room, 9, &mut from) {
                    0 => break,
                    n => recorder.record(RECORDER, &room[..n], 0).unwrap(),
                };
                store(&mut recorder);
            }
        });
        recorder.finish(0).unwrap();
        store(&mut recorder);
        card
    }
    let long: Vec<_> = traced::<512>().entries().copied().collect();
    let card = recorded::<256>();
    assert_eq!(on_card(&card), long);
    if let Some(path) = std::env::var_os("USBHS_TRACE_CARD") {
        std::fs::write(path, &card).unwrap();
    }
    // a ring that is too short for its start: what is missing is counted
    let short = on_card(&recorded::<8>());
    let lost: usize =
        short.iter().filter(|e| e[0] == 13).map(|e| u32::from_le_bytes([e[4], e[5], e[6], e[7]]) as usize).sum();
    assert_eq!(short[0][0], 13);
    assert_eq!(short.iter().filter(|e| e[0] != 13).count() + lost, long.len());
    assert_eq!(short[short.len() - 1], long[long.len() - 1]);
}
