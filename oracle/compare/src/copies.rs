//! copies: nanoseconds of a queue and of a bulk write of 512 bytes by the port's exported calls, beside a copy of 512 bytes.
//!
//! Each is made over and over on a state of which just the bytes that the call changed are put back after it. What putting back takes alone stands
//! beside it: nothing is subtracted, since the difference of two long times would be lost in their scatter.

use std::hint::black_box;

use compare::clock::best;
use compare::exported::{length, usbhs_begin_write, usbhs_queue};
use compare::lent::Lent;
use oracle::{Call, Dir, Kind};

const SIZE: u32 = 512;
const COUNT: u32 = 4;

/// Isochronous IN 1 and bulk IN 2, enabled.
fn started() -> Lent {
    let endpoint =
        |kind, address| Call::Allocate { kind, address: Some(address), maximum: 512, interval: 1, dir: Dir::In };
    let enabled = |ep| Call::SetEnabled { ep, dir: Dir::In, on: true };
    let calls = [
        Call::StartUp { size: SIZE, count: COUNT, callback: false },
        endpoint(Kind::Isochronous, 0x81),
        endpoint(Kind::Bulk, 0x82),
        Call::Start(64),
        enabled(1),
        enabled(2),
    ];
    let mut port = Lent::new((SIZE * COUNT) as usize);
    for call in calls {
        let mut a = port.plain(&call);
        while a & 15 != 5 {
            assert!(matches!(a & 15, 1..=3), "{call:?}: {a:#x}");
            a = port.plain(&Call::Continue(0));
        }
    }
    port
}

/// The bytes of the state that a call changes, as they were before it.
fn changed(before: &[u8], after: &[u8]) -> Vec<(usize, u8)> {
    (0..before.len()).filter(|&i| before[i] != after[i]).map(|i| (i, before[i])).collect()
}

fn put_back(state: &mut [u8], bytes: &[(usize, u8)]) {
    for &(i, b) in black_box(bytes) {
        state[i] = b;
    }
    black_box(state);
}

/// A call and the putting back of what it changed, and that alone.
fn timed(mut call: impl FnMut(&mut Lent)) -> (f64, f64, usize) {
    let start = started();
    let mut port = started();
    call(&mut port);
    let bytes = changed(&start.state, &port.state);
    put_back(&mut port.state, &bytes);
    assert!(port.state == start.state);
    let both = best(|| {
        call(&mut port);
        put_back(&mut port.state, &bytes);
    });
    assert!(port.state == start.state);
    (both, best(|| put_back(&mut port.state, &bytes)), bytes.len())
}

fn main() {
    let data = [7; SIZE as usize];
    // SAFETY: all that is lent, slots and data with their lengths
    let queue = timed(|port| unsafe {
        let (s, p, n, _) = port.parts();
        assert_eq!(usbhs_queue(s, p, n, 1, black_box(data.as_ptr()), length(&data)) & 15, 5);
    });
    // SAFETY: as above
    let write = timed(|port| unsafe {
        let (s, p, n, _) = port.parts();
        assert_eq!(usbhs_begin_write(s, p, n, 2, black_box(data.as_ptr()), length(&data)) & 15, 2);
    });
    let mut port = started();
    let copy = best(|| {
        port.slots[..data.len()].copy_from_slice(black_box(&data));
        black_box(&mut port.slots);
    });
    println!("| 512 bytes | ns, with the putting back | ns, putting back alone | bytes put back |");
    println!("|---|---|---|---|");
    for (name, (both, alone, n)) in [("queue", queue), ("the begin of a bulk write", write)] {
        println!("| {name} | {both:.1} | {alone:.1} | {n} |");
    }
    println!("| a copy alone | {copy:.1} | - | - |");
}
