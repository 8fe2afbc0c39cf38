//! reader [BYTES [LENGTH..]]: a stream of so many bytes in memory (32 MiB, if not said) with packets of each of these
//! lengths. How fast its blocks' CRCs are made, and how fast its packets are read: many at a time (usbhs_card_read),
//! and one at a time (usbhs_card_next, on a part of the stream). Both go over the same blocks, and MB are a million
//! bytes of the stream. Prints a table: the best of some rounds in turn, in seconds of the processor.
//!
//! reader once BYTES LENGTH: the CRCs and the reading, many at a time, once each: for a count of their instructions.

use std::hint::black_box;

use usbhs::output::thousands;
use usbhs::survey::{data_crc, Reader, Writer, BLOCK};

const LENGTHS: [usize; 9] = [0, 1, 2, 3, 4, 8, 16, 64, 1_024];
const ROUNDS: usize = 20;
/// One at a time: so many rounds, on this part of the stream.
const SINGLY: (usize, usize) = (3, 32);

/// The C library's struct timespec on 64-bit Linux.
#[repr(C)]
struct Time {
    seconds: i64,
    nanoseconds: i64,
}

extern "C" {
    fn clock_gettime(clock: i32, time: *mut Time) -> i32;
}

const CLOCK_THREAD_CPUTIME_ID: i32 = 3;

/// The processor's time that this thread has had, in seconds.
fn clock() -> f64 {
    let mut time = Time { seconds: 0, nanoseconds: 0 };
    // SAFETY: room for the answer
    assert_eq!(unsafe { clock_gettime(CLOCK_THREAD_CPUTIME_ID, &mut time) }, 0);
    time.seconds as f64 + time.nanoseconds as f64 / 1e9
}

/// Packets of so many bytes in a stream of at least so many, and how many packets.
fn stream(bytes: usize, length: usize) -> (Vec<u8>, usize) {
    let (mut writer, mut card, mut packets) = (Writer::default(), Vec::with_capacity(bytes + BLOCK), 0);
    let mut packet = vec![0u8; length];
    while card.len() < bytes {
        if let Some(byte) = packet.get_mut(packets % length.max(1)) {
            *byte = byte.wrapping_mul(5).wrapping_add(packets as u8 | 1);
        }
        writer.write(1 + packets as u32 % 15, &packet, |b| card.extend_from_slice(b)).expect("a packet");
        packets += 1;
    }
    writer.finish(|b| card.extend_from_slice(b)).expect("the last block");
    (card, packets)
}

/// The blocks whose check holds.
fn checks(card: &[u8]) -> usize {
    let holds = |b: &&[u8]| data_crc(&b[..BLOCK - 2]).to_le_bytes() == b[BLOCK - 2..];
    card.chunks_exact(BLOCK).filter(holds).count()
}

/// The packets' bytes on the card, with their headers.
fn many(card: &[u8]) -> usize {
    let mut reader = Reader::new(card).expect("whole blocks");
    let mut bytes = 0;
    while let Some(packets) = reader.batch(card) {
        bytes += black_box(packets).len();
    }
    bytes
}

fn singly(card: &[u8]) -> usize {
    let mut reader = Reader::one_by_one(card).expect("whole blocks");
    let mut bytes = 0;
    while let Some(packet) = reader.next(card) {
        bytes += 3 + black_box(packet.bytes).len();
    }
    bytes
}

fn seconds(work: impl FnOnce() -> usize, answer: usize) -> f64 {
    let began = clock();
    let given = work();
    let took = clock() - began;
    assert_eq!(given, answer);
    took
}

fn table(bytes: usize, lengths: &[usize]) {
    println!(
        "| packets of | packets | the CRC alone, MB/s | `usbhs_card_read`, MB/s | ratio | `usbhs_card_next`, MB/s |"
    );
    println!("|---|---|---|---|---|---|");
    for &length in lengths {
        let (card, packets) = stream(bytes, length);
        let (part, few) = stream(bytes / SINGLY.1, length);
        let mut best = [f64::MAX; 3];
        for _ in 0..ROUNDS {
            best[0] = best[0].min(seconds(|| checks(&card), card.len() / BLOCK));
            best[1] = best[1].min(seconds(|| many(&card), packets * (3 + length)));
        }
        for _ in 0..SINGLY.0 {
            best[2] = best[2].min(seconds(|| singly(&part), few * (3 + length)));
        }
        let speed = |bytes: usize, seconds: f64| thousands((bytes as f64 / seconds / 1e6).round() as u64);
        println!(
            "| {} | {} | {} | {} | {:.2} | {} |",
            match length {
                1 => "1 byte".into(),
                n => format!("{} bytes", thousands(n as u64)),
            },
            thousands(packets as u64),
            speed(card.len(), best[0]),
            speed(card.len(), best[1]),
            best[1] / best[0],
            speed(part.len(), best[2])
        );
    }
}

fn main() {
    let words: Vec<String> = std::env::args().skip(1).collect();
    let once = words.first().is_some_and(|w| w == "once");
    let numbers: Vec<usize> = words[once as usize..].iter().map(|w| w.parse().expect("a number")).collect();
    if once {
        let [bytes, length] = numbers[..] else { panic!("once BYTES LENGTH") };
        let (card, packets) = stream(bytes, length);
        assert_eq!((checks(&card), many(&card)), (card.len() / BLOCK, packets * (3 + length)));
        println!("{} blocks, {packets} packets", card.len() / BLOCK);
    } else {
        let bytes = numbers.first().copied().unwrap_or(32 << 20);
        table(bytes, if numbers.len() > 1 { &numbers[1..] } else { &LENGTHS });
    }
}
