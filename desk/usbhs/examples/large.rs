//! large [cold] [BYTES [LENGTH..]]: streams of at least so many bytes (a billion, if not said) with packets of these
//! lengths (4, 64 and 1,024), every thousandth block damaged; each is read by `cat`, `sha256sum`, `usbhs card check`
//! and `usbhs card extract --samples`, three times in turn. Prints a table: the best time of each and, in brackets,
//! the processors' time; millions of the stream's bytes by a second of the processors' time; and the most memory that
//! it held. `cold`: the stream is put out of the page cache before each reading, so that it comes from the disk.

use std::fs::File;
use std::io::{BufWriter, Write};
use std::os::fd::AsRawFd;
use std::path::{Path, PathBuf};
use std::process::{Command, Stdio};
use std::time::Instant;

use usbhs::output::thousands;
use usbhs::survey::{Writer, BLOCK};

/// The front of the system's rusage, and room for the rest.
#[repr(C)]
struct Usage {
    times: [i64; 4],
    most: i64,
    rest: [i64; 32],
}

extern "C" {
    fn wait4(pid: i32, status: *mut i32, options: i32, usage: *mut Usage) -> i32;
    fn posix_fadvise(fd: i32, offset: i64, len: i64, advice: i32) -> i32;
}

const POSIX_FADV_DONTNEED: i32 = 4;

/// Puts a file out of the page cache.
fn forget(path: &Path) {
    let file = File::open(path).expect("the file");
    file.sync_all().expect("the file is on the disk");
    // SAFETY: an open file
    assert_eq!(unsafe { posix_fadvise(file.as_raw_fd(), 0, 0, POSIX_FADV_DONTNEED) }, 0);
}

struct Took {
    seconds: f64,
    processor: f64,
    kilobytes: i64,
    status: i32,
}

// wait4 waits for it, and tells its memory
#[allow(clippy::zombie_processes)]
fn run(program: &Path, words: &[&str]) -> Took {
    let began = Instant::now();
    let child = Command::new(program).args(words).stdout(Stdio::null()).spawn().expect("a program that runs");
    let (mut status, mut usage) = (0, Usage { times: [0; 4], most: 0, rest: [0; 32] });
    // SAFETY: the child's own number, and room for both answers
    unsafe { wait4(child.id() as i32, &mut status, 0, &mut usage) };
    // of the program itself and of the system for it: seconds and their millionths
    let [a, b, c, d] = usage.times;
    Took {
        seconds: began.elapsed().as_secs_f64(),
        processor: (a + c) as f64 + (b + d) as f64 / 1e6,
        kilobytes: usage.most,
        status: status >> 8 & 0xFF,
    }
}

/// How many packets and blocks were written.
fn make(path: &Path, bytes: usize, length: usize) -> (usize, usize) {
    let mut file = BufWriter::with_capacity(1 << 20, File::create(path).expect("a file"));
    let (mut writer, mut packets, mut blocks) = (Writer::default(), 0, 0);
    let mut packet = vec![0u8; length];
    let mut store = |block: &[u8; BLOCK], blocks: &mut usize| {
        let mut block = *block;
        if *blocks % 1_000 == 999 {
            block[100] ^= 0x40;
        }
        *blocks += 1;
        file.write_all(&block).expect("room on the disk");
    };
    while blocks * BLOCK < bytes {
        packet[packets % length] = packet[packets % length].wrapping_mul(5).wrapping_add(packets as u8 | 1);
        writer.write(1 + packets as u32 % 15, &packet, |b| store(b, &mut blocks)).expect("a packet");
        packets += 1;
    }
    writer.finish(|b| store(b, &mut blocks)).expect("the last block");
    (packets, blocks)
}

fn main() {
    let mut words: Vec<String> = std::env::args().skip(1).collect();
    let cold = words.first().is_some_and(|w| w == "cold");
    words.drain(..cold as usize);
    let numbers: Vec<usize> = words.iter().map(|w| w.parse().expect("a number")).collect();
    let bytes = numbers.first().copied().unwrap_or(1_000_000_000);
    let lengths = if numbers.len() > 1 { &numbers[1..] } else { &[4, 64, 1_024] };
    let path = std::env::temp_dir().join(format!("usbhs-large-{}.card", std::process::id()));
    let image = path.to_str().expect("a plain path");
    // beside this program's folder, examples
    let tool = std::env::current_exe().unwrap().parent().unwrap().parent().unwrap().join("usbhs");
    println!("| packets of | stream | `cat` | `sha256sum` | `check` | MB/s | `extract --samples` | MB/s | memory |");
    println!("|---|---|---|---|---|---|---|---|---|");
    for &length in lengths {
        let (packets, blocks) = make(&path, bytes, length);
        let commands: [(PathBuf, Vec<&str>); 4] = [
            ("cat".into(), vec![image]),
            ("sha256sum".into(), vec![image]),
            (tool.clone(), vec!["card", "check", "--quiet", image]),
            (tool.clone(), vec!["card", "extract", "--samples", "--quiet", image]),
        ];
        let (mut best, mut least) = ([f64::MAX; 4], [f64::MAX; 4]);
        let mut most = [0; 4];
        for _ in 0..3 {
            for (i, (program, words)) in commands.iter().enumerate() {
                if cold {
                    forget(&path);
                }
                let took = run(program, words);
                // damaged blocks are told by status 1
                assert_eq!(took.status, if i >= 2 { 1 } else { 0 });
                best[i] = best[i].min(took.seconds);
                least[i] = least[i].min(took.processor);
                most[i] = most[i].max(took.kilobytes);
            }
        }
        let size = blocks * BLOCK;
        let [cat, sum, check, samples] = std::array::from_fn(|i| format!("{:.2} s ({:.2})", best[i], least[i]));
        let speed = |i: usize| format!("{:.0}", size as f64 / 1e6 / least[i]);
        let memory = most.map(|kilobytes| format!("{:.1}", kilobytes as f64 / 1e3)).join(", ");
        println!(
            "| {length} bytes | {} MB, {} packets | {cat} | {sum} | {check} | {} | {samples} | {} | {memory} MB |",
            thousands(size as u64 / 1_000_000),
            thousands(packets as u64),
            speed(2),
            speed(3),
        );
        std::fs::remove_file(&path).expect("the file is removed");
    }
}
