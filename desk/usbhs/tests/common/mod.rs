//! The tool as its users run it.
#![allow(dead_code)]

use std::io::Write;
use std::path::PathBuf;
use std::process::{Command, Stdio};
use std::sync::atomic::{AtomicUsize, Ordering};

use usbhs::image::Image;
use usbhs::survey::{Writer, BLOCK};

pub struct Ran {
    pub status: i32,
    pub out: Vec<u8>,
    pub err: String,
}

impl Ran {
    pub fn text(&self) -> &str {
        std::str::from_utf8(&self.out).unwrap()
    }
}

pub fn samples() -> PathBuf {
    concat!(env!("CARGO_MANIFEST_DIR"), "/../samples").into()
}

/// The tool with these words, and these bytes on standard input.
pub fn usbhs(words: &[&str], input: &[u8]) -> Ran {
    let mut child = Command::new(env!("CARGO_BIN_EXE_usbhs"))
        .args(words)
        .current_dir(samples())
        .stdin(Stdio::piped())
        .stdout(Stdio::piped())
        .stderr(Stdio::piped())
        .spawn()
        .unwrap();
    let mut stdin = child.stdin.take().unwrap();
    let bytes = input.to_vec();
    // a tool that does not read its input may have gone
    let feeds = std::thread::spawn(move || {
        let _ = stdin.write_all(&bytes);
    });
    let ran = child.wait_with_output().unwrap();
    feeds.join().unwrap();
    Ran {
        status: ran.status.code().expect("an exit status, not a signal"),
        out: ran.stdout,
        err: String::from_utf8(ran.stderr).unwrap(),
    }
}

/// A bad input or command line: status 2, nothing on standard output, and these words on standard error.
pub fn refused(words: &[&str], input: &[u8], says: &str) {
    let ran = usbhs(words, input);
    assert_eq!((ran.status, ran.text()), (2, ""), "{words:?}: {}", ran.err);
    assert!(ran.err.contains(says), "{words:?}: {}", ran.err);
}

/// A folder of the test's own, removed at its end.
pub struct Folder(pub PathBuf);

impl Folder {
    pub fn new(name: &str) -> Self {
        let path = std::env::temp_dir().join(format!("usbhs-{name}-{}", std::process::id()));
        std::fs::create_dir_all(&path).unwrap();
        Self(path)
    }

    pub fn file(&self, name: &str) -> String {
        self.0.join(name).to_str().unwrap().into()
    }

    pub fn write(&self, name: &str, bytes: &[u8]) -> String {
        std::fs::write(self.0.join(name), bytes).unwrap();
        self.file(name)
    }
}

impl Drop for Folder {
    fn drop(&mut self) {
        let _ = std::fs::remove_dir_all(&self.0);
    }
}

/// These bytes as an input that may be opened.
pub fn image(bytes: &[u8]) -> Image {
    static NEXT: AtomicUsize = AtomicUsize::new(0);
    let n = NEXT.fetch_add(1, Ordering::Relaxed);
    let path = std::env::temp_dir().join(format!("usbhs-image-{}-{n}", std::process::id()));
    std::fs::write(&path, bytes).unwrap();
    let image = Image::open(&path).unwrap();
    std::fs::remove_file(&path).unwrap();
    image
}

/// A stream of these packets.
pub fn stream<'a>(packets: impl Iterator<Item = (u32, &'a [u8])>) -> Vec<u8> {
    let (mut writer, mut card) = (Writer::default(), vec![]);
    let mut store = |block: &[u8; BLOCK]| card.extend_from_slice(block);
    packets.for_each(|(endpoint, packet)| writer.write(endpoint, packet, &mut store).unwrap());
    writer.finish(&mut store).unwrap();
    card
}

/// Numbers that look random, the same each time.
pub struct Numbers(pub u64);

impl Numbers {
    pub fn below(&mut self, n: usize) -> usize {
        self.0 = self.0.wrapping_mul(6_364_136_223_846_793_005).wrapping_add(1_442_695_040_888_963_407);
        (self.0 >> 33) as usize % n
    }

    pub fn bytes(&mut self, n: usize) -> Vec<u8> {
        (0..n).map(|_| self.below(256) as u8).collect()
    }
}
