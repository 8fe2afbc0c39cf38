//! What is written: to standard output or into a file, numbers with their thousands apart.
//!
//! A file is written beside its place, as FILE.part, and gets its name when it is whole. So nothing that was there
//! before is lost where the work does not come to its end.

use std::fs::OpenOptions;
use std::io::{self, BufWriter, ErrorKind, Write};
use std::path::{Path, PathBuf};

use crate::image::{name, Identity};
use crate::{bad, Done, Failure};

/// Standard output. The system gives the null device in its place where it is closed: then what is written would be
/// lost, and nobody told.
struct Standard(io::Stdout);

#[cfg(any(target_os = "linux", target_os = "macos"))]
mod closed {
    use std::sync::atomic::{AtomicBool, Ordering};

    static CLOSED: AtomicBool = AtomicBool::new(false);

    extern "C" {
        fn fcntl(fd: i32, command: i32, ...) -> i32;
    }

    const F_GETFD: i32 = 1;

    /// Before the language's own start, which opens the null device.
    extern "C" fn look() {
        // SAFETY: asks about a number
        CLOSED.store(unsafe { fcntl(1, F_GETFD) } == -1, Ordering::Relaxed);
    }

    #[used]
    #[cfg_attr(target_os = "linux", link_section = ".init_array")]
    #[cfg_attr(target_os = "macos", link_section = "__DATA,__mod_init_func")]
    static LOOK: extern "C" fn() = look;

    pub fn closed() -> bool {
        CLOSED.load(Ordering::Relaxed)
    }
}

#[cfg(not(any(target_os = "linux", target_os = "macos")))]
mod closed {
    pub fn closed() -> bool {
        false
    }
}

impl Write for Standard {
    fn write(&mut self, bytes: &[u8]) -> io::Result<usize> {
        if closed::closed() {
            return Err(io::Error::other("standard output is closed"));
        }
        self.0.write(bytes)
    }

    fn flush(&mut self) -> io::Result<()> {
        self.0.flush()
    }
}

/// Where an answer goes.
pub struct Output {
    to: BufWriter<Box<dyn Write>>,
    /// The file that is written, and the name that it gets.
    part: Option<(PathBuf, PathBuf)>,
    what: String,
}

fn failed<T>(path: &Path, e: &io::Error) -> Done<T> {
    bad(format!("{}: {}", name(path), words(e)))
}

/// FILE.part.
fn part_of(path: &Path) -> PathBuf {
    let mut part = path.as_os_str().to_owned();
    part.push(".part");
    part.into()
}

impl Output {
    pub fn standard() -> Self {
        let to: Box<dyn Write> = Box::new(Standard(io::stdout()));
        Self { to: BufWriter::with_capacity(1 << 16, to), part: None, what: "standard output".into() }
    }

    /// A file, or standard output where it is `-` or there is none. None of the inputs may be written over.
    pub fn create(path: Option<&Path>, inputs: &[Option<Identity>]) -> Done<Self> {
        let is_input = |found: Option<Identity>| found.is_some() && inputs.contains(&found);
        let path = match path {
            None => return Self::to_standard(inputs),
            Some(path) if path.as_os_str() == "-" => return Self::to_standard(inputs),
            Some(path) => path,
        };
        if is_input(Identity::of(path)) {
            return bad(format!("{}: this is the input, and would be lost; write to another file", name(path)));
        }
        // through a link the file that it names is replaced, not the link
        let path = &std::fs::canonicalize(path).unwrap_or_else(|_| path.into());
        let special = std::fs::metadata(path).is_ok_and(|m| !m.is_file());
        let (opened, part) = if special {
            (OpenOptions::new().write(true).open(path), None)
        } else {
            let part = part_of(path);
            if is_input(Identity::of(&part)) {
                return bad(format!("{}: this is the input, and would be lost; write to another file", name(&part)));
            }
            let opened = OpenOptions::new().write(true).create_new(true).open(&part);
            if opened.as_ref().is_err_and(|e| e.kind() == ErrorKind::AlreadyExists) {
                return bad(format!("{}: it is there already, from work that did not end; remove it", name(&part)));
            }
            (opened, Some((part, path.clone())))
        };
        let file = opened.or_else(|e| failed(path, &e))?;
        let to: Box<dyn Write> = Box::new(file);
        Ok(Self { to: BufWriter::with_capacity(1 << 18, to), part, what: name(path) })
    }

    fn to_standard(inputs: &[Option<Identity>]) -> Done<Self> {
        let found = Identity::of_output();
        if found.is_some() && inputs.contains(&found) {
            return bad("standard output is the input, and would be lost; write to another file");
        }
        Ok(Self::standard())
    }

    /// What stays where the work fails.
    fn left(&self) -> String {
        match &self.part {
            Some((part, _)) => format!(" (what was written is in {})", name(part)),
            None => String::new(),
        }
    }

    fn outcome<T>(&self, outcome: io::Result<T>) -> Done<T> {
        outcome.map_err(|e| match e.kind() {
            ErrorKind::BrokenPipe => Failure::Closed,
            _ => Failure::Input(format!("{}: cannot be written: {}{}", self.what, words(&e), self.left())),
        })
    }

    pub fn write(&mut self, bytes: &[u8]) -> Done<()> {
        let outcome = self.to.write_all(bytes);
        self.outcome(outcome)
    }

    /// All is written: the file gets its name.
    pub fn finish(mut self) -> Done<()> {
        let outcome = self.to.flush();
        self.outcome(outcome)?;
        match &self.part {
            Some((part, path)) => self.outcome(std::fs::rename(part, path)),
            None => Ok(()),
        }
    }

    /// The work has failed: what it says, and what is left.
    pub fn abandon(self, failure: Failure) -> Failure {
        match failure {
            Failure::Input(words) => Failure::Input(words + &self.left()),
            other => other,
        }
    }
}

/// A whole answer, at once.
pub fn write_to(path: Option<&Path>, inputs: &[Option<Identity>], bytes: &[u8]) -> Done<()> {
    let mut output = Output::create(path, inputs)?;
    output.write(bytes)?;
    output.finish()
}

/// An error of the system without its number.
pub fn words(e: &io::Error) -> String {
    let text = e.to_string();
    match text.find(" (os error") {
        Some(at) => text[..at].to_string(),
        None => text,
    }
}

/// 1234567 as 1,234,567.
pub fn thousands(n: u64) -> String {
    let digits = n.to_string();
    let mut text = String::new();
    for (i, c) in digits.chars().enumerate() {
        if i != 0 && (digits.len() - i) % 3 == 0 {
            text.push(',');
        }
        text.push(c);
    }
    text
}

/// So many of a thing: 1 block, 2 blocks.
pub fn count(n: u64, thing: &str) -> String {
    format!("{} {thing}{}", thousands(n), if n == 1 { "" } else { "s" })
}

#[cfg(test)]
mod tests {
    #[test]
    fn thousands() {
        let all: Vec<String> = [0, 999, 1_000, 65_536, 1_234_567].map(super::thousands).into();
        assert_eq!(all, ["0", "999", "1,000", "65,536", "1,234,567"]);
        assert_eq!(super::count(1, "block") + " " + &super::count(1_000, "block"), "1 block 1,000 blocks");
    }
}
