//! An input: a file, a card itself, or what comes through a pipe. It is read once, from front to end.

use std::fs::{File, Metadata};
use std::io::{stdin, ErrorKind, Read, Seek, SeekFrom};
use std::path::{Path, PathBuf};

use crate::output::words;
use crate::{bad, Done};

fn cannot<T>(path: &Path, e: &std::io::Error) -> Done<T> {
    bad(format!("{}: {}", name(path), words(e)))
}

/// What the input is called in messages.
pub fn name(path: &Path) -> String {
    if path.as_os_str() == "-" {
        "standard input".into()
    } else {
        path.display().to_string()
    }
}

/// An open input.
pub struct Image {
    pub path: PathBuf,
    source: Box<dyn Read + Send>,
    pub identity: Option<Identity>,
    /// How many bytes it has, where it can tell.
    pub length: Option<u64>,
}

/// Which file it is: two names with one identity are one file.
#[derive(Clone, Debug, PartialEq, Eq)]
pub struct Identity(Kind);

#[derive(Clone, Debug, PartialEq, Eq)]
enum Kind {
    #[cfg(unix)]
    Inode(u64, u64),
    #[cfg(not(unix))]
    Name(PathBuf),
}

impl Identity {
    /// Of a file or a card; a terminal, a pipe or the null device may be read and written.
    #[cfg(unix)]
    fn of_metadata(m: &Metadata) -> Option<Self> {
        use std::os::unix::fs::{FileTypeExt, MetadataExt};
        (m.is_file() || m.file_type().is_block_device()).then(|| Self(Kind::Inode(m.dev(), m.ino())))
    }

    #[cfg(unix)]
    pub fn of(path: &Path) -> Option<Self> {
        Self::of_metadata(&std::fs::metadata(path).ok()?)
    }

    #[cfg(not(unix))]
    pub fn of(path: &Path) -> Option<Self> {
        std::fs::canonicalize(path).ok().map(|p| Self(Kind::Name(p)))
    }

    /// Of standard output.
    #[cfg(unix)]
    pub fn of_output() -> Option<Self> {
        use std::os::fd::AsFd;
        let file = File::from(std::io::stdout().as_fd().try_clone_to_owned().ok()?);
        Self::of_metadata(&file.metadata().ok()?)
    }

    #[cfg(not(unix))]
    pub fn of_output() -> Option<Self> {
        None
    }
}

/// Standard input as what it is, a file perhaps.
#[cfg(unix)]
fn standard_input() -> std::io::Result<(Box<dyn Read + Send>, Option<File>)> {
    use std::os::fd::AsFd;
    let file = File::from(stdin().as_fd().try_clone_to_owned()?);
    Ok((Box::new(file.try_clone()?), Some(file)))
}

#[cfg(not(unix))]
fn standard_input() -> std::io::Result<(Box<dyn Read + Send>, Option<File>)> {
    Ok((Box::new(stdin()), None))
}

/// Where the input is, what is left of it; nothing of a pipe.
fn left(file: &mut File, m: &Metadata) -> Option<u64> {
    let here = file.stream_position().ok()?;
    if m.is_file() {
        return Some(m.len().saturating_sub(here));
    }
    // a card itself has a length, the null device has none
    let end = file.seek(SeekFrom::End(0)).ok()?;
    file.seek(SeekFrom::Start(here)).ok()?;
    (end > here).then(|| end - here)
}

impl Image {
    pub fn open(path: &Path) -> Done<Self> {
        let opened = (|| {
            let (source, file): (Box<dyn Read + Send>, _) = if path.as_os_str() == "-" {
                standard_input()?
            } else {
                let file = File::open(path)?;
                (Box::new(file.try_clone()?), Some(file))
            };
            let Some(mut file) = file else {
                return Ok(Self { path: path.into(), source, identity: None, length: None });
            };
            let m = file.metadata()?;
            if m.is_dir() {
                return Err(ErrorKind::IsADirectory.into());
            }
            #[cfg(unix)]
            let identity = Identity::of_metadata(&m);
            #[cfg(not(unix))]
            let identity = Identity::of(path);
            Ok(Self { path: path.into(), source, identity, length: left(&mut file, &m) })
        })();
        opened.or_else(|e| cannot(path, &e))
    }

    /// Bytes that are read already, under their input's name.
    pub fn of_bytes(name: &str, bytes: Vec<u8>) -> Self {
        let length = Some(bytes.len() as u64);
        Self { path: name.into(), source: Box::new(std::io::Cursor::new(bytes)), identity: None, length }
    }

    /// Reads until the room is full or the input ends: how many bytes.
    pub fn fill(&mut self, room: &mut [u8]) -> std::io::Result<usize> {
        let mut n = 0;
        while n < room.len() {
            match self.source.read(&mut room[n..]) {
                Ok(0) => break,
                Ok(more) => n += more,
                Err(e) if e.kind() == ErrorKind::Interrupted => {}
                Err(e) => return Err(e),
            }
        }
        Ok(n)
    }

    /// All of it, at most `most` bytes.
    pub fn small(mut self, most: usize) -> Done<Vec<u8>> {
        let mut bytes = vec![];
        let read = (&mut self.source).take(most as u64 + 1).read_to_end(&mut bytes);
        if let Err(e) = read {
            return cannot(&self.path, &e);
        }
        if bytes.len() > most {
            return bad(format!("{}: more than {} bytes", name(&self.path), crate::output::thousands(most as u64)));
        }
        Ok(bytes)
    }

    /// The same as text.
    pub fn text(self, most: usize) -> Done<String> {
        let path = self.path.clone();
        String::from_utf8(self.small(most)?).or_else(|_| bad(format!("{}: not a text", name(&path))))
    }
}

/// A text of at most `most` bytes.
pub fn text(path: &Path, most: usize) -> Done<String> {
    Image::open(path)?.text(most)
}
