//! The words of a command line: options with or without a value, and the rest. A file's name may have any bytes.

use std::ffi::{OsStr, OsString};
use std::path::PathBuf;

use crate::{Done, Failure};

pub struct Args {
    words: Vec<OsString>,
}

pub fn usage<T>(words: impl Into<String>) -> Done<T> {
    Err(Failure::Usage(words.into()))
}

/// `--name=VALUE`: its value.
fn behind_equals(word: &OsStr, name: &str) -> Option<OsString> {
    let bytes = word.as_encoded_bytes().strip_prefix(name.as_bytes())?.strip_prefix(b"=")?;
    // SAFETY: what stands behind an ASCII character of a word is a word
    Some(unsafe { OsStr::from_encoded_bytes_unchecked(bytes) }.to_owned())
}

fn is_option(word: &OsStr) -> bool {
    word != "-" && word.as_encoded_bytes().starts_with(b"-")
}

/// A word as text, for what is no file.
fn text(word: OsString) -> Done<String> {
    word.into_string().or_else(|w| usage(format!("{} is not a text", w.to_string_lossy())))
}

impl Args {
    pub fn new(words: Vec<OsString>) -> Self {
        Self { words }
    }

    pub fn is_empty(&self) -> bool {
        self.words.is_empty()
    }

    /// Is this option there? It is taken out.
    pub fn flag(&mut self, name: &str) -> bool {
        let before = self.words.len();
        self.words.retain(|w| w != name);
        self.words.len() != before
    }

    fn option(&mut self, name: &str) -> Done<Option<OsString>> {
        let mut found = None;
        while let Some(i) = self.words.iter().position(|w| w == name || behind_equals(w, name).is_some()) {
            let word = self.words.remove(i);
            let value = match behind_equals(&word, name) {
                Some(value) => value,
                None if i < self.words.len() => self.words.remove(i),
                None => return usage(format!("{name} needs a value")),
            };
            if found.replace(value).is_some() {
                return usage(format!("{name} stands twice"));
            }
        }
        Ok(found)
    }

    /// The value of an option, `--name VALUE` or `--name=VALUE`.
    pub fn value(&mut self, name: &str) -> Done<Option<String>> {
        self.option(name)?.map(text).transpose()
    }

    /// The file that an option names.
    pub fn file(&mut self, name: &str) -> Done<Option<PathBuf>> {
        Ok(self.option(name)?.map(PathBuf::from))
    }

    pub fn number(&mut self, name: &str) -> Done<Option<u32>> {
        self.value(name)?.map(|v| number(name, &v)).transpose()
    }

    /// A number of at least 0 that may have a fraction.
    pub fn fraction(&mut self, name: &str) -> Done<Option<f64>> {
        let parsed = |v: String| match v.parse::<f64>() {
            Ok(n) if n.is_finite() && n > 0.0 => Ok(n),
            _ => usage(format!("{name}: {v} is no number above 0")),
        };
        self.value(name)?.map(parsed).transpose()
    }

    fn next(&mut self, what: &str) -> Done<OsString> {
        match self.words.first() {
            None => usage(format!("{what} is missing")),
            Some(w) if is_option(w) => usage(format!("{} is no option here", w.to_string_lossy())),
            Some(_) => Ok(self.words.remove(0)),
        }
    }

    /// The next word that is no option.
    pub fn word(&mut self, what: &str) -> Done<String> {
        text(self.next(what)?)
    }

    /// The next word, the name of a file; `-` is standard input.
    pub fn path(&mut self, what: &str) -> Done<PathBuf> {
        Ok(self.next(what)?.into())
    }

    /// Nothing is left.
    pub fn end(&self) -> Done<()> {
        match self.words.first() {
            None => Ok(()),
            Some(w) if is_option(w) => usage(format!("{} is no option here", w.to_string_lossy())),
            Some(w) => usage(format!("{} is too much", w.to_string_lossy())),
        }
    }
}

/// A decimal number, or a hexadecimal one with `0x`.
pub fn number(name: &str, word: &str) -> Done<u32> {
    let parsed = match word.strip_prefix("0x") {
        Some(digits) => u32::from_str_radix(digits, 16),
        None => word.parse(),
    };
    parsed.or_else(|_| usage(format!("{name}: {word} is no number from 0 to 4,294,967,295")))
}
