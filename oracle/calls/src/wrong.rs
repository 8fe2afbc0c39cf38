//! Wrong drop-ins (`dropin/wrong.txt`): copies of Rust files in which a number chooses one change.

use std::path::Path;

/// A text that stands once in one file, replaced.
pub struct Change {
    pub file: String,
    pub title: String,
    pub old: String,
    pub new: String,
}

/// Line ends and indentation are one blank, in the files as in `old`.
fn blanks(text: &str) -> String {
    text.split_whitespace().collect::<Vec<_>>().join(" ")
}

/// Two lines for each: file and title, `old ~> new`.
pub fn parse(text: &str) -> Vec<Change> {
    let lines: Vec<&str> = text.lines().filter(|l| !l.is_empty() && !l.starts_with('#')).collect();
    let change = |(n, pair): (usize, &[&str])| {
        let (file, title) = pair[0].split_once(' ').expect("a title");
        let (old, new) = pair[1].trim().split_once(" ~> ").expect("old ~> new");
        assert!(new.contains("MUT"), "{title} has no MUT");
        let new = new.replace("MUT", &format!("seam::mutant({n})"));
        Change { file: file.into(), title: title.into(), old: blanks(old), new }
    };
    lines.chunks(2).enumerate().map(change).collect()
}

/// The text with the changes of this file. Where one spans lines, blanks between words do not count.
pub fn apply(file: &str, source: &str, changes: &[Change]) -> String {
    let mut text = source.to_string();
    for c in changes.iter().filter(|c| c.file == file) {
        let words: Vec<&str> = c.old.split(' ').collect();
        let places: Vec<(usize, usize)> =
            text.match_indices(words[0]).filter_map(|(at, _)| Some((at, at + spans(&text[at..], &words)?))).collect();
        assert!(places.len() == 1, "{file}: {} stands there {} times", c.old, places.len());
        text.replace_range(places[0].0..places[0].1, &c.new);
    }
    text
}

/// How far these words reach from the text's begin, if it begins with them.
fn spans(text: &str, words: &[&str]) -> Option<usize> {
    let mut at = 0;
    for (k, word) in words.iter().enumerate() {
        if k > 0 {
            let rest = &text[at..];
            let blank = rest.len() - rest.trim_start().len();
            if blank == 0 {
                return None;
            }
            at += blank;
        }
        at += text[at..].strip_prefix(word).map(|_| word.len())?;
    }
    Some(at)
}

/// Writes a folder's files, changed, under `to`.
pub fn copy(rust: &Path, folder: &str, to: &Path, changes: &[Change]) {
    std::fs::create_dir_all(to).unwrap();
    for entry in std::fs::read_dir(rust.join(folder)).unwrap() {
        let name = entry.unwrap().file_name().into_string().unwrap();
        let source = std::fs::read_to_string(rust.join(folder).join(&name)).unwrap();
        std::fs::write(to.join(&name), apply(&format!("{folder}/{name}"), &source, changes)).unwrap();
    }
    println!("cargo::rerun-if-changed={}", rust.join(folder).display());
}

/// A crate root for an `include!`: without inner attributes and documentation, its modules from `at`, other paths from
/// `from`.
pub fn root(source: &str, from: &Path, at: impl Fn(&str) -> Option<String>) -> String {
    let mut root = String::new();
    let mut path = None;
    for line in source.lines().filter(|l| !l.starts_with("//!") && !l.starts_with("#![")) {
        if let Some(rest) = line.strip_prefix("#[path = \"") {
            path = Some(rest.trim_end_matches("\"]"));
            continue;
        }
        let name = line.trim_end_matches(';').rsplit(' ').next().unwrap();
        if line.ends_with(';') && line.contains("mod ") {
            let file = match (at(name), path.take()) {
                (Some(file), _) => file,
                (None, Some(path)) => from.join(path).display().to_string(),
                (None, None) => from.join(format!("{name}.rs")).display().to_string(),
            };
            root += &format!("#[path = \"{file}\"]\n");
        }
        root += line;
        root.push('\n');
    }
    root
}
