//! Edits of copies of the Rust: `branches.txt` (arms to count) and `mutations.txt` (changes to be noticed).

use std::path::{Path, PathBuf};

/// One line of one file, a part of it replaced.
#[derive(Clone, Debug)]
pub struct Edit {
    pub file: &'static str,
    pub line: usize,
    pub title: String,
    pub old: String,
    pub new: String,
}

pub const FILES: [(char, &str); 4] =
    [('M', "usbhs/mod.rs"), ('E', "usbhs/endpoint.rs"), ('C', "usbhs/control.rs"), ('A', "usb/mod.rs")];

pub fn parse(text: &str) -> Vec<Edit> {
    let lines: Vec<&str> = text.lines().filter(|l| !l.is_empty() && !l.starts_with('#')).collect();
    lines
        .chunks(2)
        .map(|pair| {
            let (place, title) = pair[0].split_once(' ').expect("a title");
            let file = FILES.iter().find(|f| place.starts_with(f.0)).expect("M, E, C or A").1;
            let edit = pair[1].trim();
            let (old, new) = match edit.strip_suffix(" ~>") {
                Some(old) => (old, ""),
                None => edit.split_once(" ~> ").expect("old ~> new"),
            };
            Edit {
                file,
                line: place[1..].parse().expect("a line's number"),
                title: title.into(),
                old: old.into(),
                new: new.into(),
            }
        })
        .collect()
}

/// `source` with those of `edits` that are of this file.
pub fn apply(file: &str, source: &str, edits: &[Edit]) -> String {
    let mut lines: Vec<String> = source.lines().map(Into::into).collect();
    for e in edits.iter().filter(|e| e.file == file) {
        let line = &mut lines[e.line - 1];
        assert!(line.matches(&e.old).count() == 1, "{file}:{}: {} is not once in {line}", e.line, e.old);
        *line = line.replace(&e.old, &e.new);
    }
    lines.join("\n") + "\n"
}

/// Writes the edited copies under `to`, and a crate root like `original`'s that names them; answers the root's text.
pub fn copy(oracle: &Path, to: &Path, edits: &[Edit]) -> String {
    for (_, file) in FILES {
        let source = std::fs::read_to_string(oracle.join("../docs/src").join(file)).unwrap();
        let at = to.join(file);
        std::fs::create_dir_all(at.parent().unwrap()).unwrap();
        std::fs::write(at, apply(file, &source, edits)).unwrap();
    }
    let root = std::fs::read_to_string(oracle.join("original/src/lib.rs")).unwrap();
    let shared = oracle.join("original/src");
    root.lines()
        .filter(|l| !l.starts_with("//!"))
        .map(|l| match l.strip_prefix("#[path = \"../../../docs/src/") {
            Some(rest) => format!("#[path = \"{}/{rest}\n", to.display()),
            None => match l.strip_prefix("#[path = \"") {
                Some(rest) => format!("#[path = \"{}/{rest}\n", shared.display()),
                None => format!("{l}\n"),
            },
        })
        .collect()
}

/// For a build script: `lib.rs`, a copy of the four files with the edits of a list, which `number` has numbered, and
/// `names.rs`, a constant with the names that it answers.
pub fn build(list: &str, constant: &str, number: impl FnOnce(&mut [Edit]) -> Vec<String>) {
    let of = |variable| PathBuf::from(std::env::var(variable).unwrap());
    let oracle = of("CARGO_MANIFEST_DIR").join("..").canonicalize().unwrap();
    let out = of("OUT_DIR");
    for file in [list, "../docs/src", "original/src"] {
        println!("cargo::rerun-if-changed={}", oracle.join(file).display());
    }
    let mut edits = parse(&std::fs::read_to_string(oracle.join(list)).unwrap());
    let names = number(&mut edits);
    std::fs::write(out.join("lib.rs"), copy(&oracle, &out, &edits)).unwrap();
    std::fs::write(out.join("names.rs"), format!("pub const {constant}: &[&str] = &{names:#?};\n")).unwrap();
}

/// Numbers the arms: `HIT` and `BR(c)` become calls, the names are in the order of their numbers.
pub fn arms(edits: &mut [Edit]) -> Vec<String> {
    let mut names = vec![];
    for e in edits {
        let (function, arms) = e.title.split_once(": ").expect("function: arms");
        let mut arms = arms.split(" / ");
        let mut next = |names: &mut Vec<String>| {
            let arm = arms.next().unwrap_or_else(|| panic!("line {}: an arm without a name", e.line));
            names.push(format!("{function}: {arm}"));
            names.len() - 1
        };
        let (mut rest, mut new) = (e.new.as_str(), String::new());
        while let Some(at) = [rest.find("HIT"), rest.find("BR(")].into_iter().flatten().min() {
            new += &rest[..at];
            rest = &rest[at + 3..];
            let n = next(&mut names);
            if e.new[e.new.len() - rest.len() - 3..].starts_with("HIT") {
                new += &format!("seam::hit({n})");
            } else {
                next(&mut names);
                new += &format!("seam::branch({n}, ");
            }
        }
        assert!(arms.next().is_none(), "line {}: a name too many", e.line);
        e.new = new + rest;
    }
    names
}

/// Numbers the changes: `MUT` becomes the question whether this one is made. Answers their names.
pub fn mutants(edits: &mut [Edit]) -> Vec<String> {
    for (n, e) in edits.iter_mut().enumerate() {
        assert!(e.new.contains("MUT"), "line {}: {} has no MUT", e.line, e.title);
        e.new = e.new.replace("MUT", &format!("seam::mutant({n})"));
    }
    edits.iter().map(|e| e.title.clone()).collect()
}
