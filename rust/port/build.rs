//! Links the proved archives: from the folder `USBHS_ARCHIVES`; else, by the target, from where this repository makes
//! them (`target/`, by `firmware/build`); else those that lie in `prebuilt/`.

use std::env;
use std::path::{Path, PathBuf};

/// The folders below `target/` and `prebuilt/` for a Rust target.
fn folders(target: &str) -> Option<(&'static str, &'static str)> {
    match target.split('-').next()? {
        "x86_64" => Some(("staticlib", "x86_64")),
        "riscv32imac" => Some(("rv32imac", "rv32imac")),
        "riscv32imafc" => Some(("rv32imafc", "rv32imafc")),
        _ => None,
    }
}

fn main() {
    println!("cargo::rerun-if-env-changed=USBHS_ARCHIVES");
    let mut archives = vec!["usbhs_c"];
    if env::var_os("CARGO_FEATURE_SURVEY").is_some() {
        archives.push("survey_c");
    }
    let root = Path::new(env!("CARGO_MANIFEST_DIR")).join("../..");
    let target = env::var("TARGET").unwrap_or_default();
    let folder = match (env::var_os("USBHS_ARCHIVES").filter(|f| !f.is_empty()), folders(&target)) {
        (Some(folder), _) => PathBuf::from(folder),
        (None, Some((made, kept))) => {
            let made = root.join("target").join(made);
            let all = archives.iter().all(|name| made.join(format!("lib{name}.a")).exists());
            if all {
                made
            } else {
                root.join("prebuilt").join(kept)
            }
        }
        (None, None) => {
            println!("cargo::error=no archive for {target}: USBHS_ARCHIVES names the folder of one");
            return;
        }
    };
    println!("cargo::rustc-link-search=native={}", folder.display());
    for name in archives {
        let archive = folder.join(format!("lib{name}.a"));
        if !archive.exists() {
            println!("cargo::error={} is not there: USBHS_ARCHIVES names its folder", archive.display());
        }
        println!("cargo::rustc-link-lib=static={name}");
        println!("cargo::rerun-if-changed={}", archive.display());
    }
}
