//! A copy of the safe API in which a number chooses one change of `wrong.txt`; links the port.

use std::path::{Path, PathBuf};

use oracle::wrong;

fn main() {
    let here = Path::new(env!("CARGO_MANIFEST_DIR")).canonicalize().unwrap();
    let (rust, out) = (here.join("../../../rust"), PathBuf::from(std::env::var("OUT_DIR").unwrap()));
    let list = here.join("../wrong.txt");
    println!("cargo::rerun-if-changed={}", list.display());
    let changes = wrong::parse(&std::fs::read_to_string(list).unwrap());
    wrong::copy(&rust, "port/src", &out, &changes);
    let source = std::fs::read_to_string(out.join("lib.rs")).unwrap();
    std::fs::write(out.join("root.rs"), wrong::root(&source, &out, |_| None)).unwrap();
    println!("cargo::rustc-link-search=native={}", here.join("../../../target/staticlib").display());
    println!("cargo::rustc-link-lib=static=usbhs_c");
}
