//! A copy of the drop-in in which a number chooses one change of `wrong.txt`.

use std::path::{Path, PathBuf};

use oracle::wrong;

fn main() {
    let here = Path::new(env!("CARGO_MANIFEST_DIR")).canonicalize().unwrap();
    let (rust, out) = (here.join("../../../rust"), PathBuf::from(std::env::var("OUT_DIR").unwrap()));
    let (list, tests) = (here.join("../wrong.txt"), here.join("../src"));
    println!("cargo::rerun-if-changed={}", list.display());
    println!("cargo::rerun-if-changed={}", tests.display());
    let changes = wrong::parse(&std::fs::read_to_string(list).unwrap());
    wrong::copy(&rust, "ch32_hal/usbhs", &out.join("usbhs"), &changes);
    let source = std::fs::read_to_string(tests.join("lib.rs")).unwrap();
    let usbhs = out.join("usbhs/mod.rs").display().to_string();
    let root = wrong::root(&source, &tests, |name| (name == "usbhs").then(|| usbhs.clone()));
    std::fs::write(out.join("root.rs"), root).unwrap();
    let titles: Vec<&String> = changes.iter().map(|c| &c.title).collect();
    std::fs::write(out.join("titles.rs"), format!("pub const TITLES: &[&str] = &{titles:#?};\n")).unwrap();
}
