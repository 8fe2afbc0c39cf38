// The proved archive, written by `firmware/staticlib state_bench` in the repository's root.
fn main() {
    let root = std::env::var("CARGO_MANIFEST_DIR").unwrap();
    println!("cargo:rustc-link-search=native={root}/../target/staticlib");
    println!("cargo:rustc-link-lib=static=state_bench");
    println!("cargo:rerun-if-changed={root}/../target/staticlib/libstate_bench.a");
}
