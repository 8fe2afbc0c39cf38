# SPDX-License-Identifier: MIT OR Apache-2.0
# shellcheck shell=bash
# Rust for RV32. To be sourced at the repository's root; rust_rv32 then brings it, one caller at a time, and sets
# rv32_rust, the folder of its bin/rustc and of libcore.rlib.
#
# Debian's rustc-web has no core library for RV32, so its package and the sources are unpacked (not installed) below
# ~/.cache/usbhs-rust-rv32, and core is compiled there, once. It lies in the compiler's own folder too, so that cargo
# finds it by the target's name.

rv32_rust=${XDG_CACHE_HOME:-$HOME/.cache}/usbhs-rust-rv32
rv32_target=riscv32imac-unknown-none-elf

# The compiler, with its own libraries.
rv32_rustc() {
    LD_LIBRARY_PATH=$rv32_rust/usr/lib/x86_64-linux-gnu RUSTC_BOOTSTRAP=1 "$rv32_rust/usr/bin/rustc" "$@"
}

rv32_unpack() {
    local work std packages
    work=$(mktemp -d)
    apt-get update -qq
    std=$(apt-cache depends libstd-rust-web-dev | awk '/Depends: libstd-rust-web-1/ { print $2; exit }')
    packages="rustc-web rust-web-src libstd-rust-web-dev $std"
    packages+=" $(apt-cache depends "$std" | awk '/Depends: libllvm/ { print $2; exit }')"
    # shellcheck disable=SC2086
    (cd "$work" && apt-get download -qq $packages 2>/dev/null &&
        for deb in *.deb; do dpkg-deb -x "$deb" "$rv32_rust"; done)
    rm -rf "$work"
}

rv32_core() {
    local words=(--target "$rv32_target" -C opt-level=3 -C panic=abort -C codegen-units=1 -C overflow-checks=off
        -C debug-assertions=off --cap-lints allow --crate-type rlib --out-dir "$rv32_rust/new")
    rv32_rustc --edition 2024 "${words[@]}" --crate-name core "$rv32_rust"/usr/src/rustc-*/library/core/src/lib.rs
    rv32_rustc --edition 2021 "${words[@]}" -L "$rv32_rust/new" --crate-name compiler_builtins \
        tests/chip/rust/builtins.rs
    mv "$rv32_rust"/new/*.rlib "$rv32_rust"
}

rust_rv32() {
    local lib=$rv32_rust/usr/lib/rustlib/$rv32_target/lib file
    mkdir -p "$rv32_rust"
    exec 8>"$rv32_rust/lock"
    flock 8
    [ -x "$rv32_rust/usr/bin/rustc" ] || rv32_unpack
    [ -f "$rv32_rust/libcore.rlib" ] || rv32_core
    mkdir -p "$lib"
    for file in core compiler_builtins; do ln -sf "$rv32_rust/lib$file.rlib" "$lib"; done
    exec 8>&-
}
