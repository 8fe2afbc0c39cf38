//! What a bare RV32 program's compiler looks for; memcpy and memset are firmware/runtime's.
#![feature(compiler_builtins)]
#![compiler_builtins]
#![no_std]
