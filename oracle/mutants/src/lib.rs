//! `original` once more, with the changes of `mutations.txt` to choose from: `build.rs` makes the copy.

#![allow(unused_unsafe)]

include!(concat!(env!("OUT_DIR"), "/lib.rs"));
include!(concat!(env!("OUT_DIR"), "/names.rs"));
