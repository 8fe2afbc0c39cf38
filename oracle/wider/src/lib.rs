//! `original` once more, read with 1,024 among its buffer sizes (request Six): `build.rs` makes the copy.

include!(concat!(env!("OUT_DIR"), "/lib.rs"));
