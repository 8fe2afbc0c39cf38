//! `dropin` once more, with the changes of `wrong.txt` to choose from: `build.rs` makes the copy.

include!(concat!(env!("OUT_DIR"), "/root.rs"));
include!(concat!(env!("OUT_DIR"), "/titles.rs"));
