//! `original` once more, its arms counted: `build.rs` makes the copy.

include!(concat!(env!("OUT_DIR"), "/lib.rs"));
include!(concat!(env!("OUT_DIR"), "/names.rs"));

/// How often each arm was reached, and whether all were that have to be.
pub fn branch_table() -> (String, bool) {
    let (mut text, mut all) = (String::new(), true);
    for (arm, n) in ARMS.iter().zip(seam::hits()) {
        let note = match (n, outside(arm)) {
            (0, false) => "  NOT REACHED",
            (n, true) if n > 0 => "  REACHED, though outside",
            _ => "",
        };
        all &= note.is_empty();
        text += &format!("{n:>10}  {arm}{note}\n");
    }
    (text, all)
}

/// How many arms were reached, how many there are, and how many are outside the domain.
pub fn reached() -> (usize, usize, usize) {
    let reached = ARMS.iter().zip(seam::hits()).filter(|a| a.1 > 0).count();
    (reached, ARMS.len(), ARMS.iter().filter(|a| outside(a)).count())
}

/// Is the arm out of the domain?
pub fn outside(arm: &str) -> bool {
    arm.contains("(outside: ")
}
