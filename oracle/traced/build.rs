//! A copy of the four files in which every arm of `branches.txt` is counted.

fn main() {
    oracle::edits::build("branches.txt", "ARMS", oracle::edits::arms);
}
