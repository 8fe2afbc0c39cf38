//! A copy of the four files in which one line has one buffer size more.

fn main() {
    oracle::edits::build("sizes.txt", "SIZES", |_| vec![]);
}
