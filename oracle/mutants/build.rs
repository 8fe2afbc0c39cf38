//! A copy of the four files in which a number chooses one change of `mutations.txt`.

fn main() {
    oracle::edits::build("mutations.txt", "CHANGES", oracle::edits::mutants);
}
