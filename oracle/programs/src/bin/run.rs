//! run [--check | --bytes] FILE...: makes the calls of each list on the Rust and prints the list with its answers (--check: nothing; --bytes:
//! the entries as bytes, see FORMAT.md). Ends with 1 if an answer that a list gives is not the Rust's.

use std::io::Write;
use std::process::ExitCode;

fn main() -> ExitCode {
    let mut files: Vec<String> = std::env::args().skip(1).collect();
    let mut option = |name| {
        let given = files.first().is_some_and(|f| f == name);
        if given {
            files.remove(0);
        }
        given
    };
    let (check, bytes) = (option("--check"), option("--bytes"));
    let mut wrong = 0;
    let mut rust = original::Rust::new();
    let mut out = std::io::stdout().lock();
    for file in &files {
        let list = std::fs::read_to_string(file).unwrap_or_else(|e| panic!("{file}: {e}"));
        let run = oracle::replay::replay_entries(&mut rust, &list).unwrap_or_else(|e| panic!("{file}: {e}"));
        if bytes {
            out.write_all(&oracle::number::bytes(&run.entries)).unwrap();
        } else if !check {
            out.write_all(run.text.as_bytes()).unwrap();
        }
        if let Some(d) = run.wrong {
            eprintln!("{file}: {d}");
            wrong += 1;
        }
    }
    ExitCode::from((wrong != 0) as u8)
}
