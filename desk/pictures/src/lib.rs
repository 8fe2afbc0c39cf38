//! The incident from end to end, and the pictures of the README.

pub mod incident;
pub mod picture;

use std::process::ExitCode;

/// A program's end: what went wrong is said, and the status is 2.
pub fn ended(program: &str, done: Result<(), String>) -> ExitCode {
    match done {
        Ok(()) => ExitCode::SUCCESS,
        Err(e) => {
            eprintln!("{program}: {e}");
            ExitCode::from(2)
        }
    }
}
