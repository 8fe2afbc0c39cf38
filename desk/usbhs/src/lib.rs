//! For the people at the desk: what `usbhs` does, over the proved archives (include/usbhs.h, include/usbhs_survey.h).

pub mod args;
pub mod card;
mod card_picture;
mod card_samples;
pub mod channels;
pub mod coding;
pub mod descriptor;
#[allow(dead_code)]
#[path = "../../../rust/port/src/exported.rs"]
mod exported;
#[allow(dead_code)]
#[path = "../../../rust/port/src/exported_survey.rs"]
mod exported_survey;
pub mod image;
pub mod json;
#[path = "../../../oracle/compare/src/lent.rs"]
mod lent;
pub mod output;
#[path = "../../../oracle/compare/src/port.rs"]
pub mod port;
pub mod preview;
pub mod progress;
pub mod recorder;
pub mod replay;
pub mod rows;
mod stamps;
pub mod stream;
pub mod survey;
pub mod svg;
#[allow(dead_code)]
#[path = "../../../oracle/compare/src/together.rs"]
mod together;
pub mod visits;

/// Why a command ends without its answer: what is wrong, in words.
#[derive(Debug)]
pub enum Failure {
    /// The command line is not one of `--help`'s.
    Usage(String),
    /// A file cannot be read, or is not what it must be; a call was refused.
    Input(String),
    /// Whoever reads the output went away: nothing to say.
    Closed,
}

pub type Done<T> = Result<T, Failure>;

/// What is wrong with an input.
pub fn bad<T>(words: impl Into<String>) -> Done<T> {
    Err(Failure::Input(words.into()))
}
