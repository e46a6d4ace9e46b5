//! The Rust as oracle. The five files of the crate stand in this program unchanged: `ORACLE_FILES` names a file that
//! `oracle/compare` writes, with a `#[path]` line for each of them; nothing of the crate is copied.

// The five files are not ours to tidy.
#![allow(dead_code, unused_variables, unused_imports, unexpected_cfgs, clippy::all)]

/// Stands in for the crate's logging. Carries no behaviour.
macro_rules! warn {
    ($($words:tt)*) => {{}};
}

include!(env!("ORACLE_FILES"));

/// Stands in for the crate's lib.rs. Carries a little behaviour: which of its variants the published crate makes of an
/// iterator's error is not known, so the comparison looks only at whether there is an error, and at the length.
#[derive(Debug, PartialEq)]
pub enum Error {
    Codec(codec::Error),
    InvalidUuidLength(usize),
}

impl From<codec::Error> for Error {
    fn from(e: codec::Error) -> Self {
        Error::Codec(e)
    }
}

mod claims;
mod crate_side;
mod drive;
mod entries;
mod faults;
mod inputs;
mod list;
mod paper;
mod request;
#[cfg(speed)]
mod speed;

/// Overflow checks on: the build that panics where an unchecked subtraction wraps in the other one.
pub fn checked() -> bool {
    cfg!(overflow_checks_on)
}

fn main() {
    crate_side::hush();
    let words: Vec<String> = std::env::args().skip(1).collect();
    let status = match words.first().map(String::as_str) {
        Some("run") => drive::run(&words[1..]),
        Some("list") => list::print(),
        Some("faults") => faults::run(),
        Some("paper") => drive::answer_by_paper(),
        Some("text") => crate_side::print_text(&words[1]),
        #[cfg(speed)]
        Some("speed") => speed::run(),
        _ => {
            eprintln!("run [--all-of-length-3] PROGRAM WORDS.. | list | faults | paper | text CODE");
            2
        }
    };
    std::process::exit(status);
}
