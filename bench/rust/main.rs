//! What an end of the library for C costs: one call, a long connection, and blocks of memory.
//! `bench/build` compiles it over the library that `tools/library` installs.
//!
//! The first word says what is measured, and the second how often:
//!
//! - `calls`: one `dccp_send` and one packet of each kind at an end in OPEN, beside copying its bytes once and taking their checksum;
//! - `ends`: an end in OPEN to which many packets of data come, beside copying and summing each;
//! - `blocks`: packets at an end, and two ends that send each other data, for a count of what they allocate.
//!
//! A bench that does not do what it should ends by a panic. Nothing is claimed of what it prints.

#[allow(dead_code)] // The crate for Rust calls more of it.
#[path = "../../rust/dccp-sys/src/lib.rs"]
mod sys;

mod blocks;
mod calls;
mod ends;
mod frames;
mod library;
mod pair;

use std::env;
use std::process::ExitCode;

fn main() -> ExitCode {
    let words: Vec<String> = env::args().skip(1).collect();
    let [what, count] = words.as_slice() else {
        return refused();
    };
    match (what.as_str(), count.parse()) {
        ("calls", Ok(batches)) => calls::measure(batches),
        ("ends", Ok(rounds)) => ends::measure(rounds),
        ("blocks", Ok(rounds)) => blocks::measure(rounds),
        _ => return refused(),
    }
    ExitCode::SUCCESS
}

fn refused() -> ExitCode {
    eprintln!("usage: bench calls | ends | blocks COUNT");
    ExitCode::from(2)
}
