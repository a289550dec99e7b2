//! The original type checker, run on the word images of document 01. See README.md.

#![feature(allocator_api)]

pub mod case;
pub mod check;
mod decode;
mod domain;
mod packages;
pub mod rows;
mod sites;
pub mod timed;
mod visits;

use std::process::ExitCode;

/// Runs `main` on a large stack: the checker recurses over nodes and types.
pub fn on_large_stack(main: fn() -> ExitCode) -> ExitCode {
    let run = std::thread::Builder::new()
        .stack_size(256 << 20)
        .spawn(main);
    run.map_or(ExitCode::from(2), |t| t.join().unwrap_or(ExitCode::from(2)))
}
