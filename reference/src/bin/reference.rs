//! The program `reference`; `src/programs/by_case.rs` says what it does.

use reference::bench::bench;
use reference::programs::by_case::main as program;
use std::process::ExitCode;

fn main() -> ExitCode {
    program("reference", std::env::args().skip(1), bench)
}
