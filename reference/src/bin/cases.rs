//! The program `cases`; `src/programs/cases.rs` says what it does.

use reference::bench::answer;
use reference::programs::cases::main as program;
use std::process::ExitCode;

fn main() -> ExitCode {
    program(std::env::args().skip(1), answer)
}
