//! The program `listing`; `src/listed.rs` says what it writes for a line, `src/programs/by_line.rs` the rest.

use reference::listed::listed;
use reference::programs::by_line::main as program;
use std::process::ExitCode;

fn main() -> ExitCode {
    program("listing", std::env::args().skip(1), listed)
}
