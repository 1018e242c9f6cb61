//! The program `lines`; `src/programs/lines.rs` says what it does.

use reference::programs::lines::main as program;
use std::process::ExitCode;

fn main() -> ExitCode {
    program(std::env::args().skip(1))
}
