//! The program `assembler`; `src/assembled.rs` says what it writes for a line, `src/programs/by_line.rs` the rest.

use reference::assembled::assembled;
use reference::programs::by_line::main as program;
use std::process::ExitCode;

fn main() -> ExitCode {
    program("assembler", std::env::args().skip(1), assembled)
}
