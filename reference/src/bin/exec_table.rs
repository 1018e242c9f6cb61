//! The program `exec-table`; `src/exec_line.rs` says what it writes for a byte, `src/programs/exec_table.rs` the rest.

use reference::exec_line::exec_line;
use reference::programs::exec_table::main as program;
use std::process::ExitCode;

fn main() -> ExitCode {
    program(std::env::args().skip(1), exec_line)
}
