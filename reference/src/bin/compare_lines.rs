//! The program `compare-lines`; `src/programs/compare_lines.rs` says what it does.

use reference::assembled::assembled;
use reference::exec_line::exec_line;
use reference::listed::listed;
use reference::programs::compare_lines::{main as program, Library};
use std::process::ExitCode;

fn main() -> ExitCode {
    let library = Library {
        listing: listed,
        assembler: assembled,
        exec_line,
    };
    program(std::env::args().skip(1), library)
}
