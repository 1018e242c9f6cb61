//! The program `compare`; `src/programs/compare.rs` says what it does.

use reference::bench::bench;
use reference::programs::compare::main as program;
use reference::verdict::verdict;
use std::process::ExitCode;

fn main() -> ExitCode {
    program(std::env::args().skip(1), bench, verdict)
}
