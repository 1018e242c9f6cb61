//! The program `verdict`; `src/verdict.rs` says what it writes for a case, `src/programs/by_case.rs` the rest.

use reference::programs::by_case::main as program;
use reference::verdict::verdict;
use std::process::ExitCode;

fn main() -> ExitCode {
    program("verdict", std::env::args().skip(1), verdict)
}
