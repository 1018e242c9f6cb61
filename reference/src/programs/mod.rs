//! The programs, each a function of its arguments and of the interpreter or line program that it asks.
//!
//! The interpreters of `src/bin` are always `bench::bench`, `verdict::verdict` and `bench::answer`, its line programs
//! `listed::listed` and `assembled::assembled`, its line of an exec byte `exec_line::exec_line`; tests put wrong ones in their place.

use crate::run::Answer;

pub mod by_case;
pub mod by_line;
pub mod cases;
pub mod compare;
pub mod compare_lines;
pub mod exec_table;
pub mod lines;

/// A case file in, the bench program's output or the verdict out.
pub type Interpreter = fn(&[u8]) -> Vec<u8>;

/// A case file in, its answer out.
pub type Answering = fn(&[u8]) -> Answer;

/// A line in, the lines out that the program `listing` or `assembler` writes for it, all without their 0x0a.
pub type LineProgram = fn(&[u8]) -> Vec<String>;

/// An exec byte in, the line out that the program `exec-table` writes for it, without its 0x0a.
pub type ExecLine = fn(u8) -> String;
