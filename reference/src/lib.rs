//! The independent second program of the bench: document 01 in plain Rust, section by section.
//!
//! - "Bytes of an instruction": `instruction`, `fields`, `cursor`, `decode`, `encode`
//! - "Tables and sizes": `element_type`, `case`, `sizes`
//! - "Regions": `region`, `operands`
//! - "Which channels, which results" and "How marks move": `lanes`, `element`, `shl`, `gather`,
//!   `scatter`, `show`
//! - "The numbers given back": `number`, `run_checks`, `run`
//! - "The bench table" (the bench program): `case_file`, `case_writer`, `hex`, `bench`, `batch`
//!
//! Document 02:
//!
//! - request 1, kernels as text: `spelling`, `print`, `ways`, `read`, `listed`, `assembled`
//! - request 2, which region rule: `region`, `operands`, `refusal`, `verdict`
//! - request 3, predicates have lengths: `case`, `case_file`, `sizes`, `run_checks`
//! - request 4, the exec byte's table, printed: `exec_line`
//! - request 5, cards with 64-byte registers: `register_size`, and `case`, `case_file`, `sizes`, `region`, `operands`,
//!   `run_checks`, `scatter`, where its functions are used
//!
//! Beside the interpreter stand the generators of cases and lines (`assemble`, `generate`), the comparisons (`source`,
//! `command`, `difference`, `comparison`, `line_comparison`, `exec_comparison`) and the programs (`programs`, `panics`).

pub mod assemble;
pub mod assembled;
pub mod batch;
pub mod bench;
pub mod case;
pub mod case_file;
pub mod case_writer;
pub mod command;
pub mod comparison;
pub mod cursor;
pub mod decode;
pub mod difference;
pub mod element;
pub mod element_type;
pub mod encode;
pub mod exec_comparison;
pub mod exec_line;
pub mod fields;
pub mod gather;
pub mod generate;
pub mod hex;
pub mod instruction;
pub mod lanes;
pub mod line_comparison;
pub mod listed;
pub mod number;
pub mod operands;
pub mod panics;
pub mod print;
pub mod programs;
pub mod read;
pub mod refusal;
pub mod region;
pub mod register_size;
pub mod run;
pub mod run_checks;
pub mod scatter;
pub mod shl;
pub mod show;
pub mod sizes;
pub mod source;
pub mod spelling;
pub mod verdict;
pub mod ways;
