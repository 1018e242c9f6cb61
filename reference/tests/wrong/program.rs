//! A program of the tests: one of the programs with an interpreter or a line program that is wrong on purpose.
//!
//! `wrong WAY PROGRAM ARGUMENTS`, the way being one of `number`, `completed`, `taint`, `end`, `silent` and
//! `panic`, or a mistake of the register size from `sizes`, for a verdict one of those in `verdicts`, for a line program one of those in `lines`, and for the exec byte's
//! table one of those in `exec_tables`.

mod exec_tables;
mod lines;
mod sizes;
mod verdicts;

use reference::bench::{answer, bench};
use reference::programs::compare_lines::Library;
use reference::programs::{by_case, by_line, cases, compare, compare_lines, Interpreter};
use reference::run::Answer;
use std::process::ExitCode;

fn main() -> ExitCode {
    let mut arguments = std::env::args().skip(1);
    let way = arguments.next().expect("a way of being wrong");
    let program = arguments.next().expect("a program");
    match program.as_str() {
        "listing" => return by_line::main("wrong", arguments, lines::listing(&way)),
        "assembler" => return by_line::main("wrong", arguments, lines::assembler(&way)),
        "exec-table" => {
            print!("{}", exec_tables::table(&way));
            return ExitCode::SUCCESS;
        }
        "compare-lines" => {
            let library = Library {
                listing: lines::listing(&way),
                assembler: lines::assembler(&way),
                exec_line: exec_tables::panics_where_reserved,
            };
            return compare_lines::main(arguments, library);
        }
        "verdict" => return by_case::main("verdict", arguments, verdicts::verdict(&way)),
        "cases" if way == "panic" => return cases::main(arguments, answer_panics_at_14),
        _ => {}
    }
    if let Some(mistake) = sizes::mistake(&way) {
        return by_case::main("reference", arguments, mistake);
    }
    let interpreter: Interpreter = match way.as_str() {
        "number" => |case| changed(case, answers_0_always),
        "completed" => |case| changed(case, invents_the_count),
        "taint" => |case| changed(case, taints_nothing),
        "end" => |case| changed(case, lacks_the_last_end),
        "silent" => |_| Vec::new(),
        "panic" => panics_at_14,
        other => panic!("no way {other:?} of being wrong"),
    };
    match program.as_str() {
        "reference" => by_case::main("reference", arguments, interpreter),
        "compare" => compare::main(arguments, interpreter, verdicts::panics_at_14),
        other => panic!("no program {other:?}"),
    }
}

/// The right output with its lines changed, each line with its end.
fn changed(case: &[u8], change: fn(&mut [Vec<u8>])) -> Vec<u8> {
    let mut lines: Vec<Vec<u8>> = bench(case)
        .split_inclusive(|byte| *byte == 0x0a)
        .map(<[u8]>::to_vec)
        .collect();
    change(&mut lines);
    lines.concat()
}

fn answers_0_always(lines: &mut [Vec<u8>]) {
    lines[0][2..4].copy_from_slice(b"00");
}

/// When some instruction was completed.
fn invents_the_count(lines: &mut [Vec<u8>]) {
    if lines[0][4..8] != *b"0000" {
        lines[0][4..8].copy_from_slice(b"ff7f");
    }
}

fn taints_nothing(lines: &mut [Vec<u8>]) {
    for line in lines.iter_mut().skip(3) {
        let end = line.len() - 1;
        line[2..end].fill(b'0');
    }
}

fn lacks_the_last_end(lines: &mut [Vec<u8>]) {
    lines.last_mut().map(Vec::pop);
}

/// Right, but for the cases with a bad line.
fn panics_at_14(case: &[u8]) -> Vec<u8> {
    let output = bench(case);
    assert!(!output.starts_with(b"400e"), "wrong on purpose");
    output
}

fn answer_panics_at_14(case: &[u8]) -> Answer {
    let answer = answer(case);
    assert!(answer.number != 14, "wrong on purpose");
    answer
}
