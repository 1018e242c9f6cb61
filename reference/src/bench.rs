//! The bench program as a function: a case file in, the output lines out; and the whole answer, of which its 40 line shows
//! the numbers.

use crate::case::Case;
use crate::case_file::read_case;
use crate::case_writer::{line, memory_line};
use crate::number::{BAD_LINE, SIZES};
use crate::refusal::Detail;
use crate::run::{run, Answer};

/// The answer to a case file.
pub fn answer(input: &[u8]) -> Answer {
    match read_case(input) {
        Ok(mut case) => run(&mut case),
        Err(line_number) => bad_line(line_number),
    }
}

/// "is 14, at the first such line and before any 13: only the 40 line, completed 0, line number from 1 as position"
pub fn bad_line(line_number: usize) -> Answer {
    Answer {
        number: BAD_LINE,
        completed: 0,
        position: line_number,
        detail: Detail::None,
    }
}

/// "It writes 40 (number ub, completed uw, position ud), then 01, 05, 08, 0a."
pub fn bench(input: &[u8]) -> Vec<u8> {
    match read_case(input) {
        Ok(case) => bench_of(case, run),
        Err(line_number) => only(&bad_line(line_number)),
    }
}

/// What is written for a case by a run.
pub fn bench_of(mut case: Case, run: impl FnOnce(&mut Case) -> Answer) -> Vec<u8> {
    let answer = run(&mut case);
    // "13 likewise, position 0."
    if answer.number == SIZES {
        return only(&answer);
    }
    file_of(vec![
        answer_line(&answer),
        line(0x01, &[&case.registers]),
        memory_line(&case),
        line(0x08, &[&case.register_taint]),
        line(0x0a, &[&case.memory_taint]),
    ])
}

/// "only the 40 line"
pub fn only(answer: &Answer) -> Vec<u8> {
    file_of(vec![answer_line(answer)])
}

fn answer_line(answer: &Answer) -> Vec<u8> {
    let completed = (answer.completed as u16).to_le_bytes();
    let position = (answer.position as u32).to_le_bytes();
    line(0x40, &[&[answer.number], &completed, &position])
}

fn file_of(lines: Vec<Vec<u8>>) -> Vec<u8> {
    let mut file = Vec::new();
    for line in lines {
        file.extend(line);
        file.push(0x0a);
    }
    file
}
