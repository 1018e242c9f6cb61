//! The exec bytes that each instruction meets in a case, and what becomes of them, judged from the case file and its answer
//! alone.

use super::reach::completed;
use crate::case_file::read_case;
use crate::fields;
use crate::instruction::{GATHER, RAW_SEND, SCATTER, SHL, SVM};
use crate::number::{self, OVER_32, RESERVED, SIZES};
use crate::run::Answer;

/// The opcodes with their names.
pub const INSTRUCTIONS: [(u8, &str); 4] = [
    (SHL, "SHL"),
    (GATHER, "GATHER_SCALED"),
    (SVM, "SVM SCATTER4_SCALED"),
    (RAW_SEND, "RAW_SEND"),
];

#[derive(Clone, Copy, Debug, PartialEq, Eq, PartialOrd, Ord)]
pub enum Fate {
    /// The instruction is completed, or is a RAW_SEND that is otherwise good.
    Taken,
    /// 8.
    Over32,
    /// 3, by the exec byte and not by a later field.
    Reserved,
}

impl Fate {
    pub const ALL: [Fate; 3] = [Fate::Taken, Fate::Over32, Fate::Reserved];
}

/// An instruction's opcode and exec byte.
pub type Meeting = (u8, u8);

/// What the instructions of a case meet, `answer` being the answer to its file.
pub fn met(file: &[u8], answer: &Answer) -> Vec<(Meeting, Fate)> {
    let case = match read_case(file) {
        Ok(case) if answer.number != SIZES => case,
        _ => return Vec::new(),
    };
    let mut met: Vec<_> = completed(&case.kernel, answer.position)
        .map(|it| ((it.opcode, it.exec), Fate::Taken))
        .collect();
    let refused = &case.kernel[answer.position..];
    if let Some(exec) = exec_byte(refused) {
        let fate = match answer.number {
            number::RAW_SEND => Some(Fate::Taken),
            OVER_32 => Some(Fate::Over32),
            RESERVED if fields::exec(exec, refused[0] == SVM).is_err() => Some(Fate::Reserved),
            _ => None,
        };
        met.extend(fate.map(|fate| ((refused[0], exec), fate)));
    }
    met
}

/// The exec byte of the instruction at the start of some bytes, if they reach so far and what stands before it is good.
fn exec_byte(bytes: &[u8]) -> Option<u8> {
    match bytes {
        [SHL | GATHER, exec, ..] => Some(*exec),
        [SVM, SCATTER, exec, ..] => Some(*exec),
        [RAW_SEND, 0 | 1, exec, ..] => Some(*exec),
        _ => None,
    }
}
