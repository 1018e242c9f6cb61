//! The marked run: "Kernels run straight through."

use crate::case::Case;
use crate::decode::decode;
use crate::gather::gather;
use crate::instruction::{Instruction, GATHER, SHL};
use crate::lanes::lanes_on;
use crate::number::{DONE, SIZES};
use crate::refusal::{Detail, Refusal};
use crate::register_size::Followers;
use crate::run_checks;
use crate::scatter::scatter;
use crate::shl::shl;
use crate::sizes;

/// "A run answers number, instructions completed and byte position of the refused instruction (or the
/// end)." Document 02, request 2, adds what some numbers carry.
#[derive(Clone, Copy, Debug, PartialEq, Eq)]
pub struct Answer {
    pub number: u8,
    pub completed: usize,
    pub position: usize,
    pub detail: Detail,
}

/// "13 answers 0 and 0."
pub const BROKEN_SIZES: Answer = Answer {
    number: SIZES,
    completed: 0,
    position: 0,
    detail: Detail::None,
};

/// Run the case's kernel on the case's buffers. "Earlier instructions stand."
pub fn run(case: &mut Case) -> Answer {
    // "13 comes first."
    if sizes::check(case).is_err() {
        return BROKEN_SIZES;
    }
    let followers = Followers::of(case.register_size);
    run_kernel(case, &followers)
}

/// Instruction by instruction, the sizes being right.
pub fn run_kernel(case: &mut Case, followers: &Followers) -> Answer {
    let mut completed = 0;
    let mut position = 0;
    while position < case.kernel.len() {
        match step(case, position, followers) {
            Ok(length) => {
                completed += 1;
                position += length;
            }
            Err(Refusal { number, detail }) => {
                return Answer {
                    number,
                    completed,
                    position,
                    detail,
                }
            }
        }
    }
    Answer {
        number: DONE,
        completed,
        position,
        detail: Detail::None,
    }
}

/// One instruction: decoded, tested, then its effect. Gives its length in bytes, or refuses and
/// changes nothing.
fn step(case: &mut Case, position: usize, followers: &Followers) -> Result<usize, Refusal> {
    let decoded = decode(&case.kernel, position);
    if decoded.number != DONE {
        return Err(decoded.number.into());
    }
    let length = decoded.part.len();
    let instruction = decoded.instruction;
    run_checks::check(case, &instruction, followers)?;
    effect(case, &instruction, followers)?;
    Ok(length)
}

fn effect(
    case: &mut Case,
    instruction: &Instruction,
    followers: &Followers,
) -> Result<(), Refusal> {
    let on = lanes_on(case, instruction);
    match instruction.opcode {
        SHL => shl(case, instruction, &on, followers),
        GATHER => gather(case, instruction, &on, followers),
        // RAW_SEND has been refused with 9 by now; what is left is the scatter.
        _ => scatter(case, instruction, &on, followers)?,
    }
    Ok(())
}
