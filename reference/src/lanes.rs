//! Which lanes are on. A lane is document 01's channel n of an instruction.

use crate::case::Case;
use crate::instruction::Instruction;

/// "Channel n is on when NM is chosen or EM bit n+offset is 1, and the predicate agrees".
///
/// Called only when offset + ExecSize is at most 32, and the predicate is in its table and long enough.
pub fn lanes_on(case: &Case, instruction: &Instruction) -> Vec<bool> {
    let mut on = Vec::new();
    for n in 0..instruction.exec_size() {
        let bit = n + instruction.mask_offset();
        let mask = instruction.no_mask() || bit_is_set(case.execution_mask, bit);
        on.push(mask && predicate_agrees(case, instruction, n));
    }
    on
}

/// "bit n+offset; or any, or all, over the ExecSize bits, EM not considered; inverse comes last. The
/// offset counts under NM too."
fn predicate_agrees(case: &Case, instruction: &Instruction, n: u64) -> bool {
    if !instruction.has_predicate() {
        return true;
    }
    let bits = case.predicates[instruction.predicate_id()].bits;
    let offset = instruction.mask_offset();
    let combine = (instruction.pred >> 13) & 3;
    let combined = match combine {
        0 => bit_is_set(bits, n + offset),
        1 => (0..instruction.exec_size()).any(|m| bit_is_set(bits, m + offset)),
        _ => (0..instruction.exec_size()).all(|m| bit_is_set(bits, m + offset)),
    };
    let inverse = instruction.pred >> 15 == 1;
    combined != inverse
}

fn bit_is_set(bits: u32, bit: u64) -> bool {
    (bits >> bit) & 1 == 1
}
