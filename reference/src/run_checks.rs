//! What a run asks of a decoded instruction before it touches data: "A run then tests 8; predicate 5;
//! surface 5; each operand in order 5, 4 (type), 6, 7; 9", 6 being 20 to 25, and 17 "directly after the predicate's 5".

use crate::case::Case;
use crate::element_type::{DWORD_TYPES, SHL_TYPES, UD, UQ};
use crate::fields::Role::{Destination, Source};
use crate::instruction::{Instruction, GATHER, RAW_SEND, SHL};
use crate::number;
use crate::operands;
use crate::refusal::Refusal;
use crate::register_size::{bytes_of_registers, scatter_dwords, Followers};

/// Operands stand with their places in field order, from 1.
pub fn check(case: &Case, instruction: &Instruction, followers: &Followers) -> Result<(), Refusal> {
    let exec_size = instruction.exec_size();

    // 8: "offset + ExecSize over 32"
    if instruction.mask_end() > 32 {
        return Err(number::OVER_32.into());
    }
    if instruction.has_predicate() {
        match case.predicates.get(instruction.predicate_id()) {
            // "predicate 5"
            None => return Err(number::NOT_IN_TABLE.into()),
            // 17: "offset plus ExecSize over the count"
            Some(predicate) if instruction.mask_end() > u64::from(predicate.count) => {
                return Err(number::OVER_COUNT.into());
            }
            Some(_) => {}
        }
    }
    // "surface 5"
    if instruction.opcode == GATHER && usize::from(instruction.surface) >= case.surfaces.len() {
        return Err(number::NOT_IN_TABLE.into());
    }

    match instruction.opcode {
        SHL => {
            let types = &SHL_TYPES;
            let vector = |operand, place, role| {
                operands::vector(case, operand, place, role, exec_size, types, followers)
            };
            vector(&instruction.dst, 1, Destination)?;
            vector(&instruction.src0, 2, Source)?;
            vector(&instruction.src1, 3, Source)
        }
        GATHER => {
            // "Offset and Element_offset are UD; Dst is UD, D or F." "surfaces not counted"
            operands::scalar(case, &instruction.scalar, 1, UD, followers)?;
            operands::raw(
                case,
                &instruction.element_offset,
                Some(&[UD]),
                4 * exec_size,
            )?;
            operands::raw(
                case,
                &instruction.raw_dst,
                Some(&DWORD_TYPES),
                4 * exec_size,
            )
        }
        RAW_SEND => {
            // 002: Desc "Must have type UD".
            operands::scalar(case, &instruction.scalar, 1, UD, followers)?;
            let bytes = |count: u8| bytes_of_registers(followers.raw_send, u64::from(count));
            let (src, dst) = (&instruction.raw_src, &instruction.raw_dst);
            operands::raw(case, src, None, bytes(instruction.num_src))?;
            operands::raw(case, dst, None, bytes(instruction.num_dst))?;
            // 9: "RAW_SEND, otherwise good"
            Err(number::RAW_SEND.into())
        }
        _ => {
            // "Address and Element_offset are UQ; Src is UD, D or F."
            operands::scalar(case, &instruction.scalar, 1, UQ, followers)?;
            operands::raw(
                case,
                &instruction.element_offset,
                Some(&[UQ]),
                8 * exec_size,
            )?;
            let k = u64::from(instruction.channels.count_ones());
            let dwords = scatter_dwords(followers.scatter_need, exec_size, k);
            operands::raw(case, &instruction.raw_src, Some(&DWORD_TYPES), 4 * dwords)
        }
    }
}
