//! Encoding: "The encoder refuses fields by 2, 3 or 4 as decoding would, in field order (a non-zero
//! high word that the type lacks is 3), then 15, its buffer untouched; bytes past an encoding stay."

use crate::element_type::UQ;
use crate::fields::{self, Role};
use crate::instruction::{
    Instruction, RawOperand, VectorOperand, GATHER, RAW_SEND, SCATTER, SHL, SVM,
};
use crate::number::{OPCODE, SHORT_BUFFER};

/// Write the encoding at the buffer's start and hand back its length, or refuse with a number and
/// leave the buffer as it was.
pub fn encode(instruction: &Instruction, buffer: &mut [u8]) -> Result<usize, u8> {
    let bytes = encoding(instruction)?;
    if buffer.len() < bytes.len() {
        return Err(SHORT_BUFFER);
    }
    buffer[..bytes.len()].copy_from_slice(&bytes);
    Ok(bytes.len())
}

/// The instruction's bytes, fields judged in their order.
pub fn encoding(instruction: &Instruction) -> Result<Vec<u8>, u8> {
    let mut bytes = vec![instruction.opcode];
    match instruction.opcode {
        SHL => {
            exec_and_pred(&mut bytes, instruction, false)?;
            vector(&mut bytes, &instruction.dst, Role::Destination)?;
            vector(&mut bytes, &instruction.src0, Role::Source)?;
            vector(&mut bytes, &instruction.src1, Role::Source)?;
        }
        GATHER => {
            exec_and_pred(&mut bytes, instruction, false)?;
            bytes.push(instruction.block_size);
            fields::num_blocks(instruction.num_blocks)?;
            bytes.push(instruction.num_blocks);
            bytes.extend(instruction.scale.to_le_bytes());
            bytes.push(instruction.surface);
            vector(&mut bytes, &instruction.scalar, Role::Source)?;
            raw(&mut bytes, &instruction.element_offset);
            raw(&mut bytes, &instruction.raw_dst);
        }
        SVM => {
            if instruction.sub_opcode != SCATTER {
                return Err(OPCODE);
            }
            bytes.push(instruction.sub_opcode);
            exec_and_pred(&mut bytes, instruction, true)?;
            fields::channels(instruction.channels)?;
            bytes.push(instruction.channels);
            bytes.extend(instruction.scale.to_le_bytes());
            vector(&mut bytes, &instruction.scalar, Role::Source)?;
            raw(&mut bytes, &instruction.element_offset);
            raw(&mut bytes, &instruction.raw_src);
        }
        RAW_SEND => {
            fields::modifiers(instruction.modifiers)?;
            bytes.push(instruction.modifiers);
            exec_and_pred(&mut bytes, instruction, false)?;
            bytes.extend(instruction.ex_msg_desc.to_le_bytes());
            fields::num_src(instruction.num_src)?;
            bytes.push(instruction.num_src);
            fields::num_dst(instruction.num_dst)?;
            bytes.push(instruction.num_dst);
            vector(&mut bytes, &instruction.scalar, Role::Source)?;
            raw(&mut bytes, &instruction.raw_src);
            raw(&mut bytes, &instruction.raw_dst);
        }
        _ => return Err(OPCODE),
    }
    Ok(bytes)
}

fn exec_and_pred(bytes: &mut Vec<u8>, instruction: &Instruction, scatter: bool) -> Result<(), u8> {
    fields::exec(instruction.exec, scatter)?;
    bytes.push(instruction.exec);
    fields::pred(instruction.pred)?;
    bytes.extend(instruction.pred.to_le_bytes());
    Ok(())
}

fn vector(bytes: &mut Vec<u8>, operand: &VectorOperand, role: Role) -> Result<(), u8> {
    fields::tag(operand.tag, role)?;
    bytes.push(operand.tag);
    if operand.is_immediate() {
        fields::immediate_type(operand.immediate_type)?;
        bytes.push(operand.immediate_type);
        bytes.extend(operand.low.to_le_bytes());
        if operand.immediate_type == UQ {
            bytes.extend(operand.high.to_le_bytes());
        } else {
            fields::lacking_high(operand.high)?;
        }
    } else {
        bytes.extend(operand.index.to_le_bytes());
        bytes.push(operand.row);
        bytes.push(operand.column);
        fields::region(operand.region)?;
        bytes.extend(operand.region.to_le_bytes());
    }
    Ok(())
}

fn raw(bytes: &mut Vec<u8>, operand: &RawOperand) {
    bytes.extend(operand.index.to_le_bytes());
    bytes.extend(operand.offset.to_le_bytes());
}
