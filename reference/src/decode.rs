//! Decoding: "Decoding needs no tables and goes by field: 1 for a field not whole, then 2 or 3, then
//! 4 for class and modifier."

use crate::cursor::Cursor;
use crate::element_type::UQ;
use crate::fields::{self, Role};
use crate::instruction::{
    Instruction, RawOperand, VectorOperand, GATHER, RAW_SEND, SCATTER, SHL, SVM,
};
use crate::number::{DONE, OPCODE};

/// "For each instruction the decoder hands back the instruction's own bytes as a part of the kernel,
/// an empty part on a refusal"; the number stands apart from the part.
#[derive(Clone, Copy, Debug, PartialEq, Eq)]
pub struct Decoded<'a> {
    pub number: u8,
    pub part: &'a [u8],
    /// All zeros on a refusal.
    pub instruction: Instruction,
}

/// Decode the instruction that starts at `position` of the kernel.
pub fn decode(kernel: &[u8], position: usize) -> Decoded<'_> {
    let mut cursor = Cursor::new(kernel, position);
    match instruction(&mut cursor) {
        Ok(instruction) => Decoded {
            number: DONE,
            part: &kernel[position..cursor.position()],
            instruction,
        },
        Err(number) => Decoded {
            number,
            part: &[],
            instruction: Instruction::default(),
        },
    }
}

/// "Field order is that of each page's Format table".
fn instruction(cursor: &mut Cursor) -> Result<Instruction, u8> {
    let opcode = cursor.ub()?;
    match opcode {
        SHL => shl(cursor),
        GATHER => gather(cursor),
        SVM => scatter(cursor),
        RAW_SEND => raw_send(cursor),
        _ => Err(OPCODE),
    }
}

/// 004: SHL, Exec_size, Pred, Dst, Src0, Src1.
fn shl(cursor: &mut Cursor) -> Result<Instruction, u8> {
    let exec = exec(cursor, false)?;
    let pred = pred(cursor)?;
    let dst = vector(cursor, Role::Destination)?;
    let src0 = vector(cursor, Role::Source)?;
    let src1 = vector(cursor, Role::Source)?;
    Ok(Instruction {
        opcode: SHL,
        exec,
        pred,
        dst,
        src0,
        src1,
        ..Instruction::default()
    })
}

/// 001: GATHER_SCALED, Exec_size, Pred, Block_size, Num_blocks, Scale, Surface, Offset,
/// Element_offset, Dst.
fn gather(cursor: &mut Cursor) -> Result<Instruction, u8> {
    let exec = exec(cursor, false)?;
    let pred = pred(cursor)?;
    let block_size = cursor.ub()?;
    let num_blocks = cursor.ub()?;
    fields::num_blocks(num_blocks)?;
    let scale = cursor.uw()?;
    let surface = cursor.ub()?;
    let scalar = vector(cursor, Role::Source)?;
    let element_offset = raw(cursor)?;
    let raw_dst = raw(cursor)?;
    Ok(Instruction {
        opcode: GATHER,
        exec,
        pred,
        block_size,
        num_blocks,
        scale,
        surface,
        scalar,
        element_offset,
        raw_dst,
        ..Instruction::default()
    })
}

/// 000: SVM, SCATTER4_SCALED, Exec_size, Pred, Channels, Scale, Address, Element_offset, Src.
fn scatter(cursor: &mut Cursor) -> Result<Instruction, u8> {
    let sub_opcode = cursor.ub()?;
    if sub_opcode != SCATTER {
        return Err(OPCODE);
    }
    let exec = exec(cursor, true)?;
    let pred = pred(cursor)?;
    let channels = cursor.ub()?;
    fields::channels(channels)?;
    let scale = cursor.uw()?;
    let scalar = vector(cursor, Role::Source)?;
    let element_offset = raw(cursor)?;
    let raw_src = raw(cursor)?;
    Ok(Instruction {
        opcode: SVM,
        sub_opcode,
        exec,
        pred,
        channels,
        scale,
        scalar,
        element_offset,
        raw_src,
        ..Instruction::default()
    })
}

/// 002: RAW_SEND, Modifiers, Exec_size, Pred, ExMsgDesc, NumSrc, NumDst, Desc, Src, Dst.
fn raw_send(cursor: &mut Cursor) -> Result<Instruction, u8> {
    let modifiers = cursor.ub()?;
    fields::modifiers(modifiers)?;
    let exec = exec(cursor, false)?;
    let pred = pred(cursor)?;
    let ex_msg_desc = cursor.ud()?;
    let num_src = cursor.ub()?;
    fields::num_src(num_src)?;
    let num_dst = cursor.ub()?;
    fields::num_dst(num_dst)?;
    let scalar = vector(cursor, Role::Source)?;
    let raw_src = raw(cursor)?;
    let raw_dst = raw(cursor)?;
    Ok(Instruction {
        opcode: RAW_SEND,
        modifiers,
        exec,
        pred,
        ex_msg_desc,
        num_src,
        num_dst,
        scalar,
        raw_src,
        raw_dst,
        ..Instruction::default()
    })
}

fn exec(cursor: &mut Cursor, scatter: bool) -> Result<u8, u8> {
    let byte = cursor.ub()?;
    fields::exec(byte, scatter)?;
    Ok(byte)
}

fn pred(cursor: &mut Cursor) -> Result<u16, u8> {
    let word = cursor.uw()?;
    fields::pred(word)?;
    Ok(word)
}

fn vector(cursor: &mut Cursor, role: Role) -> Result<VectorOperand, u8> {
    let mut operand = VectorOperand {
        tag: cursor.ub()?,
        ..VectorOperand::default()
    };
    fields::tag(operand.tag, role)?;
    if operand.is_immediate() {
        operand.immediate_type = cursor.ub()?;
        fields::immediate_type(operand.immediate_type)?;
        operand.low = cursor.ud()?;
        // "and high ud for UQ only"
        if operand.immediate_type == UQ {
            operand.high = cursor.ud()?;
        }
    } else {
        operand.index = cursor.uw()?;
        operand.row = cursor.ub()?;
        operand.column = cursor.ub()?;
        operand.region = cursor.uw()?;
        fields::region(operand.region)?;
    }
    Ok(operand)
}

fn raw(cursor: &mut Cursor) -> Result<RawOperand, u8> {
    let index = cursor.uw()?;
    let offset = cursor.uw()?;
    Ok(RawOperand { index, offset })
}
