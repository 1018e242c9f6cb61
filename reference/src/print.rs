//! The printed line of an instruction: "Print each decoded instruction in the pages' text form" (document 02, request
//! 1). Each kind of instruction follows the Text line of its page.

use crate::element_type::UQ;
use crate::encode::encoding;
use crate::instruction::{Instruction, RawOperand, VectorOperand, GATHER, RAW_SEND, SHL};
use crate::number::SHORT_BUFFER;
use crate::spelling::{
    word, CHANNELS, NUM_BLOCKS, RAW_SENDS, REGION_FIELDS, SIZES, TYPES_OF_32_BITS, TYPES_OF_64_BITS,
};

/// The instruction's line, without a line end: "printing refuses fields as the encoder does".
pub fn print(instruction: &Instruction) -> Result<String, u8> {
    encoding(instruction)?;
    Ok(line(instruction))
}

/// Write the line at the buffer's start and hand back its length: "room is refused as 15; a refusal leaves the lent
/// buffer as it was".
pub fn print_into(instruction: &Instruction, buffer: &mut [u8]) -> Result<usize, u8> {
    let line = print(instruction)?;
    if buffer.len() < line.len() {
        return Err(SHORT_BUFFER);
    }
    buffer[..line.len()].copy_from_slice(line.as_bytes());
    Ok(line.len())
}

/// The line of an instruction whose fields the encoder takes.
fn line(instruction: &Instruction) -> String {
    let pred = pred(instruction.pred);
    let rest = match instruction.opcode {
        SHL => shl(instruction),
        GATHER => gather(instruction),
        RAW_SEND => raw_send(instruction),
        // The encoder lets no other opcode pass than SVM.
        _ => scatter(instruction),
    };
    format!("{pred}{rest}")
}

/// 004: `[(<P>)] SHL[.sat] (<exec_size>) <dst> <src0> <src1>`.
fn shl(instruction: &Instruction) -> String {
    format!(
        "SHL {} {} {} {}",
        exec(instruction),
        destination(&instruction.dst),
        source(&instruction.src0),
        source(&instruction.src1)
    )
}

/// 001: `[(<P>)] GATHER_SCALED.<num_blocks> (<exec_size>) <surface> <offset> <element_offset> <dst>`.
fn gather(instruction: &Instruction) -> String {
    let (block_size, scale) = (instruction.block_size, instruction.scale);
    let left_out = if block_size != 0 || scale != 0 {
        format!(" {{{block_size},{scale}}}")
    } else {
        String::new()
    };
    format!(
        "GATHER_SCALED.{} {} T{} {} {} {}{left_out}",
        word(&NUM_BLOCKS, instruction.num_blocks),
        exec(instruction),
        instruction.surface,
        source(&instruction.scalar),
        raw(&instruction.element_offset),
        raw(&instruction.raw_dst)
    )
}

/// 000: `[(<P>)] SVM_SCATTER4_SCALED.<channels> (<exec_size>) <address> <element_offset> <src>`.
fn scatter(instruction: &Instruction) -> String {
    let left_out = match instruction.scale {
        0 => String::new(),
        scale => format!(" {{{scale}}}"),
    };
    format!(
        "SVM_SCATTER4_SCALED.{} {} {} {} {}{left_out}",
        channels(instruction.channels),
        exec(instruction),
        source(&instruction.scalar),
        raw(&instruction.element_offset),
        raw(&instruction.raw_src)
    )
}

/// 002: `[(<P>)] {raw_send|raw_sendc} (<exec_size>) <ExMsgDesc> <NumSrc> <NumDst> <Desc> <Src> <Dst>`; "ExMsgDesc as
/// `0x1a`".
fn raw_send(instruction: &Instruction) -> String {
    format!(
        "{} {} {:#x} {} {} {} {} {}",
        word(&RAW_SENDS, instruction.modifiers),
        exec(instruction),
        instruction.ex_msg_desc,
        instruction.num_src,
        instruction.num_dst,
        source(&instruction.scalar),
        raw(&instruction.raw_src),
        raw(&instruction.raw_dst)
    )
}

/// "A predicate stands in front as `(P3)`, `(!P3)`, `(P3.any)`, `(P3.all)`"; "A word of 0 means no predicate."
fn pred(pred: u16) -> String {
    if pred == 0 {
        return String::new();
    }
    let inverse = if pred & 0x8000 != 0 { "!" } else { "" };
    let id = pred & 0x0fff;
    // "13-14 none/any/all/reserved"
    let combine = match (pred >> 13) & 3 {
        0 => "",
        1 => ".any",
        _ => ".all",
    };
    format!("({inverse}P{id}{combine}) ")
}

/// The mask and the size, as `(M1,8)` or `(M1_NM,8)`.
fn exec(instruction: &Instruction) -> String {
    let mask = ((instruction.exec >> 4) & 7) + 1;
    let no_mask = if instruction.no_mask() { "_NM" } else { "" };
    let size = word(&SIZES, instruction.exec & 7);
    format!("(M{mask}{no_mask},{size})")
}

fn channels(byte: u8) -> String {
    let enabled = CHANNELS.iter().filter(|(_, bit)| byte & bit != 0);
    enabled.map(|(letter, _)| *letter).collect()
}

/// A vector operand that is read, or a scalar.
fn source(operand: &VectorOperand) -> String {
    if operand.is_immediate() {
        immediate(operand)
    } else {
        format!("{}{}", origin(operand), three_fields(operand.region))
    }
}

/// "a region with Nulls out of place shows all three fields, n for Null": in place, a destination's vertical stride
/// and width are Null and its horizontal stride is not.
fn destination(operand: &VectorOperand) -> String {
    let [vertical, width, horizontal] = region_codes(operand.region);
    let region = if vertical == 0 && width == 0 && horizontal != 0 {
        format!("<{}>", word(&REGION_FIELDS, horizontal))
    } else {
        three_fields(operand.region)
    };
    format!("{}{region}", origin(operand))
}

/// Variable, row and column.
fn origin(operand: &VectorOperand) -> String {
    format!("v{}({},{})", operand.index, operand.row, operand.column)
}

fn three_fields(region: u16) -> String {
    let [vertical, width, horizontal] = region_codes(region);
    format!(
        "<{};{},{}>",
        word(&REGION_FIELDS, vertical),
        word(&REGION_FIELDS, width),
        word(&REGION_FIELDS, horizontal)
    )
}

/// "bits 0-3 vertical, 4-7 width, 8-11 horizontal stride"
fn region_codes(region: u16) -> [u16; 3] {
    [region & 15, (region >> 4) & 15, (region >> 8) & 15]
}

/// "immediates show the whole stored word"; the two words of a UQ are one number.
fn immediate(operand: &VectorOperand) -> String {
    if operand.immediate_type == UQ {
        let value = u64::from(operand.high) << 32 | u64::from(operand.low);
        format!("{value:#x}:{}", word(&TYPES_OF_64_BITS, UQ))
    } else {
        let name = word(&TYPES_OF_32_BITS, operand.immediate_type);
        format!("{:#x}:{name}", operand.low)
    }
}

/// "raw operands read `v2.8`"
fn raw(operand: &RawOperand) -> String {
    format!("v{}.{}", operand.index, operand.offset)
}
