//! Instructions of all four kinds with every field spread over its edges, for kernels as text. No table is asked: a
//! line has no use for what a run refuses.

use super::random::Random;
use crate::assemble::{self, Draft, Operand, Part, Slot};
use crate::element_type;
use crate::instruction::{
    Instruction, RawOperand, VectorOperand, CLASS_IMMEDIATE, GATHER, RAW_SEND, SCATTER, SHL, SVM,
};

/// A number up to a limit, often one where its digits or bits become more.
pub fn spread(random: &mut Random, limit: u64) -> u64 {
    let number = match random.below(8) {
        0 => 0,
        1 => limit,
        2 => random.range(0, 12),
        3 => 10u64.pow(random.range(1, 19) as u32) - random.below(2),
        4 => (1u64 << random.below(64)) - random.below(2),
        _ => random.next(),
    };
    match limit.checked_add(1) {
        Some(count) if number > limit => number % count,
        _ => number,
    }
}

/// An instruction that the encoder takes.
pub fn good(random: &mut Random) -> Instruction {
    let opcode = random.pick(&[SHL, GATHER, SVM, RAW_SEND]);
    let mut instruction = Instruction {
        opcode,
        exec: exec(random, opcode == SVM),
        pred: pred(random),
        ..Instruction::default()
    };
    match opcode {
        SHL => {
            instruction.dst = general(random);
            if random.chance(60) {
                // In place: vertical stride and width Null.
                instruction.dst.region &= 0x0f00;
            }
            instruction.src0 = source(random);
            instruction.src1 = source(random);
            return instruction;
        }
        GATHER => {
            instruction.num_blocks = random.below(3) as u8;
            instruction.surface = spread(random, 255) as u8;
            instruction.block_size = ignored(random, 255) as u8;
            instruction.scale = ignored(random, 65535) as u16;
            instruction.element_offset = raw(random);
            instruction.raw_dst = raw(random);
        }
        SVM => {
            instruction.sub_opcode = SCATTER;
            instruction.channels = random.range(1, 15) as u8;
            instruction.scale = ignored(random, 65535) as u16;
            instruction.element_offset = raw(random);
            instruction.raw_src = raw(random);
        }
        _ => {
            instruction.modifiers = random.below(2) as u8;
            instruction.ex_msg_desc = spread(random, 0xffff_ffff) as u32;
            instruction.num_src = random.range(1, 15) as u8;
            instruction.num_dst = random.range(0, 16) as u8;
            instruction.raw_src = raw(random);
            instruction.raw_dst = raw(random);
        }
    }
    instruction.scalar = source(random);
    instruction
}

fn exec(random: &mut Random, scatter: bool) -> u8 {
    let size = match scatter {
        true => random.range(3, 4),
        false => random.below(6),
    };
    (random.below(16) << 4 | size) as u8
}

fn pred(random: &mut Random) -> u16 {
    if random.chance(40) {
        return 0;
    }
    let inverse = random.below(2) << 15;
    let combine = random.below(3) << 13;
    (inverse | combine | spread(random, 4095)) as u16
}

/// A field that a run ignores: 0 in half of the instructions.
fn ignored(random: &mut Random, limit: u64) -> u64 {
    match random.chance(50) {
        true => 0,
        false => spread(random, limit),
    }
}

fn source(random: &mut Random) -> VectorOperand {
    if random.chance(50) {
        return general(random);
    }
    let immediate_type = random.pick(&element_type::ALL);
    let high = match immediate_type {
        element_type::UQ => spread(random, 0xffff_ffff) as u32,
        _ => 0,
    };
    VectorOperand {
        tag: CLASS_IMMEDIATE,
        immediate_type,
        low: spread(random, 0xffff_ffff) as u32,
        high,
        ..VectorOperand::default()
    }
}

fn general(random: &mut Random) -> VectorOperand {
    // Three codes of 0 to 7; Null is code 0 and comes more often than the others.
    let mut region = 0;
    for field in 0..3 {
        if random.chance(75) {
            region |= (random.below(8) as u16) << (4 * field);
        }
    }
    VectorOperand {
        index: spread(random, 65535) as u16,
        row: spread(random, 255) as u8,
        column: spread(random, 255) as u8,
        region,
        ..VectorOperand::default()
    }
}

fn raw(random: &mut Random) -> RawOperand {
    RawOperand {
        index: spread(random, 65535) as u16,
        offset: spread(random, 65535) as u16,
    }
}

/// The instructions with the longest lines, 108 characters, and the longest encoding, 31 bytes.
pub fn longest(random: &mut Random) -> Instruction {
    let everywhere = VectorOperand {
        index: 65535,
        row: 255,
        column: 255,
        // 16 and 32 are the fields of two characters.
        region: random.pick(&[0x0666, 0x0767, 0x0777]),
        ..VectorOperand::default()
    };
    let uq = VectorOperand {
        tag: CLASS_IMMEDIATE,
        immediate_type: element_type::UQ,
        low: u32::MAX,
        high: u32::MAX,
        ..VectorOperand::default()
    };
    let furthest = RawOperand {
        index: 65535,
        offset: 65535,
    };
    let opcode = random.pick(&[SHL, GATHER, SVM]);
    let mut instruction = Instruction {
        opcode,
        exec: 0xf4,
        pred: random.pick(&[0xafff, 0xcfff]),
        ..Instruction::default()
    };
    match opcode {
        SHL => {
            instruction.dst = everywhere;
            instruction.src0 = uq;
            instruction.src1 = uq;
        }
        GATHER => {
            instruction.block_size = 255;
            instruction.num_blocks = 2;
            instruction.scale = 65535;
            instruction.surface = 255;
            instruction.scalar = everywhere;
            instruction.element_offset = furthest;
            instruction.raw_dst = furthest;
        }
        _ => {
            instruction.sub_opcode = SCATTER;
            instruction.channels = 15;
            instruction.scale = 65535;
            instruction.scalar = everywhere;
            instruction.element_offset = furthest;
            instruction.raw_src = furthest;
        }
    }
    instruction
}

/// A good instruction with one field, or sometimes two, changed to what the encoder refuses. A field that its kind of
/// instruction lacks changes nothing.
pub fn faulty(random: &mut Random) -> Instruction {
    let mut instruction = good(random);
    for _ in 0..random.range(1, 6) / 3 + 1 {
        spoil(random, &mut instruction);
    }
    instruction
}

fn spoil(random: &mut Random, instruction: &mut Instruction) {
    match random.below(11) {
        0 => instruction.opcode = random.pick(&[0x00, 0x23, 0x25, 0x4f, 0x5c, 0x79, 0xff]),
        1 => instruction.sub_opcode = random.pick(&[0x00, 0x06, 0x08, 0xff]),
        2 => instruction.exec = instruction.exec & 0xf0 | random.pick(&[0, 2, 5, 6, 7, 8, 15]),
        3 => instruction.pred |= random.pick(&[0x1000, 0x6000]),
        4 => instruction.num_blocks = random.pick(&[3, 4, 255]),
        5 => instruction.channels = random.pick(&[0, 16, 255]),
        6 => instruction.modifiers = random.pick(&[2, 3, 128]),
        7 => instruction.num_src = random.pick(&[0, 16, 255]),
        8 => instruction.num_dst = random.pick(&[17, 255]),
        _ => {
            let operand = match (instruction.opcode, random.below(3)) {
                (SHL, 0) => &mut instruction.dst,
                (SHL, 1) => &mut instruction.src0,
                (SHL, _) => &mut instruction.src1,
                _ => &mut instruction.scalar,
            };
            spoil_operand(random, operand);
        }
    }
}

fn spoil_operand(random: &mut Random, operand: &mut VectorOperand) {
    match random.below(4) {
        0 => operand.tag |= random.pick(&[0x40, 0x80]),
        1 => operand.tag = random.pick(&[1, 2, 3, 4, 6, 7, 0x08, 0x0d, 0x20, 0x25]),
        2 if operand.is_immediate() => operand.high = 1 + random.below(2) as u32,
        _ if operand.is_immediate() => operand.immediate_type = random.pick(&[6, 8, 10, 12, 255]),
        _ => operand.region |= random.pick(&[0x0008, 0x0080, 0x0800, 0x1000, 0x8000]),
    }
}

/// The bytes of an instruction, no field judged. A high word that the type lacks has no bytes.
pub fn bytes(instruction: &Instruction) -> Vec<u8> {
    draft(instruction).bytes()
}

fn draft(it: &Instruction) -> Draft {
    let (exec, pred) = (it.exec, it.pred);
    let scalar = operand(&it.scalar);
    let (element_offset, src) = (raw_operand(&it.element_offset), raw_operand(&it.raw_src));
    let dst = raw_operand(&it.raw_dst);
    let (surface, num_blocks) = (it.surface, it.num_blocks);
    let mut draft = match it.opcode {
        GATHER => assemble::gather(
            exec,
            pred,
            num_blocks,
            surface,
            &scalar,
            &element_offset,
            &dst,
        ),
        SVM => assemble::scatter(exec, pred, it.channels, &scalar, &element_offset, &src),
        RAW_SEND => assemble::raw_send(exec, pred, it.num_src, it.num_dst, &scalar, &src, &dst),
        _ => {
            let (src0, src1) = (operand(&it.src0), operand(&it.src1));
            assemble::shl(exec, pred, &operand(&it.dst), &src0, &src1)
        }
    };
    let rest = [
        (Slot::Opcode, vec![it.opcode]),
        (Slot::SubOpcode, vec![it.sub_opcode]),
        (Slot::Modifiers, vec![it.modifiers]),
        (Slot::BlockSize, vec![it.block_size]),
        (Slot::Scale, it.scale.to_le_bytes().to_vec()),
        (Slot::ExMsgDesc, it.ex_msg_desc.to_le_bytes().to_vec()),
    ];
    for (slot, bytes) in rest {
        if draft.get(slot).is_some() {
            draft.set(slot, &bytes);
        }
    }
    draft
}

fn operand(operand: &VectorOperand) -> Operand {
    let mut stored = match (operand.is_immediate(), operand.immediate_type) {
        (true, element_type::UQ) => {
            let value = u64::from(operand.high) << 32 | u64::from(operand.low);
            assemble::immediate_uq(value)
        }
        (true, type_code) => assemble::immediate(type_code, operand.low),
        _ => assemble::general(operand.index, operand.row, operand.column, operand.region),
    };
    stored[0] = (Part::Tag, vec![operand.tag]);
    stored
}

fn raw_operand(operand: &RawOperand) -> Operand {
    assemble::raw(operand.index, operand.offset)
}
